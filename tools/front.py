"""The command ./boddivarn: its words, and what each does. Thin over the proved programs: nothing is planned here."""
import argparse
import os
import re
import sys
import tempfile

import chart
import explain
import guide
import page
import programs
import report
import worth
from boardtext import board_text, order_text
from faults import CannotRun, InputFaults, WrongUse, one_fault
from limits import LINK_DELAYS_KNOWN, READS
from model import counted
from sources import source_of
from story import tell

DONE, REFUSED, WRONG_USE, CANNOT_RUN = 0, 1, 2, 3
STATUS = "exit status: 0 done, 1 something is refused or at fault, 2 wrong use, 3 the programs cannot be built or run"


# ---- the words


def plan(words):
    """The program's own table, byte for byte; where something is refused, why, on standard error."""
    source = source_of(words.board, words.orders)
    say_notes(source)
    with programs.ready():
        if rule_is_lost(source):
            return plan_by_calls(source)
        table = programs.run("boddivarn", {"board.dat": source.board_data, "orders.dat": source.orders_data, "names.txt": source.sheet})
        sys.stdout.buffer.write(table)
        sys.stdout.flush()
        if not re.search(rb"^(refused|order \d+ refused|stopped) ", table, re.M):
            return DONE
        story = tell(source)
    if refused_lines(story) != re.findall(r"^(?:refused|order \d+ refused|stopped) .*$", table.decode("ascii"), re.M):
        raise CannotRun("the two programs do not refuse the same")
    return say_refusals(story)


def rule_is_lost(source):
    """Whether the board has a rule that its file does not say: the program would plan it under rule A."""
    return source.rule != "A" and not LINK_DELAYS_KNOWN


def plan_by_calls(source):
    """The same lines of a board that the program cannot be handed, by the same library."""
    story = tell(source)
    say("the program names rule A; under rule B the program calls has planned this board")
    sys.stdout.write(table_of(story))
    return DONE if story.is_clean else say_refusals(story)


def table_of(story):
    """The lines that the program prints of a story."""
    lines = refused_lines(story)
    if not story.load.no:
        lines.append("part label start delay end power")
        lines += [" ".join(map(str, (part, story.source.name(part), *row))) for part, row in enumerate(story.state.parts)]
        lines += [f"total {story.state.total}", f"orders {story.taken} taken {story.refused} refused"]
    return "".join(line + "\n" for line in lines)


def refused_lines(story):
    """What the program prints of a story's refusals."""
    if story.load.no:
        return [f"refused {story.load.no} {story.load.place}"]
    lines = [f"order {step.count} refused {step.answer.no}" for step in story.steps if not step.taken]
    if story.stopped:
        lines.append(f"stopped {story.stopped.no} {story.source.read_to + story.stopped.place}")
    return lines


def check(words):
    """Every fault of the text, without the planner."""
    source = source_of(words.board, words.orders)
    say_notes(source)
    if source.faults:
        raise InputFaults(source.faults)
    board = source.board
    print(f"{source.board_name}: {counted(len(board.curves), 'part')}, {counted(len(board.links), 'link')}, deadline {board.deadline}: no fault")
    if source.orders_name:
        print(f"{source.orders_name}: {counted(len(source.orders), 'order')}: no fault")
    return DONE


def explain_word(words):
    """A number, a byte, or every refusal of a board and its orders."""
    if words.board is None:
        print(guide.headings(), end="")
        return DONE
    if words.board.isdigit() and not os.path.exists(words.board):
        return explain_number(words.board)
    source = source_of(words.board, words.orders)
    say_notes(source)
    if words.byte is not None or words.order_byte is not None:
        return explain_byte(source, words)
    with programs.ready():
        story = tell(source)
    refusals = explain.refusals(story)
    print("".join(f"{refusal}\n" for refusal in refusals) or "nothing is refused\n", end="")
    return REFUSED if refusals else DONE


def explain_number(word):
    said = guide.entry(int(word)) if len(word) < 5 else None
    if said is None:
        print(f"boddivarn: there is no refusal {word[:20]}; `boddivarn explain` lists them", file=sys.stderr)
        return WRONG_USE
    print(said, end="")
    return DONE


def explain_byte(source, words):
    if words.byte is not None:
        print(explain.byte_line(source, words.byte))
    if words.order_byte is not None:
        if source.orders_name is None:
            raise one_fault(source.board_name, "there are no orders beside this board")
        print(explain.byte_line(source, words.order_byte, of_orders=True))
    return DONE


def report_word(words):
    return with_story(words, lambda source: report.report(source, words.latest, words.diff), said=words.diff)


def chart_word(words):
    return with_story(words, chart.chart, words.out)


def page_word(words):
    return with_story(words, page.page, words.out)


def save(words):
    """The board after the orders, as text."""
    def saved(source):
        story = tell(source)
        return story, "" if story.load.no else board_text(story.ledger.board, source.names)

    return with_story(words, saved, words.out)


def worth_word(words):
    def valued(source):
        story, rows = worth.worth(source, words.first, words.last)
        if rows and words.svg:
            give(worth.plot(story, rows), words.svg)
        return story, worth.text(story, rows) if rows else ""

    return with_story(words, valued)


def with_story(words, make, out=None, said=False):
    """What is made of a story goes out; refusals are said in words, where they are not said in it."""
    source = source_of(words.board, words.orders)
    say_notes(source)
    with programs.ready():
        story, text = make(source)
    if text:
        give(text, out)
    if story.is_clean:
        return DONE
    return REFUSED if text and said else say_refusals(story)


def pack(words):
    """The files that the program reads."""
    source = source_of(words.board, words.orders)
    say_notes(source)
    if rule_is_lost(source):
        raise one_fault(source.lines["rule"], f"rule {source.rule} cannot be packed: a design file of version 1 does not say it, and the program names A")
    files = {"board.dat": source.board_data, "orders.dat": source.orders_data, "names.txt": source.sheet}
    for name, data in files.items():
        if len(data) > READS[name]:
            raise one_fault(os.path.join(words.out, name), f"would have {len(data)} bytes, and the program reads {READS[name]}")
    write_into(words.out, files)
    return DONE


def unpack(words):
    """The texts of a folder of files; what can be read is written, and what cannot is said."""
    if not os.path.isdir(words.folder):
        raise one_fault(words.folder, "there is no such folder" if not os.path.exists(words.folder) else "is no folder")
    board_path, orders_path = (os.path.join(words.folder, name) for name in ("board.dat", "orders.dat"))
    source = source_of(board_path, orders_path if os.path.exists(orders_path) else None)
    say_notes(source)
    texts = {}
    if source.board is not None:
        texts["board.txt"] = board_text(source.board, source.names)
    if source.orders:
        texts["orders.txt"] = order_text([line.order for line in source.orders], source.names)
    if words.out:
        write_into(words.out, {name: text.encode("ascii") for name, text in texts.items()})
    else:
        print("".join(f"# {name}\n{text}" for name, text in texts.items()), end="")
    if source.faults:
        raise InputFaults(source.faults)
    return DONE


# ---- what goes out


def say(words):
    print(f"boddivarn: note: {words}", file=sys.stderr)


def say_notes(source):
    for note in source.notes:
        say(note)


def say_refusals(story):
    for refusal in explain.refusals(story):
        print(refusal, file=sys.stderr)
    return REFUSED


def give(text, out):
    if out:
        write_file(out, text.encode("utf-8", "backslashreplace"))
    else:
        sys.stdout.write(text)


def write_into(folder, files):
    """Files of a folder, which is made where it is missing."""
    try:
        os.makedirs(folder, exist_ok=True)
    except OSError as error:
        raise one_fault(folder, f"cannot be written: {error.strerror}") from None
    for name, data in files.items():
        write_file(os.path.join(folder, name), data)


def write_file(path, data):
    """A whole file or none."""
    folder = os.path.dirname(path) or "."
    try:
        handle, draft = tempfile.mkstemp(dir=folder, prefix=".boddivarn-")
        with os.fdopen(handle, "wb") as file:
            file.write(data)
        mask = os.umask(0)
        os.umask(mask)
        os.chmod(draft, 0o666 & ~mask)
        try:
            os.replace(draft, path)
        except OSError:
            os.remove(draft)
            raise
    except OSError as error:
        raise one_fault(path, f"cannot be written: {error.strerror}") from None


# ---- the command line


def count(word):
    """A number on the command line."""
    if not (word.isascii() and word.isdigit() and len(word) < 10):
        raise argparse.ArgumentTypeError(f"{word[:40]!r} is not a whole number")
    return int(word)


BOARD = "a board text, or a folder with board.txt, or with board.dat and names.txt"
ORDERS = "an order text; of a folder its orders.txt or orders.dat where none is named"


def add_word(words, name, do, what, more=""):
    """A word that takes no board."""
    described = f"{what[0].upper()}{what[1:]}.{' ' + more if more else ''}"
    parser = words.add_parser(name, help=what, description=described, epilog=STATUS, allow_abbrev=False)
    parser.set_defaults(do=do)
    return parser


def add_board_word(words, name, do, what, more=""):
    """A word that takes a board and orders."""
    parser = add_word(words, name, do, what, more)
    parser.add_argument("board", metavar="BOARD", help=BOARD)
    parser.add_argument("orders", metavar="ORDERS", nargs="?", help=ORDERS)
    return parser


def add_made(words, name, do, what):
    """A word that takes a board and makes something."""
    parser = add_board_word(words, name, do, what)
    parser.add_argument("--out", metavar="FILE", help="where it goes (default: standard output)")


def parser_of():
    parser = argparse.ArgumentParser(
        prog="boddivarn", allow_abbrev=False, epilog=STATUS,
        description="Gives each part of a board a delay, so that the board keeps its deadline at the least power. docs/GUIDE.md says more.",
    )
    words = parser.add_subparsers(metavar="WORD", required=True)
    add_board_word(words, "plan", plan, "print the held budget of a board after its orders", "Why something is refused is said on standard error.")
    add_board_word(words, "check", check, "say every fault of a board text and its orders, with file and line", "Loops and time are the planner's: see plan.")
    add_explain(words)
    add_report(words)
    add_made(words, "chart", chart_word, "draw a timing chart (SVG)")
    add_made(words, "page", page_word, "write all that is to be known of a board as one HTML file")
    add_worth(words)
    add_made(words, "save", save, "print the board after its orders as text, names kept")
    packed = add_board_word(words, "pack", pack, "write board.dat, orders.dat and names.txt for the program")
    packed.add_argument("--out", metavar="DIR", required=True, help="the folder to write to")
    unpacked = add_word(words, "unpack", unpack, "print board.dat and orders.dat of a folder as text")
    unpacked.add_argument("folder", metavar="DIR")
    unpacked.add_argument("--out", metavar="DIR", help="write board.txt and orders.txt there instead")
    return parser


def add_explain(words):
    parser = add_word(words, "explain", explain_word, "say in words what is refused", "A number alone gives the guide's entry for it.")
    parser.add_argument("board", metavar="BOARD|NUMBER", nargs="?", help=BOARD + "; or a refusal's number")
    parser.add_argument("orders", metavar="ORDERS", nargs="?", help=ORDERS)
    parser.add_argument("--byte", type=count, metavar="N", help="say what byte N of board.dat is, and from which line it comes")
    parser.add_argument("--order-byte", type=count, metavar="N", help="the same of orders.dat")


def add_report(words):
    more = "Latest ends, spare ticks and the latest arrivals are shown where the planner that is built says them."
    parser = add_board_word(words, "report", report_word, "show each part, the critical paths and the totals", more)
    parser.add_argument("--latest", action="store_true", help="the latest arrivals at the same price beside the earliest")
    parser.add_argument("--diff", action="store_true", help="what each order changed instead: delays, powers, total")


def add_worth(words):
    parser = add_board_word(words, "worth", worth_word, "show what each tick of the deadline saves", "Without --from and --to: every deadline that matters.")
    parser.add_argument("--from", dest="first", type=count, metavar="TICKS", help="the first deadline")
    parser.add_argument("--to", dest="last", type=count, metavar="TICKS", help="the last deadline")
    parser.add_argument("--svg", metavar="FILE", help="draw it there too")


def main(arguments):
    sys.stdout.reconfigure(encoding="utf-8", errors="backslashreplace")
    try:
        words = parser_of().parse_args(arguments)
        status = words.do(words)
        sys.stdout.flush()
        return status
    except InputFaults as error:
        print(error, file=sys.stderr)
        return REFUSED
    except WrongUse as error:
        print(f"boddivarn: {error}", file=sys.stderr)
        return WRONG_USE
    except CannotRun as error:
        print(f"boddivarn: {error}", file=sys.stderr)
        return CANNOT_RUN
    except BrokenPipeError:
        os.dup2(os.open(os.devnull, os.O_WRONLY), sys.stdout.fileno())
        return DONE
    except KeyboardInterrupt:
        return 130
