"""Every refusal in words: by names, by lines of the text, with the path or the loop."""
from dataclasses import dataclass, field

import datafile
from boardtext import namer
from faults import one_fault
from model import counted, usable_deadline


@dataclass
class Refusal:
    where: str
    what: str
    no: int
    words: str
    path: list = field(default_factory=list)  # the parts of the path or of the loop, in the order of their links

    def __str__(self):
        return f"{self.where}: {self.what} ({self.no}): {self.words}"


def refusals(story):
    """All refusals of a story, in their order."""
    found = [refused_load(story)] if story.load.no else []
    found += [refused_step(story.source, step) for step in story.steps if not step.taken]
    return found + ([stopped(story)] if story.stopped else [])


# ---- a board


def refused_load(story):
    source, answer = story.source, story.load
    if answer.no in (9, 10) and source.board is not None:
        refusal = loop(source, source.board, source.lines, answer) if answer.no == 9 else slow(source, source.board, answer)
        refusal.where = source.board_name if answer.no == 9 else source.lines["deadline"]
        refusal.what = "the board is refused"
        return refusal
    where, words = byte_words(source, answer.place)
    return Refusal(where, "the board is refused", answer.no, fault_words(source, where, words))


def fault_words(source, where, words):
    """What is wrong at a byte: in the reader's own words where it has found the same fault."""
    return next((fault.words for fault in source.faults if fault.where == where), words)


def loop(source, board, lines, answer):
    """A shortest loop through the lowest part on one."""
    parts = shortest_loop(board.links, answer.place)
    following = parts[1:] + parts[:1]
    links = [lines["link", one, two] for one, two in zip(parts, following)]
    chain = "".join(f" -> {source.name(part)} ({link})" for part, link in zip(following, links))
    return Refusal("", "", 9, f"a loop: {source.name(parts[0])}{chain}; take out one of these links", parts)


def shortest_loop(links, part):
    """The parts of a shortest loop through a part, from it onward."""
    ways, reached = [[part]], {part}
    for way in ways:
        for source, target in sorted(links):
            if source == way[-1] and target == part:
                return way
            if source == way[-1] and target not in reached:
                reached.add(target)
                ways.append(way + [target])
    return [part]


def slow(source, board, answer):
    usable = usable_deadline(board.deadline, board.rule)
    path = list(answer.path)
    delays = ", the delays of their links included" if any(board.links.get(pair) for pair in zip(path, path[1:])) else ""
    takes = "take" if len(path) > 1 else "takes"
    words = f"{', '.join(map(source.name, path))} {takes} {counted(answer.place, 'tick')} at {'their' if len(path) > 1 else 'its'} fastest{delays}"
    guard = f" (deadline {board.deadline} leaves {usable} under rule B)" if usable != board.deadline else ""
    return Refusal("", "", 10, f"{words}, {answer.place - usable} too many{guard}", path)


# ---- an order


def refused_step(source, step):
    """An order that was read and refused."""
    before, answer, ends = step.before, step.answer, step.order.numbers
    if answer.no == 9:
        refusal = loop(source, step.order.made(before.board), {**before.lines, ("link",) + ends[:2]: step.where}, answer)
    elif answer.no == 10:
        refusal = slow(source, step.order.made(before.board), answer)
    else:
        refusal = Refusal("", "", answer.no, order_words(source, step, before))
    refusal.where, refusal.what = step.where, f"{step.text} is refused"
    return refusal


def order_words(source, step, before):
    """What is wrong with an order that no path and no loop speaks of."""
    answer, key = step.answer, ("link",) + step.order.numbers[:2]
    if answer.no == 7:
        return "a link from a part to itself"
    if answer.no == 13:
        return f"this link is there already ({before.lines[key]})"
    if answer.no == 14:
        return "there is no such link" + missing_link(key, before)
    if answer.no == 15:
        return f"the board has {len(before.board.links)} links already, and can have no more"
    if answer.no == 17:
        count = len(before.board.curves)
        return f"the board has no part {answer.place}; its parts are 0 to {count - 1}, {source.name(0)} to {source.name(count - 1)}"
    return f"see `explain {answer.no}`"


def missing_link(key, before):
    turned = ("link", key[2], key[1])
    if key in before.gone:
        return f"; it was removed at {before.gone[key]}"
    if turned in before.lines:
        return f"; there is one the other way ({before.lines[turned]})"
    return ""


def stopped(story):
    """An order that cannot be read, which ends the orders."""
    source = story.source
    place = source.read_to + story.stopped.place
    where, words = byte_words(source, place, of_orders=True)
    left = len(source.orders_data) - source.read_to
    words = f"{fault_words(source, where, words)}; orders before it that were read: {len(source.orders)}; bytes from there on: {left}"
    return Refusal(where, "the orders stop here", story.stopped.no, words)


# ---- bytes


def bytes_of(source, of_orders):
    """The name, the bytes and the numbers of the design file or of the orders."""
    if of_orders:
        return source.orders_name, source.orders_data, source.order_fields
    return source.board_name, source.board_data, source.fields


def byte_words(source, place, of_orders=False):
    """Where a byte of the design file or of the orders comes from, and what number it is of."""
    name, data, fields = bytes_of(source, of_orders)
    found = datafile.field_at(fields, place)
    where = None if name.endswith(".dat") else line_of(source, found.key)
    past = "the end, after " if place == len(data) else ""
    return where or f"{name}: byte {place}", past + found.what


def line_of(source, key):
    """The line of the text that a number of the packed file comes from."""
    if isinstance(key, tuple) and key[0] == "order":
        return source.orders[key[1] - 1].where
    if isinstance(key, tuple) and key[0] == "link":
        key = ("link",) + sorted(source.board.links)[key[1] - 1]
    return source.lines.get(key, source.board_name)


def byte_line(source, place, of_orders=False):
    """A byte of a packed file, for people: its number, and its line, as `unpack` would write it where there is no text."""
    name, data, fields = bytes_of(source, of_orders)
    file = "orders.dat" if of_orders else "board.dat"
    if place >= len(data):
        raise one_fault(name, f"there is no byte {place}; {file} has {len(data)} bytes")
    where, words = byte_words(source, place, of_orders)
    line = unpacked_line(source, datafile.field_at(fields, place).key)
    said = f"byte {place} of {file}: {words}" if where != f"{name}: byte {place}" else words
    return f"{where}: {said}" + (f", in `{line}`" if line else "")


def unpacked_line(source, key):
    name = namer(source.names)
    if isinstance(key, tuple) and key[0] == "order" and key[1] <= len(source.orders):
        return source.orders[key[1] - 1].order.text(name)
    if source.board is None or not isinstance(key, tuple):
        return f"deadline {source.board.deadline}" if source.board and key == "deadline" else None
    if key[0] == "part":
        return f"part {name(key[1])} {source.board.curves[key[1]].text()}"
    if key[0] == "link":
        return "link {} {}".format(*map(name, sorted(source.board.links)[key[1] - 1]))
    return None
