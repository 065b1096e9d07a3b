"""Every word of the command on every example, held to stored outputs; and what each does with good and bad input.

After a change that is meant, `STORE=1 python3 -m unittest test_words` in tools/ stores the outputs anew; look at the difference before you commit it.
"""
import io
import os
import random
import subprocess
import sys
import tempfile
import unittest

import front
import programs
import sources
import story

ROOT = programs.ROOT
STORED = os.path.join(ROOT, "tools", "expected")
NOTE = "boddivarn: note: the program names rule A; under rule B the program calls has planned this board\n"
RULE_A = ("D", "K", "sampler")
EXAMPLES = RULE_A + ("guard",)
# The name of a stored output, and the words that make it. OUT stands for a file that is stored too.
WORDS = {
    "plan": ["plan", "BOARD"],
    "check": ["check", "BOARD"],
    "explain": ["explain", "BOARD"],
    "report": ["report", "BOARD"],
    "report-latest": ["report", "BOARD", "--latest"],
    "report-diff": ["report", "BOARD", "--diff"],
    "chart": ["chart", "BOARD", "--out", "OUT.svg"],
    "page": ["page", "BOARD", "--out", "OUT.html"],
    "worth": ["worth", "BOARD", "--svg", "OUT.svg"],
    "save": ["save", "BOARD"],
}


def setUpModule():
    with programs.ready():
        pass


def boddivarn(*words, cwd=ROOT, **more):
    """Status, output and what was said."""
    command = [sys.executable, os.path.join(ROOT, "boddivarn"), *words]
    ran = subprocess.run(command, cwd=cwd, capture_output=True, timeout=120, **more)
    return ran.returncode, ran.stdout.decode("utf-8"), ran.stderr.decode("utf-8")


def called(*words, cwd):
    """The same without a process of its own."""
    before, streams = os.getcwd(), (sys.stdout, sys.stderr)
    sys.stdout, sys.stderr = (io.TextIOWrapper(io.BytesIO(), encoding="utf-8") for _ in range(2))
    os.chdir(cwd)
    try:
        status = front.main(list(words))
    except SystemExit as ended:
        status = ended.code
    finally:
        os.chdir(before)
        (out, said), (sys.stdout, sys.stderr) = (sys.stdout, sys.stderr), streams
    for stream in (out, said):
        stream.flush()
    return status, out.buffer.getvalue().decode("utf-8"), said.buffer.getvalue().decode("utf-8")


class Stored(unittest.TestCase):
    maxDiff = None

    def hold(self, name, text):
        path = os.path.join(STORED, name)
        if os.environ.get("STORE"):
            os.makedirs(os.path.dirname(path), exist_ok=True)
            with open(path, "w", encoding="utf-8") as file:
                file.write(text)
        with open(path, encoding="utf-8") as file:
            self.assertEqual(text, file.read(), f"{name} is not as it was stored")

    def test_every_word_on_every_example(self):
        for example in EXAMPLES:
            for name, words in WORDS.items():
                with self.subTest(example=example, word=name), tempfile.TemporaryDirectory() as folder:
                    out = next((word for word in words if word.startswith("OUT")), None)
                    made = os.path.join(folder, out or "")
                    places = {"BOARD": os.path.join("examples", example), out: made}
                    status, said, errors = boddivarn(*(places.get(word, word) for word in words))
                    shown = " ".join(places.get(word, word) if word != out else word for word in words)
                    self.hold(os.path.join(example, name + ".txt"), f"$ boddivarn {shown}\n{said}{errors}status {status}\n")
                    if out:
                        with open(made, encoding="utf-8") as file:
                            self.hold(os.path.join(example, name + os.path.splitext(out)[1]), file.read())

    def test_help(self):
        for word in ("", "plan", "check", "explain", "report", "chart", "page", "worth", "save", "pack", "unpack"):
            status, said, errors = boddivarn(*word.split(), "--help", env={**os.environ, "COLUMNS": "100"})
            self.assertEqual((status, errors), (0, ""))
            self.assertIn("usage: boddivarn", said)
            self.assertIn("exit status", said)

    def test_plan_prints_the_programs_own_table(self):
        with tempfile.TemporaryDirectory() as folder:
            for example in RULE_A:
                place = os.path.join(ROOT, "examples", example)
                self.assertEqual(boddivarn("pack", place, "--out", folder)[0], 0)
                table = subprocess.run([os.path.join(ROOT, "tools", "run"), "boddivarn"], cwd=folder, capture_output=True, check=True).stdout
                self.assertEqual(boddivarn("plan", place)[1], table.decode("ascii"))
                self.assertEqual(front.table_of(story.tell(sources.source_of(place))), table.decode("ascii"))  # as under rule B

    def test_under_rule_b(self):
        status, out, said = called("plan", os.path.join("examples", "guard"), cwd=ROOT)
        self.assertEqual((status, out), (1, "order 2 refused 10\npart label start delay end power\n0 FRONT 0 64 64 708\n1 BACK 64 63 127 734\n"
                                            "total 1442\norders 1 taken 1 refused\n"))
        self.assertEqual(said, NOTE + "examples/guard/orders.txt:3: deadline 64 is refused (10): FRONT, BACK take 80 ticks at their fastest, 17 too many"
                         " (deadline 64 leaves 63 under rule B)\n")
        fault = "examples/guard/board.txt:2: rule B cannot be packed: a design file of version 1 does not say it, and the program names A\n"
        self.assertEqual(called("pack", os.path.join("examples", "guard"), "--out", "/nowhere", cwd=ROOT), (1, "", fault))

    def test_runs_at_once_on_different_boards(self):
        alone = {example: boddivarn("plan", os.path.join("examples", example)) for example in EXAMPLES}
        command = [sys.executable, os.path.join(ROOT, "boddivarn"), "plan"]
        running = []
        for example in EXAMPLES * 4:
            running.append((example, subprocess.Popen(command + [os.path.join("examples", example)], cwd=ROOT, stdout=subprocess.PIPE, stderr=subprocess.PIPE)))
        for example, run in running:
            out, said = run.communicate(timeout=120)
            self.assertEqual((run.returncode, out.decode(), said.decode()), alone[example])


class Refused(unittest.TestCase):
    """Boards and orders that the planner refuses, explained by names and lines."""

    BOARD = "deadline 9\npart A fastest 2 power 9 runs 1@5\npart B fastest 3 power 9\npart C fastest 4 power 9\nlink A B\nlink B C\n"

    def setUp(self):
        place = tempfile.TemporaryDirectory()
        self.addCleanup(place.cleanup)
        self.place = place.name

    def write(self, name, data):
        with open(os.path.join(self.place, name), "wb") as file:
            file.write(data if isinstance(data, bytes) else data.encode())

    def run_words(self, *words):
        return called(*words, cwd=self.place)

    def explained(self, board, orders=None):
        self.write("board.txt", board)
        words = ["board.txt"]
        if orders is not None:
            self.write("orders.txt", orders)
            words.append("orders.txt")
        status, said, errors = self.run_words("explain", *words)
        planned, _, why = self.run_words("plan", *words)
        self.assertEqual((status, errors, planned), (1, "", 1))
        self.assertEqual(why, said)  # plan says the same by itself
        return said.split("\n")[:-1]

    def test_boards(self):
        loop = self.BOARD + "link C A # back\n"
        self.assertEqual(self.explained(loop), [
            "board.txt: the board is refused (9): a loop: A -> B (board.txt:5) -> C (board.txt:6) -> A (board.txt:7); take out one of these links"
        ])
        slow = self.BOARD.replace("deadline 9", "deadline 7")
        self.assertEqual(self.explained(slow), ["board.txt:1: the board is refused (10): A, B, C take 9 ticks at their fastest, 2 too many"])
        alone = "deadline 4\npart ONLY fastest 5 power 0\n"
        self.assertEqual(self.explained(alone), ["board.txt:1: the board is refused (10): ONLY takes 5 ticks at its fastest, 1 too many"])
        self.assertEqual(self.run_words("plan", "board.txt")[1], "refused 10 5\n")
        for word in ("report", "save", "chart", "worth"):
            self.assertEqual(self.run_words(word, "board.txt")[:2], (1, ""))

    def test_orders(self):
        orders = "add A B\nremove A C\nadd C A # closes a loop\nadd B B\nremove A B\nremove A B\nremove B A\nadd A @5\ndeadline 6\nadd A C\nremove C A\n"
        self.assertEqual(self.explained(self.BOARD, orders), [
            "orders.txt:1: add A B is refused (13): this link is there already (board.txt:5)",
            "orders.txt:2: remove A C is refused (14): there is no such link",
            "orders.txt:3: add C A is refused (9): a loop: A -> B (board.txt:5) -> C (board.txt:6) -> A (orders.txt:3); take out one of these links",
            "orders.txt:4: add B B is refused (7): a link from a part to itself",
            "orders.txt:6: remove A B is refused (14): there is no such link; it was removed at orders.txt:5",
            "orders.txt:7: remove B A is refused (14): there is no such link",
            "orders.txt:8: add A @5 is refused (17): the board has no part 5; its parts are 0 to 2, A to C",
            "orders.txt:9: deadline 6 is refused (10): B, C take 7 ticks at their fastest, 1 too many",
            "orders.txt:11: remove C A is refused (14): there is no such link; there is one the other way (orders.txt:10)",
        ])

    def test_no_room_for_a_link(self):
        parts = "deadline 4000\n" + "".join(f"part P{p} fastest 1 power 0\n" for p in range(40))
        pairs = [(p, q) for p in range(40) for q in range(p + 1, 40)]
        board = parts + "".join(f"link P{p} P{q}\n" for p, q in pairs[:256])
        last = "add P{} P{}\n".format(*pairs[256])
        self.assertEqual(self.explained(board, last), [f"orders.txt:1: {last.strip()} is refused (15): the board has 256 links already, and can have no more"])

    def test_binary_files(self):
        self.assertEqual(self.run_words("pack", os.path.join(ROOT, "examples", "K"), "--out", "k")[0], 0)
        with open(os.path.join(self.place, "k", "board.dat"), "rb") as file:
            data = file.read()
        for change, why in [
            ((9, b"\x14"), "k/board.dat: byte 9: the board is refused (5): the saving of run 2 of part 0 (AMP) is 20, not below the 20 of the run before"),
            ((1, b"\x00"), "k/board.dat: byte 1: the board is refused (4): the deadline is 0, which is not from 1 to 4095"),
            ((len(data), b"\0"), "k/board.dat: byte 34: the board is refused (8): bytes follow after the design"),
            ((33, b""), "k/board.dat: byte 33: the board is refused (1): the file ends within the to of link 3"),
            ((1, b"\x05"), "k/board.dat: byte 1: the board is refused (10): AMP, VIA, BUF take 6 ticks at their fastest, 1 too many"),
        ]:
            self.write("k/board.dat", data[:change[0]] + change[1] + (data[change[0] + 1:] if change[1] else b""))
            self.assertEqual(self.run_words("explain", "k")[:2], (1, why + "\n"))
            self.assertEqual(self.run_words("plan", "k")[2], why + "\n")
        self.write("k/board.dat", bytes.fromhex("010a02 010000 010000 02 0001 0100".replace(" ", "")))
        loop = "k/board.dat: the board is refused (9): a loop: AMP -> VIA (k/board.dat: byte 10) -> AMP (k/board.dat: byte 12); take out one of these links\n"
        self.assertEqual(self.run_words("explain", "k")[:2], (1, loop))
        self.write("k/board.dat", data)
        self.write("k/orders.dat", bytes.fromhex("0109 0203 8000"))
        self.assertEqual(self.run_words("plan", "k")[2], "k/orders.dat: byte 4: the orders stop here (2): the to of order 2 is not in its shortest form;"
                         " orders before it that were read: 1; bytes from there on: 4\n")

    def test_bytes(self):
        self.write("board.txt", self.BOARD)
        self.write("orders.txt", "deadline 9\nadd A C\n")
        for words, said in [
            (["--byte", "1"], "board.txt:1: byte 1 of board.dat: the deadline, in `deadline 9`"),
            (["--byte", "7"], "board.txt:2: byte 7 of board.dat: the saving of run 1 of part 0 (A), in `part A fastest 2 power 9 runs 1@5`"),
            (["--byte", "17"], "board.txt:6: byte 17 of board.dat: the from of link 2, in `link B C`"),
            (["--order-byte", "4"], "orders.txt:2: byte 4 of orders.dat: the to of order 2, in `add A C`"),
        ]:
            self.assertEqual(self.run_words("explain", "board.txt", "orders.txt", *words), (0, said + "\n", ""))
        self.assertEqual(self.run_words("pack", "board.txt", "--out", "packed")[0], 0)
        os.remove(os.path.join(self.place, "packed", "names.txt"))
        said = "packed/board.dat: byte 7: the saving of run 1 of part 0 (P0), in `part P0 fastest 2 power 9 runs 1@5`\n"
        note = "boddivarn: note: packed/names.txt: there are no names; parts are called P0, P1 and so on here\n"
        self.assertEqual(self.run_words("explain", "packed", "--byte", "7"), (0, said, note))
        none = (1, "", "board.txt: there is no byte 9999; board.dat has 19 bytes\n")
        self.assertEqual(self.run_words("explain", "board.txt", "--byte", "9999"), none)
        self.assertEqual(self.run_words("explain", "board.txt", "--order-byte", "0"), (1, "", "board.txt: there are no orders beside this board\n"))


class BadInput(unittest.TestCase):
    """Bad input one by one: a line that says where and what, status 1, and no traceback."""

    def setUp(self):
        place = tempfile.TemporaryDirectory()
        self.addCleanup(place.cleanup)
        self.place = place.name
        self.write("good.txt", Refused.BOARD)

    def write(self, name, data):
        path = os.path.join(self.place, name)
        os.makedirs(os.path.dirname(path), exist_ok=True)
        with open(path, "wb") as file:
            file.write(data if isinstance(data, bytes) else data.encode())

    def said(self, *words, status=1):
        got, out, errors = called(*words, cwd=self.place)
        self.assertNotIn("Traceback", errors)
        self.assertEqual((got, out), (status, ""), errors)
        return errors

    def test_texts(self):
        for name, data, fault in [
            ("empty.txt", "", "empty.txt: the deadline is missing; write: deadline TICKS"),
            ("blank.txt", " \n\t\n", "blank.txt: the deadline is missing"),
            ("bom.txt", b"\xef\xbb\xbf" + Refused.BOARD.encode(), "bom.txt:1: the text begins with a byte order mark; save it without one"),
            ("utf8.txt", Refused.BOARD + "link \u00c4 B\n", "utf8.txt:7: '\u00c4' is not ASCII"),
            ("huge.txt", "deadline " + "9" * 5000 + "\n", "huge.txt:1: deadline '9999999999999999'.. (5000 characters) is not from 1 to 4095"),
            ("negative.txt", "deadline -3\n", "negative.txt:1: deadline is not a whole number: '-3'"),
            ("fraction.txt", "deadline 1.5\n", "fraction.txt:1: deadline is not a whole number: '1.5'"),
            ("missing.txt", "deadline\n", "missing.txt:1: deadline is missing"),
            ("zeros.txt", b"\0" * 5000, "zeros.txt:1: byte 0 has no place in a text"),
            ("board.png", b"\x89PNG\r\n\x1a\n\0\0", "board.png:"),
        ]:
            self.write(name, data)
            for word in ("plan", "check", "explain", "report", "save"):
                self.assertIn(fault, self.said(word, name))

    def test_names_twice_and_unknown_parts(self):
        self.write("bad.txt", Refused.BOARD + "part A fastest 1 power 0\nlink A X\n")
        self.assertEqual(self.said("check", "bad.txt"), "bad.txt:7: a second part 'A'; the first stands at bad.txt:2\nbad.txt:8: no part is called 'X'\n")

    def test_faults_of_board_and_orders_together(self):
        self.write("bad.txt", Refused.BOARD + "link A X\n")
        self.write("orders.txt", "deadline 0\nadd A Y\n")
        self.assertEqual(self.said("plan", "bad.txt", "orders.txt").count("\n"), 3)
        self.assertEqual(self.said("check", "bad.txt", "none.txt"), "bad.txt:7: no part is called 'X'\nnone.txt: there is no such file\n")

    def test_files_that_are_not_there(self):
        self.assertEqual(self.said("plan", "none.txt"), "none.txt: there is no such file or folder\n")
        self.assertEqual(self.said("plan", "good.txt", "none.txt"), "none.txt: there is no such file\n")
        self.assertEqual(self.said("unpack", "none"), "none: there is no such folder\n")
        self.assertEqual(self.said("unpack", "good.txt"), "good.txt: is no folder\n")
        os.mkdir(os.path.join(self.place, "hollow"))
        self.assertEqual(self.said("plan", "hollow"), "hollow: the folder has neither board.txt nor board.dat\n")
        self.assertEqual(self.said("unpack", "hollow"), "hollow/board.dat: there is no such file or folder\n")

    def test_folders_for_files(self):
        os.makedirs(os.path.join(self.place, "folder", "board.txt"))
        self.assertEqual(self.said("plan", "folder"), "folder/board.txt: is a folder; a file is wanted here\n")
        self.assertEqual(self.said("plan", "good.txt", "folder"), "folder: is a folder; a file is wanted here\n")

    def test_files_that_cannot_be_written(self):
        os.mkdir(os.path.join(self.place, "folder"))
        for words in (["chart", "good.txt", "--out", "folder"], ["page", "good.txt", "--out", "good.txt/x.html"], ["save", "good.txt", "--out", "nowhere/saved.txt"],
                      ["pack", "good.txt", "--out", "good.txt"], ["pack", "good.txt", "--out", "/proc/none"], ["worth", "good.txt", "--svg", "folder"]):
            self.assertRegex(self.said(*words), r": cannot be written: .*\n")
        self.assertEqual(os.listdir(os.path.join(self.place, "folder")), [])

    def test_orders_that_the_program_would_not_read(self):
        self.write("many.txt", "deadline 9\n" * 40000)
        fault = "many.txt:32769: with this order the stream passes 65536 bytes, and the program reads no more;" \
            " put it and the orders after it into another run\n"
        for words in (["plan", "good.txt", "many.txt"], ["check", "good.txt", "many.txt"], ["pack", "good.txt", "many.txt", "--out", "packed"]):
            self.assertEqual(self.said(*words), fault)
        self.write("most.txt", "deadline 9\n" * 32768)
        status, out, errors = called("plan", "good.txt", "most.txt", cwd=self.place)
        self.assertEqual((status, out[-29:], errors), (0, "orders 32768 taken 0 refused\n", ""))

    def test_files_that_the_program_would_not_read(self):
        self.assertEqual(called("pack", "good.txt", "--out", "packed", cwd=self.place)[0], 0)
        for name, most in (("orders.dat", 65536), ("names.txt", 4096), ("board.dat", 2048)):
            self.write(os.path.join("packed", name), b"\1" * (most + 1))
            self.assertEqual(self.said("plan", "packed"), f"packed/{name}: is longer than {most} bytes, which is all that is read\n")

    def test_wrong_use(self):
        for words in ([], ["plan"], ["plam", "good.txt"], ["plan", "a", "b", "c"], ["pack", "good.txt"], ["worth", "good.txt", "--from", "0"],
                      ["worth", "good.txt", "--from", "5000"], ["worth", "good.txt", "--from", "x"], ["worth", "good.txt", "--from", "20", "--to", "10"],
                      ["explain", "99"], ["explain", "9" * 5000], ["report", "good.txt", "--lat"], ["explain", "good.txt", "--byte", "-1"]):
            self.assertNotEqual(self.said(*words, status=2), "")

    def test_a_folder_with_both_kinds_says_which_is_read(self):
        self.write("both/board.txt", Refused.BOARD)
        self.assertEqual(called("pack", "good.txt", "--out", "both", cwd=self.place)[0], 0)
        self.assertEqual(called("check", "both", cwd=self.place)[2].count("is not read; board.txt beside it is"), 2)


class BothWays(unittest.TestCase):
    """pack, unpack and save."""

    def setUp(self):
        place = tempfile.TemporaryDirectory()
        self.addCleanup(place.cleanup)
        self.place = place.name

    def run_words(self, *words):
        return called(*words, cwd=self.place)

    def read(self, *names):
        with open(os.path.join(self.place, *names), "rb") as file:
            return file.read()

    def test_examples_there_and_back(self):
        for example in RULE_A:
            self.assertEqual(self.run_words("pack", os.path.join(ROOT, "examples", example), "--out", "one"), (0, "", ""))
            self.assertEqual(self.run_words("unpack", "one", "--out", "texts"), (0, "", ""))
            self.assertEqual(self.run_words("pack", "texts", "--out", "two"), (0, "", ""))
            for name in ("board.dat", "orders.dat", "names.txt"):
                self.assertEqual(self.read("one", name), self.read("two", name))
            shown = self.run_words("unpack", "one")[1]
            self.assertEqual(shown.encode(), b"# board.txt\n" + self.read("texts", "board.txt") + b"# orders.txt\n" + self.read("texts", "orders.txt"))

    def test_a_bad_order_does_not_suppress_the_board(self):
        self.run_words("pack", os.path.join(ROOT, "examples", "K"), "--out", "k")
        with open(os.path.join(self.place, "k", "orders.dat"), "wb") as file:
            file.write(bytes.fromhex("010902040009"))
        status, said, errors = self.run_words("unpack", "k")
        self.assertEqual((status, said.split("# orders.txt\n")[1]), (1, "deadline 9\nadd @4 AMP\n"))
        self.assertIn("part TRACE fastest 4 power 40 runs 1@6 1@2\n", said)
        self.assertEqual(errors, "k/orders.dat: byte 5: the kind of order 3 is 9, which is not from 1 to 4\n")

    def test_a_bad_board_does_not_suppress_the_orders(self):
        self.run_words("pack", os.path.join(ROOT, "examples", "K"), "--out", "k")
        with open(os.path.join(self.place, "k", "board.dat"), "wb") as file:
            file.write(b"\1")
        status, said, errors = self.run_words("unpack", "k")
        self.assertEqual((status, said), (1, "# orders.txt\nadd TRACE VIA\ndeadline 9\nremove TRACE VIA\ndeadline 9\n"))
        self.assertIn("k/board.dat: byte 1: the file ends within the deadline\n", errors)

    def test_saved_boards_plan_the_same(self):
        for example in EXAMPLES:
            place = os.path.join(ROOT, "examples", example)
            self.assertIn(self.run_words("save", place, "--out", "saved.txt")[0], (0, 1))
            first, again = self.run_words("plan", place)[1], self.run_words("plan", "saved.txt")[1]
            tables = [[line for line in out.split("\n") if "order" not in line] for out in (first, again)]
            self.assertEqual(*tables)


def random_curve(draw):
    runs = [(draw.randint(1, 6), saving) for saving in sorted(draw.sample(range(1, 60), draw.randint(0, 4)), reverse=True)]
    power = sum(length * saving for length, saving in runs) + draw.randint(0, 99)
    return f"fastest {draw.randint(1, 9)} power {power}" + (" runs " + " ".join(f"{length}@{saving}" for length, saving in runs) if runs else "")


def random_texts(draw):
    """A small board, now and then looped, too slow or under rule B, and orders of every kind, good and bad."""
    names = [f"N{part}" for part in range(draw.randint(1, 8))]
    board = [f"deadline {draw.randint(15, 120)}"] + [f"part {name} {random_curve(draw)}" for name in names]
    pairs = {tuple(sorted(draw.choices(names, k=2), reverse=draw.random() < 0.05)) for _ in range(draw.randint(0, 12))}
    board += [f"link {one} {two}" for one, two in sorted(pairs) if one != two] + (["rule B"] if draw.random() < 0.3 else [])
    orders = []
    for _ in range(draw.randint(0, 12)):
        one, two = draw.choice(sorted(pairs)) if pairs and draw.random() < 0.5 else draw.choices(names + ["@9"], k=2)
        orders.append(draw.choice([f"deadline {draw.randint(1, 140)}", f"add {one} {two}", f"remove {one} {two}", f"curve {one} {random_curve(draw)}"]))
    return "\n".join(board) + "\n", "\n".join(orders) + "\n"


class AnyBoard(unittest.TestCase):
    def test_every_word_agrees(self):
        draw = random.Random(4)
        with tempfile.TemporaryDirectory() as place:
            for _ in range(12):
                for name, text in zip(("board.txt", "orders.txt"), random_texts(draw)):
                    with open(os.path.join(place, name), "w", encoding="ascii") as file:
                        file.write(text)
                said = {word: called(word, "board.txt", "orders.txt", cwd=place) for word in ("plan", "explain", "report", "page", "save")}
                statuses = {status for status, _, _ in said.values()}
                self.assertIn(statuses, ({0}, {1}), said["plan"][2])
                self.assertEqual(said["plan"][2].replace(NOTE, ""), said["explain"][1] if statuses == {1} else "")
                self.saved_plans_the_same(place, said)

    def saved_plans_the_same(self, place, said):
        """The board that is saved, planned without orders."""
        if said["save"][1]:
            with open(os.path.join(place, "saved.txt"), "w", encoding="ascii") as file:
                file.write(said["save"][1])
            again = called("plan", "saved.txt", cwd=place)[1]
            tables = [[line for line in text.split("\n") if not line.startswith("order")] for text in (said["plan"][1], again)]
            self.assertEqual(*tables)


if __name__ == "__main__":
    unittest.main()
