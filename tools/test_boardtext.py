"""The text format: both ways, and every fault with its line."""
import random
import unittest

import limits
from boardtext import board_text, order_text, read_board, read_orders
from datafile import Reader, board_bytes, encode, order_bytes
from faults import InputFaults
from sources import labels_of

K_TEXT = b"""# board K
deadline 10
part AMP fastest 2 power 100 runs 2@20 1@5
part VIA fastest 3 power 90 runs 3@12
part BUF fastest 1 power 50 runs 2@12
part TRACE fastest 4 power 40 runs 1@6 1@2
link AMP VIA
link VIA BUF
link AMP TRACE
"""
K_FILE = bytes.fromhex("010A04026402021401050 35A01030C013201020C0428020106010203000100030102".replace(" ", ""))
K_NAMES = ["AMP", "VIA", "BUF", "TRACE"]
PART = "; write: part NAME fastest TICKS power MICROWATTS [runs LENGTH@SAVING ..]"
WHOLE = ["b: the deadline is missing; write: deadline TICKS", "b: a board has at least one part" + PART]


def board_of(data):
    return Reader(data, "b").board(str)


class Board(unittest.TestCase):
    def faults(self, text):
        return [str(fault) for fault in read_board(text if isinstance(text, bytes) else text.encode(), "b")[1]]

    def only(self, line):
        """The faults of one line, with those of the whole text left out."""
        return [fault for fault in self.faults(line + "\n") if fault not in WHOLE]

    def test_k_both_ways(self):
        said, faults = read_board(K_TEXT, "b")
        self.assertEqual((faults, said.names, board_bytes(said.board)), ([], K_NAMES, K_FILE))
        self.assertEqual(board_of(K_FILE), said.board)
        again = read_board(board_text(said.board, said.names).encode(), "b")[0]
        self.assertEqual((again.board, again.names), (said.board, K_NAMES))

    def test_where_each_thing_is_said(self):
        lines = read_board(K_TEXT, "b")[0].lines
        self.assertEqual((lines["deadline"], lines["part", 2], lines["link", 0, 3]), ("b:2", "b:5", "b:9"))

    def test_parts_may_be_named_before_they_are_described(self):
        turned = b"\n".join(reversed(K_TEXT.split(b"\n")))
        said, faults = read_board(turned, "b")
        self.assertEqual(faults, [])
        self.assertEqual(said.names, K_NAMES[::-1])
        self.assertEqual(sorted(said.board.links), [(2, 1), (3, 0), (3, 2)])

    def test_comments_blanks_tabs_and_crlf(self):
        plain = read_board(K_TEXT, "b")[0].board
        for text in (
            K_TEXT.replace(b"\n", b"\r\n"), K_TEXT.replace(b" ", b"\t"), K_TEXT.replace(b"\n", b"   # ein gr\xc3\xbcner Kommentar\n"),
            b"\n \n\t\n" + K_TEXT.replace(b"\n", b"\n\n"), K_TEXT.rstrip(), b"  " + K_TEXT.replace(b" ", b"   "),
        ):
            said, faults = read_board(text, "b")
            self.assertEqual((faults, said.board), ([], plain))

    def test_rules(self):
        for text, rule in ((K_TEXT, "A"), (b"rule A\n" + K_TEXT, "A"), (K_TEXT + b"rule B\n", "B")):
            said, faults = read_board(text, "b")
            self.assertEqual((faults, said.board.rule, board_bytes(said.board)), ([], rule, K_FILE))
        self.assertEqual(read_board(board_text(said.board, said.names).encode(), "b")[0].board, said.board)
        self.assertEqual(self.faults(b"rule A\n" + K_TEXT + b"rule A\n"), ["b:11: a second rule; the first stands at b:1"])

    def test_a_name_may_hold_a_sharp(self):
        said, faults = read_board(b"deadline 3\npart A#1 fastest 1 power 0 #comment\n", "b")
        self.assertEqual((faults, said.names), ([], ["A#1"]))

    def test_every_fault_of_a_text(self):
        text = "deadline 0\npart A fastest 0 power -1\nlink A NONE\nlink NEITHER NOR\nboard\npart A fastest 1 power 1 runs 1@2 1@2\n"
        self.assertEqual(self.faults(text), [
            "b:1: deadline 0 is not from 1 to 4095",
            "b:2: fastest 0 is not from 1 to 1023",
            f"b:2: power is not a whole number: '-1'; write one from 0 to {limits.RANGES['power'][1]}",
            "b:3: no part is called 'NONE'",
            "b:4: no part is called 'NEITHER'",
            "b:4: no part is called 'NOR'",
            "b:5: 'board' is none of deadline, part, link, rule",
            "b:6: a second part 'A'; the first stands at b:2",
            "b:6: saving 2 is not below the 2 of the run before; savings fall from run to run",
            "b:6: power 1 is below all savings together, 4; raise it or shorten a run",
        ])

    def test_faults_of_the_whole(self):
        self.assertEqual(self.faults(""), WHOLE)
        self.assertEqual(self.faults("# nothing\n\n"), WHOLE)
        self.assertEqual(self.faults("deadline 1\n"), WHOLE[1:])
        self.assertEqual(self.faults("part A fastest 1 power 0\n"), WHOLE[:1])

    def test_faults_of_a_line(self):
        most = limits.RANGES["power"][1]
        for line, *faults in [
            ("deadline", "deadline is missing; write: deadline TICKS"),
            ("deadline 4096", "deadline 4096 is not from 1 to 4095"),
            ("deadline -1", "deadline is not a whole number: '-1'; write one from 1 to 4095"),
            ("deadline 1.5", "deadline is not a whole number: '1.5'; write one from 1 to 4095"),
            ("deadline 1,000", "deadline is not a whole number: '1,000'; write one from 1 to 4095"),
            ("deadline 1e3", "deadline is not a whole number: '1e3'; write one from 1 to 4095"),
            ("deadline 0x10", "deadline is not a whole number: '0x10'; write one from 1 to 4095"),
            ("deadline " + "9" * 5000, "deadline '9999999999999999'.. (5000 characters) is not from 1 to 4095"),
            ("deadline 1 2", "'2' is one word too many; write: deadline TICKS"),
            ("part", "a part's name is missing" + PART),
            ("part A", "expected 'fastest', found the line's end" + PART),
            ("part A fastest", "fastest is missing" + PART),
            ("part A fastest power 3", "fastest is missing before 'power'" + PART),
            ("part A fastest 1 power", "power is missing" + PART),
            ("part A fastest 1 power runs 1@1", "power is missing before 'runs'" + PART),
            ("part A fastest 1024 power 1", "fastest 1024 is not from 1 to 1023"),
            (f"part A fastest 1 power {most + 1}", f"power {most + 1} is not from 0 to {most}"),
            ("part A fastest 1 power 1 runs", "a run is missing" + PART),
            ("part A fastest 1 power 1 2@3", "expected 'runs', found '2@3'" + PART),
            ("part A fastest 1 power 9 runs 1@", "saving is not a whole number: ''; write one from 1 to 1000"),
            ("part A fastest 1 power 9 runs @1", "length is not a whole number: ''; write one from 1 to 255"),
            ("part A fastest 1 power 9 runs 1", "a run is LENGTH@SAVING, not '1'"),
            ("part A fastest 1 power 9 runs 256@1001", "length 256 is not from 1 to 255", "saving 1001 is not from 1 to 1000"),
            ("part A fastest 1 power 99 runs 1@9 1@8 1@7 1@6 1@5", "5 runs, at most 4"),
            ("part " + "A" * 17 + " fastest 1 power 0", f"'{'A' * 17}' is no name: a name sheet holds 1 to 16 ASCII characters without a blank"),
            ("link A", "no part is called 'A'", "a part's name is missing; write: link FROM TO"),
            ("rule", "the rule is missing; write: rule A|B"),
            ("rule C", "rule 'C' is neither A nor B"),
            ("rule B B", "'B' is one word too many; write: rule A|B"),
        ]:
            with self.subTest(line=line[:40]):
                self.assertEqual(self.only(line), [f"b:1: {fault}" for fault in faults])

    def test_faults_between_lines(self):
        two = "deadline 5\npart A fastest 1 power 0\npart B fastest 1 power 0\n"
        for line, fault in [
            ("deadline 5", "b:4: a second deadline; the first stands at b:1"),
            ("link A A", "b:4: a link from a part to itself; remove it"),
            ("link A B\nlink A B", "b:5: this link stands at b:4 already; remove one"),
            ("link A B 3", "b:4: '3' is one word too many; write: link FROM TO"),
            ("link A @7", "b:4: the board has no part @7"),
        ]:
            self.assertEqual(self.faults(two + line + "\n"), [fault])

    def test_bytes_that_do_not_belong(self):
        self.assertEqual(self.only("part V\u00c4 fastest 1 power 0"), ["b:1: 'V\u00c4' is not ASCII; only a comment may hold other letters"])
        for data, fault in [
            (b"\xef\xbb\xbf" + K_TEXT, "b:1: the text begins with a byte order mark; save it without one"),
            (K_TEXT + b"# caf\xe9\n", "b:10: the comment is not UTF-8; save the text as UTF-8"),
            (K_TEXT + b"link A\0MP VIA\n", "b:10: byte 0 has no place in a text; remove it"),
            (K_TEXT + b"link AMP\x0cBUF\n", "b:10: byte 12 has no place in a text; remove it"),
            (K_TEXT.replace(b"\n", b"\r"), "b:1: byte 13 has no place in a text; remove it"),
        ]:
            self.assertEqual([fault for fault in self.faults(data) if fault not in WHOLE], [fault])
        self.assertEqual(self.faults("deadline 1\n".encode("utf-16"))[0], "b:1: the text is in UTF-16; save it as plain ASCII or UTF-8")

    def test_limits(self):
        many = "deadline 1\n" + "".join(f"part P{p} fastest 1 power 0\n" for p in range(64))
        self.assertEqual(self.faults(many), [])
        self.assertEqual(self.faults(many + "part Q fastest 1 power 0\n"), ["b:66: more than 64 parts"])
        pairs = [(p, q) for p in range(24) for q in range(p + 1, 24)]
        links = "".join(f"link P{p} P{q}\n" for p, q in pairs[:256])
        self.assertEqual(self.faults(many + links), [])
        self.assertEqual(self.faults(many + links + "link P60 P61\n"), ["b:322: more than 256 links"])

    def test_random_boards(self):
        draw = random.Random(5)
        for _ in range(200):
            text, names = random_board(draw)
            said, faults = read_board(text.encode(), "b")
            self.assertEqual((faults, said.names), ([], names))
            self.assertEqual(board_text(board_of(board_bytes(said.board)), names), text)
            self.assertLessEqual(len(board_bytes(said.board)), limits.READS["board.dat"])


class Anything(unittest.TestCase):
    """Any bytes at all are read, or their faults are said; nothing else comes of them."""

    def test_words_in_any_order(self):
        draw, words = random.Random(1), K_TEXT.split() + [b"@3", b"@99", b"1@2", b"-1", b"\xff", b"#", b"\0", b"9" * 30, b"rule", b"delay"]
        for _ in range(2000):
            text = b"\n".join(b" ".join(draw.choices(words, k=draw.randint(0, 9))) for _ in range(draw.randint(0, 12)))
            read_board(text, "b")
            read_orders(text, ["AMP", "VIA"], "o")

    def test_a_text_with_damage(self):
        draw, good = random.Random(2), 0
        for _ in range(2000):
            text = bytearray(K_TEXT)
            for _ in range(draw.randint(1, 3)):
                at = draw.randrange(len(text))
                text[at:at + draw.randint(0, 1)] = bytes(draw.choices(range(256), k=draw.randint(0, 1)))
            said, faults = read_board(bytes(text), "b")
            if not faults:
                good += 1
                self.assertEqual(board_of(board_bytes(said.board)), said.board)
        self.assertGreater(good, 100)

    def test_files_with_damage(self):
        draw, good = random.Random(3), 0
        for _ in range(2000):
            data = bytearray(K_FILE)
            for _ in range(draw.randint(1, 3)):
                data[draw.randrange(len(data))] = draw.randrange(256)
            try:
                self.assertEqual(board_bytes(board_of(bytes(data))), bytes(data))
                good += 1
            except InputFaults as fault:
                self.assertRegex(str(fault), r"^b: byte \d+: ")
        self.assertGreater(good, 50)


def random_board(draw):
    count = draw.randint(1, 64)
    text = f"deadline {draw.randint(1, 4095)}\n"
    for p in range(count):
        savings = sorted(draw.sample(range(1, 1001), draw.randint(0, 4)), reverse=True)
        runs = [(draw.randint(1, 255), saving) for saving in savings]
        least = sum(length * saving for length, saving in runs)
        text += f"part N{p} fastest {draw.randint(1, 1023)} power {draw.randint(least, limits.RANGES['power'][1])}"
        text += (" runs " + " ".join(f"{length}@{saving}" for length, saving in runs) if runs else "") + "\n"
    pairs = {(draw.randrange(count), draw.randrange(count)) for _ in range(draw.randint(0, 256))}
    return text + "".join(f"link N{f} N{t}\n" for f, t in sorted(pairs) if f != t), [f"N{p}" for p in range(count)]


class Orders(unittest.TestCase):
    def bytes_of(self, text):
        orders, faults = read_orders(text.encode(), K_NAMES, "o")
        self.assertEqual(faults, [])
        return b"".join(order_bytes(line.order) for line in orders)

    def text_of(self, data):
        reader, orders = Reader(data, "o"), []
        while reader.left():
            orders.append(reader.order(len(orders) + 1))
        return order_text(orders, K_NAMES)

    def test_both_ways(self):
        for text, data in [
            ("add TRACE VIA\ndeadline 9\nremove TRACE VIA\ndeadline 9\n", "02030101090303010109"),
            ("curve BUF fastest 1023 power 20000000 runs 255@1000 1@1\n", "0402ff0780dac40902ff01e8070101"),
            ("add @4 @63\nremove AMP @5\ncurve @7 fastest 1 power 0\n", "02043f030005 0407010000".replace(" ", "")),
        ]:
            self.assertEqual(self.bytes_of(text).hex(), data)
            self.assertEqual(self.text_of(bytes.fromhex(data)), text)

    def test_faults(self):
        for text, *faults in [
            ("deadline\n", "o:1: deadline is missing; write: deadline TICKS"),
            ("add AMP\n", "o:1: a part's name is missing; write: add FROM TO"),
            ("\nadd AMP NONE # a comment\n", "o:2: no part is called 'NONE'"),
            ("add AMP @64\n", "o:1: no part is called '@64'"),
            ("drop AMP VIA\n", "o:1: 'drop' is none of deadline, add, remove, curve"),
            ("delay AMP VIA 3\n", "o:1: 'delay' is none of deadline, add, remove, curve"),
            ("curve AMP fastest 1\n", "o:1: expected 'power', found the line's end; write: curve NAME " + PART[19:]),
            ("remove AMP VIA BUF\n", "o:1: 'BUF' is one word too many; write: remove FROM TO"),
            ("deadline 0\nadd X Y\n", "o:1: deadline 0 is not from 1 to 4095", "o:2: no part is called 'X'", "o:2: no part is called 'Y'"),
        ]:
            with self.subTest(text=text):
                self.assertEqual([str(fault) for fault in read_orders(text.encode(), K_NAMES, "o")[1]], faults)


class Later(unittest.TestCase):
    """The words that wait for design files of version 2, with their switches on."""

    def setUp(self):
        before = limits.RULES_KNOWN, limits.LINK_DELAYS_KNOWN
        limits.RULES_KNOWN = limits.LINK_DELAYS_KNOWN = True
        self.addCleanup(self.put_back, *before)

    def put_back(self, rules, delays):
        limits.RULES_KNOWN, limits.LINK_DELAYS_KNOWN = rules, delays

    def test_both_ways(self):
        text = "deadline 128\nrule B\npart A fastest 1 power 0\npart B fastest 2 power 0\nlink A B 7\n"
        said, faults = read_board(text.encode(), "b")
        self.assertEqual((faults, said.board.rule, said.board.links), ([], "B", {(0, 1): 7}))
        self.assertEqual(board_bytes(said.board).hex(), "02018001" + "02010000020000" + "01000107")
        self.assertEqual(board_text(board_of(board_bytes(said.board)), said.names), text)
        orders, faults = read_orders(b"delay A B 255\n", said.names, "o")
        self.assertEqual((faults, order_bytes(orders[0].order).hex()), ([], "050001ff01"))
        self.assertEqual(Reader(bytes.fromhex("050001ff01"), "o").order(1), orders[0].order)

    def test_faults(self):
        text = "rule C\ndeadline 5\npart A fastest 1 power 0\npart B fastest 2 power 0\nlink A B 256\nrule A\n"
        self.assertEqual([str(fault) for fault in read_board(text.encode(), "b")[1]], [
            "b:1: rule 'C' is neither A nor B", "b:5: delay 256 is not from 0 to 255", "b:6: a second rule; the first stands at b:1",
        ])


class Files(unittest.TestCase):
    def test_numbers(self):
        for n, form in [
            (0, "00"), (127, "7f"), (128, "8001"), (16383, "ff7f"), (16384, "808001"), (2097151, "ffff7f"), (2097152, "80808001"),
            (20000000, "80dac409"), (268435455, "ffffff7f"),
        ]:
            self.assertEqual(encode(n).hex(), form)
            self.assertEqual(Reader(bytes.fromhex(form), "f").number("n", 0, n), n)

    def test_groups_that_are_no_number(self):
        for form, words in [
            ("808080", "f: byte 3: the file ends within n"),
            ("80808080", "f: byte 0: n has more than 4 groups"),
            ("8080808001", "f: byte 0: n has more than 4 groups"),
            ("80808000", "f: byte 0: n is not in its shortest form"),
            ("80808001", "f: byte 0: n is 2097152, which is not from 0 to 9"),
        ]:
            with self.subTest(form=form), self.assertRaises(InputFaults) as raised:
                Reader(bytes.fromhex(form), "f").number("n", 0, 9)
            self.assertEqual(str(raised.exception), words)

    def test_powers(self):
        for power, last in [(2097151, "ffff7f"), (2097152, "80808001"), (20000000, "80dac409")]:
            text = f"deadline 1\npart A fastest 1 power {power}\n"
            said, faults = read_board(text.encode(), "b")
            self.assertEqual((faults, board_bytes(said.board).hex()), ([], f"01010101{last}0000"))
            self.assertEqual(board_text(board_of(board_bytes(said.board)), said.names), text)
        self.assertEqual(self.fault(bytes.fromhex("0101010181dac4090000")), "b: byte 4: the power of part 0 (0) is 20000001, which is not from 0 to 20000000")

    def fault(self, data):
        with self.assertRaises(InputFaults) as raised:
            board_of(data)
        return str(raised.exception)

    def test_every_cut_is_a_fault_at_the_end(self):
        for cut in range(len(K_FILE)):
            self.assertIn(f"b: byte {cut}: the file ends within ", self.fault(K_FILE[:cut]))

    def test_faults_by_field(self):
        def changed(at, *values):
            return K_FILE[:at] + bytes(values) + K_FILE[at + 1:]

        for data, words in [
            (changed(0, 9), "b: byte 0: the version is 9, which is not from 1 to 1"),
            (changed(1, 0), "b: byte 1: the deadline is 0, which is not from 1 to 4095"),
            (changed(1, 0x8a, 0), "b: byte 1: the deadline is not in its shortest form"),
            (changed(2, 65), "b: byte 2: the part count is 65, which is not from 1 to 64"),
            (changed(9, 20), "b: byte 9: the saving of run 2 of part 0 (0) is 20, not below the 20 of the run before"),
            (changed(4, 44), "b: byte 4: the power of part 0 (0) is 44, below all savings together, 45"),
            (changed(28, 4), "b: byte 28: the from of link 1 is 4, which is not from 0 to 3"),
            (changed(29, 0), "b: byte 28: link 1 leads from part 0 to itself"),
            (changed(31, 1), "b: byte 30: link 2, 0 to 1, is not above the one before, 0 to 1"),
            (K_FILE + b"\0", "b: byte 34: bytes follow after the design"),
        ]:
            with self.subTest(words=words):
                self.assertEqual(self.fault(data), words)

    def test_names_that_a_text_cannot_hold(self):
        labels, notes = labels_of(b"AMP\n\nhas blank\nAMP\n#1\n@3\nP1\n", 7, "n")
        self.assertEqual(labels, ["AMP", "P1'", "P2", "P3", "P4", "P5", "P1"])
        self.assertEqual([note is None for note in notes], [True, False, False, False, False, False, True])
        self.assertEqual(str(notes[3]), "n:4: 'AMP' is a part's name already; part 3 is called P3 here")


if __name__ == "__main__":
    unittest.main()
