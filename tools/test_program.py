"""Tests of the built programs: what `boddivarn` prints for good, missing, refused and cut files, and for every kind of name sheet, and where `calls`
stops."""
import os
import subprocess
import tempfile
import unittest

HERE = os.path.dirname(os.path.abspath(__file__))
K = bytes.fromhex("010A0402640202140105035A01030C013201020C0428020106010203000100030102")
ORDERS = bytes.fromhex("02030101090303010109")
NAMES = b"AMP\nVIA\nBUF\nTRACE\n"
TABLE = "part label start delay end power\n0 {} 0 4 4 60\n1 {} 4 3 7 90\n2 {} 7 2 9 38\n3 {} 4 5 9 34\ntotal 222\n"


FILES = {"board": "board.dat", "orders": "orders.dat", "names": "names.txt", "calls": "calls.dat"}


def run(program="boddivarn", **files):
    """The program's output in a folder that holds these files."""
    with tempfile.TemporaryDirectory() as folder:
        for name, data in files.items():
            with open(os.path.join(folder, FILES[name]), "wb") as file:
                file.write(data)
        return subprocess.run([os.path.join(HERE, "run"), program], cwd=folder, capture_output=True, check=True).stdout.decode("ascii")


def call(byte, *numbers, string=None):
    """A call as bytes: its byte, its numbers, and its byte string after its length."""
    if string is not None:
        numbers += (len(string),)
    return bytes([byte]) + b"".join(number.to_bytes(8, "little") for number in numbers) + (string or b"")


def number(n):
    """A number in groups of seven bits, lowest first."""
    return bytes([n]) if n < 128 else bytes([n % 128 + 128]) + number(n // 128)


def labels(names):
    """The four labels that the table shows for a name sheet."""
    lines = run(board=K, orders=ORDERS, names=names).split("\n")
    return [line.split(" ")[1] for line in lines[2:6]]


class Program(unittest.TestCase):
    def test_the_example(self):
        table = TABLE.format("AMP", "VIA", "BUF", "TRACE")
        self.assertEqual(run(board=K, orders=ORDERS, names=NAMES), "order 2 refused 10\n" + table + "orders 3 taken 1 refused\n")

    def test_missing_and_empty_files(self):
        self.assertEqual(run(), "refused 1 0\n")
        self.assertEqual(run(board=b"", orders=ORDERS, names=NAMES), "refused 1 0\n")
        self.assertEqual(run(board=K)[-25:], "orders 0 taken 0 refused\n")

    def test_refused_loads_print_no_more(self):
        self.assertEqual(run(board=K + b"\0", orders=ORDERS, names=NAMES), "refused 8 34\n")
        self.assertEqual(run(board=b"\x02" + K[1:]), "refused 3 0\n")
        self.assertEqual(run(board=K[:1] + b"\x05" + K[2:]), "refused 10 6\n")
        loop = bytes.fromhex("010a02 010000 010000 02 0001 0100".replace(" ", ""))
        self.assertEqual(run(board=loop), "refused 9 0\n")

    def test_long_files_are_cut(self):
        self.assertEqual(run(board=K + bytes(4000)), "refused 8 34\n")
        many = b"\x01\x09" * 40000  # more than 65,536 bytes: 32,768 orders are read
        self.assertTrue(run(board=K, orders=many).endswith("orders 32768 taken 0 refused\n"))

    def test_stopped_streams(self):
        for rest, line in [(b"\0", "stopped 12 10"), (b"\x05", "stopped 12 10"), (b"\x81\0", "stopped 2 10"), (b"\x01", "stopped 1 11"), (b"\x01\0", "stopped 4 11"), (b"\x02\x40\0", "stopped 4 11")]:
            out = run(board=K, orders=ORDERS + rest, names=NAMES)
            self.assertEqual(out.split("\n")[1], line)
            self.assertTrue(out.endswith("orders 3 taken 1 refused\n"))


class Groups(unittest.TestCase):
    """Numbers of four groups: refusals 1, 2 and 4 with their places (02, Req 02)."""

    # version, deadline, parts; fastest, power, runs, length, saving; fastest, power, runs; links, from, to: a byte each
    FIELDS = [1, 10, 2, 2, 100, 1, 2, 20, 1, 0, 0, 1, 0, 1]
    POWERS = [4, 9]

    def load(self, place, form, rest=True):
        return run(board=bytes(self.FIELDS[:place]) + form + bytes(self.FIELDS[place + 1:] if rest else [])).split("\n")[0]

    def test_every_field_keeps_its_range(self):
        for place in range(len(self.FIELDS)):
            for n in (2097151, 2097152):
                expected = "part label start delay end power" if place in self.POWERS else f"refused {4 if place else 3} {place}"
                self.assertEqual(self.load(place, number(n)), expected, (place, n))

    def test_the_greatest_power(self):
        self.assertEqual(self.load(4, number(20000000)), "part label start delay end power")
        self.assertEqual(self.load(4, number(20000001)), "refused 4 4")
        out = run(board=K, orders=b"\x04\x03\x04" + number(20000000) + b"\0")
        self.assertIn("3 - 4 4 8 20000000\n", out)
        out = run(board=K, orders=b"\x04\x03\x04" + number(20000001) + b"\0")
        self.assertTrue(out.startswith("stopped 4 3\n"))

    def test_forms_cut_after_every_byte(self):
        for form, whole in [("80808001", None), ("FFFFFF7F", "refused 4 4"), ("80808080", "refused 2 4"), ("80808000", "refused 2 4")]:
            form = bytes.fromhex(form)
            for length in range(4):
                self.assertEqual(self.load(4, form[:length], rest=False), f"refused 1 {4 + length}")
            self.assertEqual(self.load(4, form, rest=False), whole or "refused 1 8")
            self.assertEqual(self.load(4, form), whole or "part label start delay end power")

    def test_the_greatest_total(self):
        part = b"\x01" + number(20000000) + b"\0"
        self.assertIn("\ntotal 1280000000\n", run(board=b"\x01\x01\x40" + part * 64 + b"\0"))

    def test_the_longest_file(self):
        part = number(1023) + number(20000000) + b"\x04" + b"".join(number(255) + number(saving) for saving in (1000, 999, 998, 997))
        links = [(f, t) for f in range(8) for t in range(32, 64)]
        file = b"\x01" + number(4095) + b"\x40" + part * 64 + number(256) + b"".join(bytes(link) for link in links)
        self.assertEqual(len(file), 1990)
        self.assertTrue(run(board=file).startswith("part label"))


class Labels(unittest.TestCase):
    def test_sheets(self):
        for sheet, expected in [
            (b"", ["-"] * 4),
            (b"\n\n\n\n\n", ["-"] * 4),
            (b"A\n\nB", ["A", "-", "B", "-"]),
            (b"A\nB\nC\nD", ["A", "B", "C", "D"]),
            (b"A\r\nB\r\nC\r\nD\r\n", ["-"] * 4),
            (b"ABCDEFGHIJKLMNOP\nABCDEFGHIJKLMNOPQ\nC\nD\n", ["ABCDEFGHIJKLMNOP", "-", "C", "D"]),
            (b"A B\n \n!\n~\n", ["-", "-", "!", "~"]),
            (b"\x20\n\x21\n\x7e\n\x7f\n", ["-", "!", "~", "-"]),
            (b"\xff\n\0\n\t\nD\n", ["-", "-", "-", "D"]),
        ]:
            with self.subTest(sheet=sheet):
                self.assertEqual(labels(sheet), expected)

    def test_a_sheet_past_4096_bytes(self):
        self.assertEqual(labels(b"x" * 4095 + b"\nB\nC\nD\n"), ["-"] * 4)
        self.assertEqual(labels(b"x" * 4090 + b"\nABCDEFGH\n"), ["-", "ABCDE", "-", "-"])


class Calls(unittest.TestCase):
    LOAD, TALLY, COUNTS, POWER, LABEL, WRITE, STATE = 3, 5, 6, 7, 11, 12, 13

    def test_nothing_to_call(self):
        self.assertEqual(run("calls"), "")
        self.assertEqual(run("calls", calls=b""), "")

    def test_a_call_cut_short_stops(self):
        for whole in [call(1, 7), call(self.LOAD, string=K), call(self.TALLY, 1, 2), call(self.LABEL, 1, string=NAMES), call(self.WRITE, 1, 1, 0)]:
            for end in {1, 2, 8, len(whole) - 1}:
                self.assertEqual(run("calls", calls=call(self.COUNTS) + whole[:end]), "tally 0 0\nstopped\n")

    def test_what_is_no_call_stops(self):
        for wrong in [b"\0", b"\xff", call(self.LABEL, 0, string=b"x" * 65537)]:
            self.assertEqual(run("calls", calls=wrong + call(self.COUNTS)), "stopped\n")

    def test_the_longest_byte_string(self):
        self.assertEqual(run("calls", calls=call(self.LABEL, 0, string=b"AB\n" + b"x" * 65533)), "label no 0 4142\n")
        self.assertEqual(run("calls", calls=call(self.LOAD, string=K + bytes(65536 - len(K)))), "load no 8 place 34 path 0\n")

    def test_a_tally_past_32_bits(self):
        self.assertEqual(run("calls", calls=call(self.TALLY, 2**64 - 1, 2**32) + call(self.COUNTS)), "tally 4294967295 4294967295\n")

    def test_more_lines_than_a_page_holds(self):
        asked = call(self.LOAD, string=K) + call(self.POWER, 0, 2) * 20000
        self.assertEqual(run("calls", calls=asked), "load no 0 place 0 path 0\n" + "power no 0 value 100\n" * 20000)


if __name__ == "__main__":
    unittest.main()
