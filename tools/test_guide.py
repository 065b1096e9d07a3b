"""The guide says what the code does: every refusal, every limit, every word; and the documents for people stay narrow."""
import os
import re
import unittest

import boardtext
import guide
import limits
import programs

DOCUMENTS = ("README.md", "docs/GUIDE.md", "docs/CONTRIBUTING.md")


def read(name):
    with open(os.path.join(programs.ROOT, name), encoding="utf-8") as file:
        return file.read()


class Guide(unittest.TestCase):
    def setUp(self):
        self.text = read("docs/GUIDE.md")

    def test_every_refusal_of_the_library_has_an_entry(self):
        numbers = {int(number) for number in re.findall(r"=> (\d+),", read("crates/refusal/src/lib.rt"))}
        self.assertTrue(set(range(1, 21)) <= numbers)
        self.assertEqual(set(guide.entries()), numbers)
        for number in numbers:
            self.assertIn("Place: ", guide.entry(number))
        self.assertIsNone(guide.entry(0))

    def test_every_limit(self):
        headings = {"deadline": "deadline", "fastest": "fastest", "power": "power at the fastest", "length": "length of a run", "saving": "saving of a run"}
        for name, heading in headings.items():
            low, high = limits.RANGES[name]
            self.assertRegex(self.text, rf"(?m)^\| {heading} \| {low:,} \| {high:,} \|")
        for name, most in limits.READS.items():
            self.assertRegex(self.text, rf"`{name}` \((the first )?{most:,}")
        groups = {3: "three", 4: "four"}[limits.MOST_GROUPS]
        self.assertIn(f"A number has at most {groups} groups", " ".join(self.text.split()))
        self.assertIn(f"**Parts**, 1 to {limits.MOST_PARTS},", self.text)
        self.assertIn(f"**Links**, 0 to {limits.MOST_LINKS},", self.text)

    def test_every_line_of_the_text_format(self):
        board, orders = boardtext.forms()
        for form in board.values():
            self.assertIn("| `{}` |".format(form.replace("|", "\\|")), self.text)
        for word in orders:
            self.assertRegex(self.text, rf"(?m)^\| `{word} ")

    def test_every_word_of_the_command(self):
        words = set(re.findall(r'add_(?:word|board_word|made)\(words, "(\w+)"', read("tools/front.py")))
        self.assertEqual(words, set(re.findall(r"(?m)^\| `(\w+) [A-Z]", self.text.split("## What a board is")[0])))

    def test_links_within_it(self):
        places = {re.sub(r"[^a-z -]", "", heading.lower()).replace(" ", "-") for heading in re.findall(r"(?m)^## (.*)$", self.text)}
        self.assertEqual(set(re.findall(r"\(#([\w-]+)\)", self.text)), places)


class Documents(unittest.TestCase):
    def test_no_line_is_long(self):
        for name in DOCUMENTS:
            long = [number for number, line in enumerate(read(name).split("\n"), 1) if len(line) > 120]
            self.assertEqual(long, [], name)

    def test_the_first_command(self):
        command = re.search(r"(?m)^    (\./boddivarn .*?)(  #|$)", read("README.md"))[1].strip()
        self.assertEqual(command, "./boddivarn plan examples/K")
        self.assertLessEqual(read("README.md").count("\n"), 50)

    def test_files_that_are_named_are_there(self):
        for name in DOCUMENTS:
            for path in re.findall(r"`((?:docs|tools|examples|bench|crates|trials|\.ci)/[\w./-]+)`", read(name)):
                if "NAME" not in path and path != "docs/requests/":  # which comes with the first request
                    self.assertTrue(os.path.exists(os.path.join(programs.ROOT, path)), f"{name}: {path}")


if __name__ == "__main__":
    unittest.main()
