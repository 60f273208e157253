#!/usr/bin/env python3
"""Tests of docs/MAJORITY.md, the table of majority sizes as the service manual prints it.

The page is held to the array that the product looks up, and to document 01's rule,
"n/2 rounded down, plus 1", where n is the number of boards that the page itself names.
That the product does look it up no contract can say, so the code is looked at.
"""

import re
import unittest
from pathlib import Path

ROOT = Path(__file__).resolve().parents[2]
PAGE = ROOT / "docs" / "MAJORITY.md"
SOURCE = ROOT / "crates" / "members" / "src" / "lib.rt"
LOW, HIGH = (1, 2, 3, 4), (5, 6, 7, 8)
WORDS = {"two": 2, "three": 3, "four": 4}


def array(source):
    """The rows of the constant array: the numbers of each line, and the mask behind them."""
    (body,) = re.findall(r"^const MAJORITY: \[u16; 256\] = \[\n(.*?)^\];$", source, re.M | re.S)
    rows = []
    for line in body.splitlines():
        numbers, mask = re.fullmatch(r"((?: *\d+,)+) // ([0-9A-F]{2})", line).groups()
        rows.append(([int(number) for number in numbers.replace(",", " ").split()], mask))
    return rows


def block(page):
    """The lines of the page's table."""
    (body,) = re.findall(r"^```\n(.*?)^```$", page, re.M | re.S)
    return body.splitlines()


def sets(of):
    """Of these four boards each set, as a head names it: the first board is the lowest bit."""
    return ["".join(str(b) for n, b in enumerate(of) if part >> n & 1) or "-" for part in range(16)]


class Majority(unittest.TestCase):
    def setUp(self):
        self.page = PAGE.read_text()
        self.text = " ".join(self.page.split())
        self.lines = block(self.page)
        boards, masks, *rows = [line.split() for line in self.lines]
        self.heads = [boards[0], masks[0]]
        self.columns, self.low = boards[1:], masks[1:]
        self.rows = [row[0] for row in rows]
        self.high = [row[1] for row in rows]
        self.numbers = [[int(number) for number in row[2:]] for row in rows]

    def at(self, row, column):
        """The number that a reader finds, by boards or by parts of the mask."""
        (r,) = {n for heads in (self.rows, self.high) for n, head in enumerate(heads) if head == row}
        (c,) = {n for heads in (self.columns, self.low) for n, head in enumerate(heads) if head == column}
        return self.numbers[r][c]

    def test_the_heads_are_the_sets(self):
        self.assertEqual(self.heads, ["boards", "mask"])
        self.assertEqual(self.columns, sets(LOW))
        self.assertEqual(self.rows, sets(HIGH))
        self.assertEqual(self.low, [f"+{part:X}" for part in range(16)])
        self.assertEqual(self.high, [f"{part:X}0" for part in range(16)])

    def test_sixteen_rows_of_sixteen_under_their_heads(self):
        """Each number ends where the heads of its column end, each head of a row where the others do."""
        self.assertEqual([len(row) for row in self.numbers], [16] * 16)
        ends = [[word.end() for word in re.finditer(r"\S+", line)] for line in self.lines]
        self.assertEqual(ends[0][1:], ends[1][1:])
        for row in ends[2:]:
            self.assertEqual(row, [ends[0][0], ends[1][0]] + ends[0][1:])

    def test_the_page_is_the_array(self):
        rows = array(SOURCE.read_text())
        self.assertEqual(self.numbers, [numbers for numbers, _ in rows])
        self.assertEqual(self.high, [mask for _, mask in rows])

    def test_the_page_is_document_01s_rule(self):
        self.assertIn("half of them rounded down, plus 1", self.text)
        for row in sets(HIGH):
            for column in sets(LOW):
                n = len((row + column).replace("-", ""))
                self.assertEqual(self.at(row, column), n // 2 + 1, f"boards {row} and {column}")

    def test_what_boards_add(self):
        lines = re.findall(r"^    (board|adds) +(.*)$", self.page, re.M)
        boards, adds = [words.split() for _, words in lines]
        self.assertEqual(boards, [str(b) for b in LOW + HIGH])
        self.assertEqual([int(add, 16) for add in adds], [1 << n for n in range(8)])

    def test_the_examples(self):
        """What the text works out is what the table has."""
        by_boards = re.findall(
            r"Members `(\d+)`: row `(\S+)` and column `(\S+)` give (\d)(?:, so (\w+) of the (\w+))?", self.text
        )
        self.assertEqual([found[0] for found in by_boards], ["2357", "124"])
        for members, row, column, number, some, of in by_boards:
            self.assertEqual("".join(sorted((row + column).replace("-", ""))), members)
            self.assertEqual(self.at(row, column), int(number))
            if some:
                self.assertEqual((WORDS[some], WORDS[of]), (int(number), len(members)))
        ((members, parts, mask, row, column),) = re.findall(
            r"Members `(\d+)`: ([0-9A-F +]+) = (\w\w), so row `(\S+)` and column `(\S+)`", self.text
        )
        self.assertEqual([int(part, 16) for part in parts.split(" + ")], [1 << int(b) - 1 for b in members])
        self.assertEqual(sum(int(part, 16) for part in parts.split(" + ")), int(mask, 16))
        self.assertEqual((row, column), (f"{mask[0]}0", f"+{mask[1]}"))
        ((called, given),) = re.findall(r"`look_up_majority\(0x(\w\w)\)` gives (\d)", self.text)
        self.assertEqual(self.at(f"{called[0]}0", f"+{called[1]}"), int(given))

    def test_the_product_looks_it_up(self):
        """`majority` is the lookup and nothing else, and no other code has the rule."""
        source = SOURCE.read_text()
        (body,) = re.findall(r"^pub fn majority\(.*\n    ensures .*\n\{\n((?: .*\n)*)\}$", source, re.M)
        self.assertEqual(body, "    MAJORITY[m as usize] as u8\n")
        for path in sorted(ROOT.glob("crates/*/src/**/*.rt")):
            code = re.sub(r"//.*", "", path.read_text())
            uses = len(re.findall(r"\bMAJORITY\b", code))
            self.assertEqual(uses, 2 if path == SOURCE else 0, path)
            self.assertIsNone(re.search(r"/ 2 \+ 1|>> 1\) \+ 1", code), path)


if __name__ == "__main__":
    unittest.main()
