#!/usr/bin/env python3
"""Tests of docs/PHRASES.md, the list of what a record and its answer are in words.

The page is held to the C entry `describe_record` of the library that LIBROW names, for
every step and every answer, and to the list in crates/phrases/specs/Phrases.antt. The
expected lines are put together from the page's own tables.
"""

import os
import re
import subprocess
import tempfile
import unittest
from pathlib import Path

ROOT = Path(__file__).resolve().parents[2]
PAGE = ROOT / "docs" / "PHRASES.md"
FORMATS = ROOT / "docs" / "FORMATS.md"
SPECS = ROOT / "crates" / "phrases" / "specs" / "Phrases.antt"
LIBRARY = os.environ.get("LIBROW") or str(ROOT / "target" / "staticlib" / "librow.a")
ANSWERS = range(20)
MALFORMED = "malformed"
# Prints the line of each record and answer, nine bytes, on standard input.
PROGRAM = """
#include <stdio.h>

#include "row.h"

int main(void)
{
    uint8_t pair[ROW_RECORD_LEN + 1], line[ROW_LINE_LEN];

    while (fread(pair, sizeof pair, 1, stdin) == 1) {
        size_t len = describe_record(pair, ROW_RECORD_LEN, pair[ROW_RECORD_LEN], line, sizeof line);

        if (len <= ROW_SHORT_LINE)
            return 1;
        fwrite(line, 1, len, stdout);
    }
    return 0;
}
"""


def table(page, title):
    """The rows of the table under this title, without its head."""
    part = page.split(f"\n## {title}\n")[1].split("\n## ")[0]
    rows = [line.strip("| ").split(" | ") for line in part.splitlines() if line.startswith("|")]
    return [[cell.strip() for cell in row] for row in rows[2:]]


def named(step):
    """A step as a row names it."""
    return step if step == MALFORMED else int(step)


def record(step, a=0, b=0, value=0):
    return bytes([step, a, b, 0]) + value.to_bytes(4, "little")


def records(step, form):
    """Records of a step, by the fields that its form has: each with what it has in words."""
    boards = range(1, 9)
    if "*a*" in form:
        return [(record(step, a, b), {"a": a, "b": b}) for a in boards for b in boards if a != b]
    if "*v*" in form:
        # Numbers of one digit and of more; bytes that are not the same backwards; the greatest.
        values = [0, 9, 10, 41, 1000, 0x04030201, 2**32 - 1]
        return [(record(step, b, value=v), {"b": b, "v": v}) for b in boards for v in values]
    if "*b*" in form:
        return [(record(step, b), {"b": b}) for b in boards]
    return [(record(step), {})]


def malformed(forms):
    """Records that are malformed by themselves, as the page says when they are: of every step, and of none."""
    found = [record(step, 1) for step in (16, 17, 128, 255)] + [bytes([255] * 8)]
    for step, form in enumerate(forms):
        good = records(step, form)[0][0]
        places = {}
        # A board that the step uses, outside 1 to 8; a board that is to count itself.
        if "*b*" in form:
            places[1] = [0, 9, 160, 255]
        if "*a*" in form:
            places[2] = [0, 9, 160, 255, good[1]]
        # An unused byte that is not 0.
        unused = [1, 2, 3] if "*v*" in form else range(1, 8)
        for place in unused:
            places.setdefault(place, [1, 8, 26, 255])
        for place, values in places.items():
            found += [good[:place] + bytes([value]) + good[place + 1 :] for value in values]
    return found


class Phrases(unittest.TestCase):
    @classmethod
    def setUpClass(cls):
        page = PAGE.read_text()
        cls.page = page
        cls.steps = [(int(number), form) for number, form in table(page, "The steps")]
        cls.forms = [form for _, form in cls.steps]
        cls.rows = []
        for number, steps, phrase in table(page, "The answers"):
            names = [] if steps == "any" else steps.split(", ")
            cls.rows.append((int(number), [named(name) for name in names], phrase))

    def phrase(self, step, answer):
        """That of the first row from the top that fits. A malformed record has no step."""
        for number, steps, phrase in self.rows:
            if number == answer and (step in steps or not steps):
                return phrase
        self.fail(f"no phrase for {step}, {answer}")

    def line(self, words, step, answer):
        said = self.phrase(step, answer)
        return f"{words}: {said}" if answer == 0 else f"{words}: refused, {said}"

    def described(self, pairs):
        """The lines that the C entry writes."""
        with tempfile.TemporaryDirectory() as folder:
            source, program = Path(folder) / "lines.c", Path(folder) / "lines"
            source.write_text(PROGRAM)
            include = f"-I{ROOT / 'include'}"
            subprocess.run(["gcc", "-std=c99", "-Wall", "-Werror", include, source, LIBRARY, "-o", program], check=True)
            given = b"".join(record + bytes([answer]) for record, answer in pairs)
            done = subprocess.run([program], input=given, stdout=subprocess.PIPE, check=True)
        return done.stdout.decode().splitlines()

    def test_the_steps_are_0_to_15(self):
        self.assertEqual([number for number, _ in self.steps], list(range(16)))
        self.assertEqual(len(set(self.forms)), 16)

    def test_every_answer_has_words_for_any_step(self):
        """The rows stand by number; the last of each is for any step, and none is in vain."""
        numbers = [number for number, _, _ in self.rows]
        self.assertEqual(numbers, sorted(numbers))
        self.assertEqual(set(numbers), set(ANSWERS))
        for answer in ANSWERS:
            *own, common = [steps for number, steps, _ in self.rows if number == answer]
            self.assertEqual(common, [], answer)
            steps = [step for these in own for step in these]
            self.assertTrue(all(own), answer)
            self.assertEqual(len(steps), len(set(steps)), answer)
            self.assertLessEqual(set(steps), {MALFORMED, *range(16)}, answer)

    def test_every_refusal_of_a_step_has_its_own_words(self):
        """What docs/FORMATS.md has in brackets for a step has a row for that step; only the last, 7, is said of any."""
        asks = {}
        for row in table(FORMATS.read_text(), "The steps"):
            asks[int(row[1])] = {int(number) for number in re.findall(r"\[(\d+)\]", row[3])}
        self.assertEqual(sorted(asks), list(range(16)))
        own = {(step, answer) for answer, steps, _ in self.rows for step in steps if step in asks}
        self.assertEqual(own, {(step, answer) for step in asks for answer in asks[step] - {7}})

    def test_no_phrase_stands_under_two_answers(self):
        answers = {}
        for number, _, phrase in self.rows:
            self.assertEqual(answers.setdefault(phrase, number), number, phrase)

    def test_the_program_writes_these_lines(self):
        """Every step with all its boards, and malformed records of every step, with every answer."""
        pairs, expected = [], []
        for step, form in self.steps:
            for given, fields in records(step, form):
                words = re.sub(r"\*(\w)\*", lambda field: str(fields[field[1]]), form)
                for answer in ANSWERS:
                    pairs.append((given, answer))
                    expected.append(self.line(words, step, answer))
        for given in malformed(self.forms):
            words = "record " + given.hex(" ").upper()
            for answer in ANSWERS:
                pairs.append((given, answer))
                expected.append(self.line(words, MALFORMED, answer))
        said = self.described(pairs)
        self.assertEqual(len(said), len(expected))
        for pair, line, should in zip(pairs, said, expected):
            self.assertEqual(line, should, pair)
        # The pairs are all different, and so must be the lines.
        self.assertEqual(len(set(pairs)), len(pairs))
        self.assertEqual(len(set(expected)), len(expected))

    def test_the_examples(self):
        """The lines that the page shows."""
        pairs = [(record(1, 1, value=41), 0), (record(3, 2), 5), (record(9, 2, 2), 1)]
        self.assertEqual(re.findall(r"^    (.+: .+)$", self.page, re.M), self.described(pairs))
        self.assertIn("`record 09 02 02 00 00 00 00 00`", self.page)

    def test_the_definitions_have_the_same_list(self):
        """The answers row by row, and the pieces of the steps' forms, both in the page's order."""
        specs = re.sub(r"--.*", "", SPECS.read_text())
        entry = re.compile(r'\((?:any (\d+)|of (\d+)\s+\(((?:\w+ ∷ )+)\[\]\))\s+"([^"]*)"\)')
        rows = []
        for common, own, steps, phrase in entry.findall(specs):
            names = steps.replace("no_step", MALFORMED).split(" ∷ ")[:-1]
            rows.append((int(common or own), [named(name) for name in names], phrase))
        self.assertEqual(rows, self.rows)
        pieces = [piece for form in self.forms for piece in re.split(r"\*\w\*", form) if piece]
        texts = [text for text in re.findall(r'"([^"]*)"', entry.sub("", specs)) if text]
        found = any(texts[n : n + len(pieces)] == pieces for n in range(len(texts)))
        self.assertTrue(found, f"{pieces} are not among {texts}")


if __name__ == "__main__":
    unittest.main()
