#!/usr/bin/env python3
"""Tests of tools/sheet.py."""

import random
import subprocess
import sys
import unittest
from pathlib import Path

ROOT = Path(__file__).resolve().parents[2]
TOOL = ROOT / "tools" / "sheet.py"
sys.dont_write_bytecode = True
sys.path.insert(0, str(TOOL.parent))

import sheet  # noqa: E402  (from tools/)

# Each step's words beside the bytes that document 01 gives it.
RECORDS = {
    "open 1": [0, 1, 0, 0, 0, 0, 0, 0],
    "append 2 4294967041": [1, 2, 0, 0, 1, 255, 255, 255],
    "receipt 3": [2, 3, 0, 0, 0, 0, 0, 0],
    "add 4": [3, 4, 0, 0, 0, 0, 0, 0],
    "remove 5": [4, 5, 0, 0, 0, 0, 0, 0],
    "change leader": [5, 0, 0, 0, 0, 0, 0, 0],
    "news 6": [6, 6, 0, 0, 0, 0, 0, 0],
    "join 7": [7, 7, 0, 0, 0, 0, 0, 0],
    "receive 8": [8, 8, 0, 0, 0, 0, 0, 0],
    "count 1 2": [9, 1, 2, 0, 0, 0, 0, 0],
    "controller news": [10, 0, 0, 0, 0, 0, 0, 0],
    "read leader": [11, 0, 0, 0, 0, 0, 0, 0],
    "read 3": [12, 3, 0, 0, 0, 0, 0, 0],
    "set normal": [13, 0, 0, 0, 0, 0, 0, 0],
    "hear 4": [14, 4, 0, 0, 0, 0, 0, 0],
    "install 5": [15, 5, 0, 0, 0, 0, 0, 0],
}
RAW = [
    "raw 0 0 0 0 0 0 0 0",
    "raw 1 9 0 0 41 0 0 0",
    "raw 1 1 1 0 41 0 0 0",
    "raw 2 1 0 0 1 0 0 0",
    "raw 3 1 0 1 0 0 0 0",
    "raw 5 1 0 0 0 0 0 0",
    "raw 9 1 1 0 0 0 0 0",
    "raw 9 1 9 0 0 0 0 0",
    "raw 16 1 0 0 0 0 0 0",
    "raw 255 255 255 255 255 255 255 255",
]
ERRORS = {
    "bogus 1": "unknown step 'bogus'",
    "opne": "unknown step 'opne'; did you mean 'open BOARD'?",
    "append 1": "'append 1' is not 'append BOARD VALUE'",
    "receipt 1 2": "'receipt 1 2' is not 'receipt BOARD'",
    "change 1": "'change 1' is not 'change leader'",
    "open 0": "board '0' is not a number from 1 to 8",
    "open 9": "board '9' is not a number from 1 to 8",
    "open +1": "board '+1' is not a number from 1 to 8",
    "read lead": "board 'lead' is not a number from 1 to 8; did you mean 'read leader'?",
    "append 1 4294967296": "value '4294967296' is not a number from 0 to 4294967295",
    "append 1 -1": "value '-1' is not a number from 0 to 4294967295",
    "append 1 1_0": "value '1_0' is not a number from 0 to 4294967295",
    "append 1 ²": "value '²' is not a number from 0 to 4294967295",
    "count 3 3": "a leader does not count itself",
    "raw 0 1 2 3 4 5 6 256": "byte '256' is not a number from 0 to 255",
    "raw 0 1 2 3 4 5 6 7 8": "raw takes 8 bytes, not 9",
    "raw": "raw takes 8 bytes, not 0",
    "Raw 1": "unknown step 'Raw'",
}
# Lines that are no steps, document 01's own words among them, and the step that is meant.
MEANT = {
    "Open 1": "open 1",
    "opening 1": "open 1",
    "append 1, 41": "append 1 41",
    "receipt by 1": "receipt 1",
    "Remove board 3.": "remove 3",
    "Change leader": "change leader",
    "Board 2 takes news": "news 2",
    "joins 4": "join 4",
    "recieve 4": "receive 4",
    "Leader 1 counts 2": "count 1 2",
    "Controller takes news": "controller news",
    "controller reads leader": "read leader",
    "read the leader": "read leader",
    "Controller reads 3": "read 3",
    "set to normal": "set normal",
    "controller hears 5": "hear 5",
    "instal 6": "install 6",
}


def run(word, given):
    return subprocess.run([TOOL, word], input=given, capture_output=True, check=False)


class SheetTest(unittest.TestCase):
    def test_words_and_records(self):
        text = "".join(line + "\n" for line in RECORDS)
        records = b"".join(map(bytes, RECORDS.values()))
        self.assertEqual(run("encode", text.encode()).stdout, records)
        self.assertEqual(run("decode", records).stdout, text.encode())

    def test_every_record_with_words_has_words(self):
        for step in range(16):
            for board in range(1, 9):
                record = bytes([step, board, 0, 0, 0, 0, 0, 0])
                if step == 9:
                    record = bytes([step, board, board % 8 + 1, 0, 0, 0, 0, 0])
                if step in (5, 10, 11, 13):
                    record = bytes([step, 0, 0, 0, 0, 0, 0, 0])
                self.assertFalse(sheet.decode(record).startswith("raw"), record)

    def test_raw_for_the_others(self):
        for line in RAW:
            record = bytes(map(int, line.split()[1:]))
            self.assertEqual(sheet.encode(line), record)
            self.assertEqual(sheet.decode(record), line + "\n")

    def test_comments_and_blank_lines(self):
        text = "# a story\n\n  open 1 # first\r\n\tappend  1  41\n#\nadd 2"
        self.assertEqual(sheet.decode(sheet.encode(text)), "open 1\nappend 1 41\nadd 2\n")
        for empty in ["", "\n", "# a story\n\n\t# no step yet\r\n"]:
            self.assertEqual(sheet.encode(empty), b"")
        self.assertEqual(sheet.decode(b""), "")

    def test_random_sheets_round_trip(self):
        rng = random.Random(1)
        for _ in range(2000):
            # Few values, so that many records have words; any length.
            some = [0, 0, 0, 1, 2, 5, 8, 9, 15, rng.randrange(256)]
            given = bytes(rng.choice(some) for _ in range(rng.randrange(80)))
            self.assertEqual(sheet.encode(sheet.decode(given)), given)

    def test_samples_round_trip(self):
        samples = sorted((ROOT / "examples").glob("*.txt"))
        self.assertTrue(samples)
        for sample in samples:
            records = sheet.encode(sample.read_text())
            text = sheet.decode(records)
            self.assertNotIn("raw", text, sample)
            self.assertEqual(sheet.encode(text), records, sample)

    def test_errors_name_the_line(self):
        for line, said in ERRORS.items():
            answer = run("encode", f"open 1\n\n# comment\n{line}\nadd 2\n".encode())
            self.assertEqual(answer.returncode, 1, line)
            self.assertEqual(answer.stdout, b"", line)
            help_line = "sheet.py: --help has every step in words\n"
            self.assertEqual(answer.stderr.decode(), f"sheet.py: line 4: {said}\n{help_line}")

    def test_what_may_be_meant(self):
        for line, step in MEANT.items():
            with self.assertRaises(sheet.SheetError) as caught:
                sheet.encode(line)
            self.assertIn(f"; did you mean '{step}'?", str(caught.exception))
            sheet.encode(step)

    def test_every_error_is_told(self):
        with self.assertRaises(sheet.SheetError) as caught:
            sheet.encode("opne 1\nadd 2\nadd\n")
        self.assertEqual([line for line, _ in caught.exception.errors], [1, 3])

    def test_what_a_file_holds(self):
        text = "".join(line + "\n" for line in RECORDS)
        for line, record in RECORDS.items():
            # Each kind of record by itself, and with others after it.
            self.assertIsNone(sheet.text_of(bytes(record)), line)
            self.assertIsNone(sheet.text_of(bytes(record) * 100), line)
        self.assertEqual(sheet.text_of(text.encode()), text)
        self.assertEqual(sheet.text_of(b"\xef\xbb\xbf" + text.encode()), text)
        self.assertEqual(sheet.text_of(b""), "")
        for code in ["utf-16", "utf-16-le", "utf-16-be"]:
            with self.assertRaisesRegex(sheet.SheetError, "UTF-16"):
                sheet.text_of(text.encode(code))
        with self.assertRaisesRegex(sheet.SheetError, "binary data"):
            sheet.text_of(b"\x89PNG\r\n\x1a\n")

    def test_records_are_not_encoded_again(self):
        answer = run("encode", bytes(RECORDS["open 1"]))
        self.assertEqual((answer.returncode, answer.stdout), (1, b""))
        self.assertIn(b"these are records already", answer.stderr)

    def test_a_failed_write(self):
        for word, given in [("encode", b"open 1\n"), ("decode", bytes(8)), ("--help", b"")]:
            with open("/dev/full", "wb") as full:
                answer = subprocess.run([TOOL, word], input=given, stdout=full, stderr=subprocess.PIPE, check=False)
            self.assertEqual(answer.returncode, 3, word)
            self.assertEqual(answer.stderr, b"sheet.py: No space left on device\n")

    def test_a_short_raw_line_is_last(self):
        self.assertEqual(sheet.encode("open 1\nraw 1 2 3\n\n"), bytes([0, 1, 0, 0, 0, 0, 0, 0, 1, 2, 3]))
        answer = run("encode", b"raw 1 2 3\nopen 1\n")
        self.assertIn(b"line 2: only the last raw line", answer.stderr)

    def test_usage(self):
        for word in ["-h", "--help"]:
            answer = run(word, b"")
            self.assertEqual((answer.returncode, answer.stderr), (0, b""))
            for line in RECORDS:
                self.assertIn(line.split()[0].encode(), answer.stdout)
        answer = run("list", b"")
        self.assertEqual((answer.returncode, answer.stdout), (2, b""))


if __name__ == "__main__":
    unittest.main()
