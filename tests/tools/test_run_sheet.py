#!/usr/bin/env python3
"""Tests of tools/run-sheet, with the programs that RUNSHEET, SEEDSHEET, EXPLAINSHEET, SAVESHEET,
SHOWIMAGE, RESUMESHEET, PLANSHEET and PLANIMAGE name.

What a row answers is taken from document 01, its sample, its trials, its rules,
a board's mark, the records of a seed, the epochs of entries, the boards behind a
record, the image of a row and the steps back to normal from document 02; the words of
an answer from docs/PHRASES.md.
"""

import os
import pty
import re
import shutil
import subprocess
import sys
import tempfile
import unittest
from pathlib import Path
from struct import pack

ROOT = Path(__file__).resolve().parents[2]
TOOL = ROOT / "tools" / "run-sheet"
PROGRAM = os.environ.get("RUNSHEET") or str(ROOT / "target" / "bin" / "runsheet")
MAKER = os.environ.get("SEEDSHEET") or str(ROOT / "target" / "bin" / "seedsheet")
EXPLAINER = os.environ.get("EXPLAINSHEET") or str(ROOT / "target" / "bin" / "explainsheet")
SAVER = os.environ.get("SAVESHEET") or str(ROOT / "target" / "bin" / "savesheet")
SHOWER = os.environ.get("SHOWIMAGE") or str(ROOT / "target" / "bin" / "showimage")
TAKER = os.environ.get("RESUMESHEET") or str(ROOT / "target" / "bin" / "resumesheet")
PLANNER = os.environ.get("PLANSHEET") or str(ROOT / "target" / "bin" / "plansheet")
IMAGE_PLANNER = os.environ.get("PLANIMAGE") or str(ROOT / "target" / "bin" / "planimage")
sys.dont_write_bytecode = True
sys.path.insert(0, str(TOOL.parent))

import listing  # noqa: E402  (from tools/)
import sheet  # noqa: E402

LISTED, REFUSED, NOT_RUN, FAILED = range(4)
WORDS = b"open 1\nappend 1 41\nreceipt 1\nadd 2\n"
RECORDS = bytes([0, 1, 0, 0, 0, 0, 0, 0, 1, 1, 0, 0, 41, 0, 0, 0, 2, 1, 0, 0, 0, 0, 0, 0, 3, 2, 0, 0, 0, 0, 0, 0])
# The sample's listing in document 01, its receipt with the epoch of document 02, Paper 4, and
# with the one board behind it, Paper 6.
LISTING = b"""\
1 0 0
2 1 0
3 2 0 1
4 3 0
registry 2 1 1 12 waiting
control 1 1 1 1 idle
board 1 1 1 1 1 1 1 late
board 2 1 1 1 1 1 0 late
board 3 1 1 1 1 1 0 late
board 4 1 1 1 1 1 0 late
board 5 1 1 1 1 1 0 late
board 6 1 1 1 1 1 0 late
board 7 1 1 1 1 1 0 late
board 8 1 1 1 1 1 0 late
receipts 1 41@1
"""
# The sample in words: all its answers are 0.
LINES = b"""\
opening with board 1: accepted
board 1 appends value 41: accepted
board 1 gives a receipt: accepted
add board 2: accepted
"""
# The sample's image, made by hand from document 02, Paper 7.
IMAGE = (ROOT / "crates" / "savesheet" / "stdout").read_bytes()
# The first records of seed 0: tests/peer/tests/seed.rs says how they were worked out. Board
# 7 opens the row, so that neither board 6, 3 nor 1 is leader, and board 4 has all news.
SEED_0 = ["open 7", "count 6 2", "receipt 3", "news 4", "receipt 1"]
SEED_0_LISTING = b"""\
1 0 0
2 9 8
3 2 8
4 6 12
5 2 8
registry 1 1 7 7 normal
control 1 1 7 7 idle
board 1 1 1 7 7 1 0 current
board 2 1 1 7 7 1 0 current
board 3 1 1 7 7 1 0 current
board 4 1 1 7 7 1 0 current
board 5 1 1 7 7 1 0 current
board 6 1 1 7 7 1 0 current
board 7 1 1 7 7 1 0 current
board 8 1 1 7 7 1 0 current
receipts 0
"""
SEED_0_LINES = b"""\
opening with board 7: accepted
board 6 counts board 2: refused, the counting board is not the leader in its own view
board 3 gives a receipt: refused, it is not the leader in its own view
board 4 takes news: refused, it has the newest news already
board 1 gives a receipt: refused, it is not the leader in its own view
"""
# The refusals in each step's text, in its order.
CHECKS = {
    1: [8, 13],
    2: [8, 12, 14],
    3: [4, 5, 7],
    4: [4, 5, 6, 7],
    5: [4, 6, 7],
    6: [12],
    7: [9, 5, 10, 11],
    8: [9, 5, 10, 11, 12],
    9: [8, 5, 10, 11, 12],
    10: [12],
    11: [15, 16],
    12: [15, 6, 5, 11, 12],
    13: [15, 16, 14, 7],
    14: [15, 5, 16, 12],
    15: [15, 5, 16, 14, 7],
}


def run(
    *words,
    given=b"",
    tool=TOOL,
    program=PROGRAM,
    maker=MAKER,
    explainer=EXPLAINER,
    saver=SAVER,
    shower=SHOWER,
    taker=TAKER,
    planner=PLANNER,
    image_planner=IMAGE_PLANNER,
    **more,
):
    """Runs the tool. What it wrote is there as bytes on standard output and as text on standard error."""
    env = os.environ | {"RUNSHEET": str(program), "SEEDSHEET": str(maker), "EXPLAINSHEET": str(explainer)}
    env |= {"SAVESHEET": str(saver), "SHOWIMAGE": str(shower), "RESUMESHEET": str(taker)}
    env |= {"PLANSHEET": str(planner), "PLANIMAGE": str(image_planner)}
    more = {"stdout": subprocess.PIPE, "stderr": subprocess.PIPE, "env": env} | more
    done = subprocess.run([tool, *words], input=given, check=False, **more)
    if done.stderr is not None:
        done.stderr = done.stderr.decode()
    return done


class InFolder(unittest.TestCase):
    def setUp(self):
        folder = tempfile.TemporaryDirectory()
        self.addCleanup(folder.cleanup)
        self.folder = Path(folder.name)

    def file(self, name, data):
        path = self.folder / name
        path.parent.mkdir(parents=True, exist_ok=True)
        path.write_bytes(data)
        return path

    def script(self, name, text):
        path = self.file(name, b"#!/bin/sh\n" + text.encode())
        path.chmod(0o755)
        return path

    def listed(self, done, listing=LISTING):
        self.assertEqual((done.stdout, done.stderr, done.returncode), (listing, "", LISTED))

    def not_run(self, done, *said):
        self.assertEqual((done.stdout, done.returncode), (b"", NOT_RUN), done.stderr)
        for words in said:
            self.assertIn(words, done.stderr)
        self.assertNotIn("Traceback", done.stderr)


class Sheets(InFolder):
    def test_words_and_records_are_told_apart_by_what_they_hold(self):
        for name, data in [("sheet", WORDS), ("words.bin", WORDS), ("records.txt", RECORDS), ("records", RECORDS)]:
            with self.subTest(name):
                self.listed(run(self.file(name, data)))
                self.listed(run("-", given=data))

    def test_names_with_spaces_and_a_dash(self):
        self.listed(run(self.file("two words", WORDS)))
        self.file("-h", WORDS)
        self.listed(run("--", "-h", cwd=self.folder))

    def test_no_name_is_the_sample(self):
        self.listed(run())

    def test_texts_of_other_systems(self):
        for mark in [b"", b"\xef\xbb\xbf"]:
            for end in [b"\r\n", b"\r", b"\n\n"]:
                self.listed(run("-", given=mark + WORDS.replace(b"\n", end)))
        self.listed(run("-", given="# für 売上\n".encode() + WORDS))

    def test_texts_that_are_not_utf8(self):
        for code in ["utf-16", "utf-16-le", "utf-16-be"]:
            self.not_run(run("-", given=WORDS.decode().encode(code)), "UTF-16", "save the text as UTF-8")
        self.not_run(run("-", given=b"open 1\n# f\xfcr\n"), "line 2: byte 252 is not UTF-8")

    def test_binary_rubbish(self):
        rubbish = [b"\x89PNG\r\n\x1a\n\0\0\0\rIHDR", b"\x7fELF\2\1\1\0", b"\x1f\x8b\x08\0\0\0\0\0", b"open 1\0\n"]
        for data in rubbish:
            self.not_run(run("-", given=data), "standard input: binary data, neither words nor records")

    def test_files_that_cannot_be_read(self):
        self.not_run(run(self.folder / "none.txt"), "none.txt cannot be read: No such file")
        self.not_run(run(self.folder), "cannot be read: Is a directory")
        # It can be opened, and no byte of it can be read.
        self.not_run(run("/proc/self/mem"), "/proc/self/mem cannot be read")
        self.not_run(run("-", preexec_fn=lambda: os.close(0), given=None), "standard input cannot be read")

    @unittest.skipIf(os.geteuid() == 0, "root may read every file")
    def test_a_file_without_leave(self):
        path = self.file("closed", WORDS)
        path.chmod(0)
        self.not_run(run(path), "closed cannot be read: Permission denied")

    def test_an_endless_file(self):
        self.not_run(run("/dev/zero"), "which no sheet has")

    def test_usage(self):
        for words in [["-h"], ["--help"]]:
            done = run(*words)
            self.assertEqual((done.returncode, done.stderr), (0, ""))
            text = done.stdout.decode()
            for said in ["docs/FORMATS.md", "docs/PHRASES.md", "Exit status", "four minutes"]:
                self.assertIn(said, text)
            images = ["--save IMAGE", "--show IMAGE", "--resume IMAGE"]
            for way in ["--words", "--explain", "--ask", "--plan", "--seed SEED COUNT", *images]:
                self.assertIn(f"\n  {way}", text)
            for form in sheet.FORMS:
                self.assertIn("  " + " ".join(form), text)
        for words in [["--list"], ["one", "two"], ["--ask", "-"], ["--seed"], ["--seed", "1"]]:
            self.not_run(run(*words))
        ways = [["--words", "--ask"], ["--words", "--explain"], ["--ask", "--explain"]]
        for words in ways + [["--plan", way] for way in ["--words", "--explain", "--ask"]]:
            self.not_run(run(*words), "not allowed with argument")

    def test_a_link_to_the_tool(self):
        link = self.folder / "bin" / "row"
        link.parent.mkdir()
        link.symlink_to(TOOL)
        self.listed(run(tool=link))
        self.listed(run(tool="./row", cwd=link.parent))


class Refused(InFolder):
    def refused(self, data, *said):
        for words in [[], ["--words"], ["--explain"], ["--plan"]]:
            done = run(*words, "-", given=data)
            self.assertEqual((done.stdout, done.returncode), (b"refused 2\n", REFUSED))
            self.assertEqual(done.stderr, f"run-sheet: refused 2: {''.join(said)}\n")

    def test_why(self):
        add = bytes([3, 2, 0, 0, 0, 0, 0, 0])
        self.refused(RECORDS[:-1], "31 bytes are no whole records of 8 bytes")
        self.refused(b"open 1\nraw 1 2 3\n", "11 bytes are no whole records of 8 bytes")
        self.refused(bytes(7), "7 bytes are no whole records of 8 bytes")
        self.refused(b"raw 1\n", "1 bytes are no whole records of 8 bytes")
        self.refused(RECORDS[8:], "no opening first: record 1 is 'append 1 41'")
        self.refused(b"# late\nappend 1 41\nopen 1\n", "no opening first: line 2 is 'append 1 41'")
        self.refused(bytes([0, 9, 0, 0, 0, 0, 0, 0]), "no opening first: record 1 is 'raw 0 9 0 0 0 0 0 0'")
        self.refused(RECORDS + add * 4092, "4,096 records are more than 4,095")
        self.refused(RECORDS + add * 100_000, "100,004 records are more than 4,095")

    def test_the_longest_sheet_is_listed(self):
        add = bytes([3, 2, 0, 0, 0, 0, 0, 0])
        done = run("-", given=RECORDS + add * 4091)
        # Adding a member again is refused 5.
        answers = LISTING.partition(b"registry")[0] + b"".join(b"%d 3 5\n" % n for n in range(5, 4096))
        self.listed(done, answers + LISTING[LISTING.index(b"registry") :])


class Unopened(InFolder):
    """The empty sheet, document 02, Paper 9: the listing alone takes it."""

    # No byte, no line with a step, and the mark of UTF-8 by itself.
    EMPTY = [b"", b"\n", b"# Monday\n\n", b"\xef\xbb\xbf"]
    WHY = "run-sheet: refused 2: the sheet is empty"

    def test_the_listing(self):
        for data in self.EMPTY:
            self.listed(run("-", given=data), b"unopened\n")
            self.listed(run(self.file("friday", data)), b"unopened\n")

    def test_for_people(self):
        for data in self.EMPTY:
            self.listed(run("--words", "-", given=data), b"unopened: no step so far\n")

    def test_no_line_in_words_and_no_plan(self):
        for data in self.EMPTY:
            for way in ["--explain", "--plan"]:
                done = run(way, "-", given=data)
                self.assertEqual((done.stdout, done.returncode), (b"refused 2\n", REFUSED))
                self.assertEqual(done.stderr, f"{self.WHY}\n")

    def test_no_row_to_save(self):
        image = self.folder / "row.image"
        for words, shown in [([], b"unopened\n"), (["--words"], b"unopened: no step so far\n")]:
            for data in self.EMPTY:
                done = run(*words, "--save", image, "-", given=data)
                self.assertEqual((done.stdout, done.returncode), (shown, REFUSED))
                self.assertEqual(done.stderr, f"{self.WHY}: there is no row to save\n")
        done = run("--explain", "--save", image, "-")
        self.assertEqual((done.stdout, done.returncode, done.stderr), (b"refused 2\n", REFUSED, f"{self.WHY}\n"))
        self.assertFalse(image.exists())
        # Nor is an older image written over.
        image.write_bytes(IMAGE)
        self.assertEqual(run("--save", image, "-").returncode, REFUSED)
        self.assertEqual(image.read_bytes(), IMAGE)

    def test_a_prompt_after_it(self):
        done = run("--ask", self.file("friday", b"# nothing yet\n"), given=b"show\nopen 1\nundo\nshow\n")
        self.assertEqual((done.returncode, done.stderr), (LISTED, ""))
        said = done.stdout.decode().splitlines()
        self.assertEqual([line for line in said if line.startswith("unopened")], ["unopened: no step so far"] * 2)

    def test_programs_that_say_something_else(self):
        # A listing of no records is no listing of steps, nor the other way round.
        unopened = self.script("unopened", "echo unopened")
        for given in [WORDS, RECORDS]:
            done = run("--words", "-", given=given, program=unopened)
            self.assertEqual((done.stdout, done.returncode), (b"", FAILED))
            self.assertIn("what the program printed is no listing", done.stderr)
        opened = self.script("opened", f"cat {self.file('listing', LISTING)}")
        done = run("--words", "-", program=opened)
        self.assertEqual((done.stdout, done.returncode), (b"", FAILED))
        # Nor has a sheet that is listed no row, but for the empty one.
        refuses = self.script("refuses", "echo refused 2")
        done = run("--save", self.folder / "row.image", saver=refuses)
        self.assertEqual((done.stdout, done.returncode), (LISTING, FAILED))
        self.assertEqual(done.stderr, f"run-sheet: {refuses} refuses a sheet that has a row\n")


class Seeded(InFolder):
    def refused(self, seed, count, *words):
        done = run(*words, "--seed", seed, count)
        self.assertEqual((done.stdout, done.returncode), (b"refused 2\n", REFUSED), (seed, count))
        self.assertIn("run-sheet: refused 2: there is no sheet of seed '", done.stderr)
        what = "run-sheet: a seed is a number from 0 to 4294967295, a count of records one from 1 to 4095"
        self.assertIn(what, done.stderr)

    def test_the_listing(self):
        self.listed(run("--seed", "0", "5"), SEED_0_LISTING)

    def test_in_words(self):
        done = run("--words", "--seed", "0", "5")
        self.assertEqual((done.returncode, done.stderr), (LISTED, ""))
        rows = [re.split(r"  +", line.strip()) for line in done.stdout.decode().split("\n\n")[0].splitlines()]
        self.assertEqual(rows[0], ["record", "step", "answer"])
        self.assertEqual([row[:2] for row in rows[1:]], [[str(n), words] for n, words in enumerate(SEED_0, 1)])
        not_leader = "refused 8: it is not the leader in its own view"
        self.assertEqual(
            [row[2] for row in rows[1:]],
            [
                "accepted",
                "refused 8: the counting board is not the leader in its own view",
                not_leader,
                "refused 12: it has the newest news already",
                not_leader,
            ],
        )

    def test_a_prompt_after_it(self):
        story = self.folder / "story"
        done = run("--ask", "--seed", "0", "5", given=f"add 7\nundo\nsave {story}\n".encode())
        self.assertEqual((done.returncode, done.stderr), (LISTED, ""))
        said = done.stdout.decode().splitlines()
        self.assertEqual(said[1:3], ["refused 5: the board is a member already", "taken back: add 7"])
        self.assertEqual(story.read_text().splitlines(), SEED_0)

    def test_the_longest_has_words_for_every_record(self):
        made = subprocess.run([MAKER], input=b"4294967295 4095\n", stdout=subprocess.PIPE, check=True).stdout
        words = sheet.decode(made)
        self.assertEqual((len(words.splitlines()), words.count("raw")), (4095, 0))
        self.assertEqual(sheet.encode(words), made)
        done = run("--seed", "4294967295", "4095")
        self.listed(done, run("-", given=made).stdout)
        # All are well formed, so none is answered 1.
        self.assertIsNone(re.search(rb"^\d+ \d+ 1$", done.stdout, re.M))

    def test_no_seed_or_no_count(self):
        seeds = ["4294967296", "10000000000000000000000", "00", "01", "-1", "+1", "", " 1", "1 1", "1\n", "x", "é"]
        counts = ["0", "4096", "65537", "4294967297", "05", "-5", "+5", "", "5 ", "5 5", "5\n", "x", "\udcff"]
        for seed, count in [*((seed, "5") for seed in seeds), *(("0", count) for count in counts)]:
            self.refused(seed, count)
        for way in ["--words", "--explain", "--ask"]:
            self.refused("0", "0", way)

    def test_no_sheet_beside_it(self):
        for name in ["-", "none", str(self.file("story", WORDS))]:
            seed = ["--seed", "0", "5"]
            for words in [[*seed, name], [name, *seed], ["--ask", *seed, name], ["--explain", *seed, name]]:
                self.not_run(run(*words), "--seed makes the sheet: it takes no SHEET")

    def test_programs_that_fail(self):
        name = self.folder / "none"
        for maker, said in [
            (name, f"{name} does not run: No such file"),
            (self.script("ends", "exit 7"), "ends ended with status 7"),
            (self.script("mute", "exit 0"), "mute printed is no sheet"),
            (self.script("other", "echo hello"), "other printed is no sheet"),
        ]:
            done = run("--seed", "0", "5", maker=maker)
            self.assertEqual((done.stdout, done.returncode), (b"", FAILED))
            self.assertIn(said, done.stderr)


class Errors(InFolder):
    def test_all_errors_with_their_lines(self):
        text = b"open 1\n\nOpen 1\nread the leader\nadd 9 # who\nreceipt 1\njion 2\n"
        done = run(self.file("story", text), cwd=self.folder)
        story = self.folder / "story"
        self.not_run(done)
        self.assertEqual(
            done.stderr.splitlines(),
            [
                f"run-sheet: {story}, line 3: unknown step 'Open'; did you mean 'open 1'?",
                f"run-sheet: {story}, line 4: 'read the leader' is not 'read BOARD'; did you mean 'read leader'?",
                f"run-sheet: {story}, line 5: board '9' is not a number from 1 to 8",
                f"run-sheet: {story}, line 7: unknown step 'jion'; did you mean 'join 2'?",
                "run-sheet: run-sheet --help has every step in words",
            ],
        )

    def test_many_errors_are_counted(self):
        done = run("-", given=b"open 1\n" + b"bogus\n" * 25)
        self.not_run(done, "line 2: unknown step 'bogus'", "line 11:", "and 15 more lines that are no steps")
        self.assertNotIn("line 12:", done.stderr)


class Writing(InFolder):
    WAYS = [([], b""), (["--words"], b""), (["--explain"], b""), (["--ask"], b"open 1\n"), (["-"], b"")]
    WAYS += [(["--seed", "0", "5"], b""), (["--seed", "0", "0"], b"")]
    STORED = ROOT / "crates" / "savesheet" / "stdout"
    WAYS += [(["--show", STORED], b"")]
    WAYS += [(["--resume", STORED, "-"], b"add 3\n"), (["--resume", STORED, "-"], b"raw 1\n")]

    def failed(self, done, said):
        self.assertEqual(done.returncode, FAILED)
        self.assertEqual(done.stderr, f"run-sheet: writing failed: {said}\n")

    def test_a_full_device(self):
        for words, given in self.WAYS:
            with open("/dev/full", "wb") as full, self.subTest(words):
                self.failed(run(*words, given=given, stdout=full), "No space left on device")

    def test_a_closed_pipe(self):
        for words, given in self.WAYS:
            reading, writing = os.pipe()
            os.close(reading)
            with os.fdopen(writing, "wb") as pipe, self.subTest(words):
                self.failed(run(*words, given=given, stdout=pipe), "Broken pipe")

    def test_no_standard_output(self):
        done = run(preexec_fn=lambda: os.close(1), stdout=None)
        self.failed(done, "Bad file descriptor")


class InWords(InFolder):
    def test_the_sample(self):
        """Each field of document 01's listing stands under its name."""
        done = run("--words", self.file("story", b"# first\n" + WORDS))
        self.assertEqual((done.returncode, done.stderr), (LISTED, ""))
        parts = [part.splitlines() for part in done.stdout.decode().split("\n\n")]
        steps, views, boards, receipts = [[re.split(r"  +", line.strip()) for line in part] for part in parts]
        self.assertEqual(steps[0], ["record", "line", "step", "behind", "answer"])
        rows = [[str(n), str(n + 1), line, "accepted"] for n, line in enumerate(WORDS.decode().splitlines(), 1)]
        rows[2].insert(3, "1")
        self.assertEqual(steps[1:], rows)
        view = ["epoch", "leader epoch", "leader", "members"]
        self.assertEqual(views[0], [*view, "status or stage"])
        self.assertEqual(views[1], ["registry", "2", "1", "1", "1 2", "waiting"])
        self.assertEqual(views[2], ["controller", "1", "1", "1", "1", "idle"])
        self.assertEqual(boards[0], ["board", *view, "joined", "length", "mark"])
        self.assertEqual(boards[1], ["1", "1", "1", "1", "1", "1", "1", "late"])
        self.assertEqual(boards[2:], [[str(b), "1", "1", "1", "1", "1", "0", "late"] for b in range(2, 9)])
        self.assertEqual(receipts, [["receipts: 1, as value@epoch: 41@1"]])

    def test_receipts_of_two_leader_epochs(self):
        """Board 1 appended 40 under leader epoch 1, board 2 appended 41 under 6."""
        done = run("--words", ROOT / "examples" / "two-sales.txt")
        self.assertEqual(done.stdout.decode().splitlines()[-1], "receipts: 2, as value@epoch: 40@1 41@6")

    def test_boards_behind(self):
        """The sets that the story's comments tell of. Other records have none."""
        done = run("--words", ROOT / "examples" / "who-stood-behind.txt")
        names, *lines = done.stdout.decode().split("\n\n")[0].splitlines()
        column = slice(names.index("behind"), names.index("answer"))
        sets = {n: line[column].strip() for n, line in enumerate(lines, 1)}
        self.assertEqual(len(sets), 52)
        behind = {24: "1 2 3 4 5", 29: "1 2 3 4 5", 37: "1 2 3 4", 52: "2 4 5 6"}
        self.assertEqual({n: boards for n, boards in sets.items() if boards}, behind)

    def test_no_column_where_nobody_stands_behind(self):
        """A receipt that is refused has no boards behind it."""
        for story, names in [
            (b"open 1\nreceipt 1\n", ["record", "line", "step", "answer"]),
            (b"open 1\nappend 1 41\nreceipt 1\n", ["record", "line", "step", "behind", "answer"]),
        ]:
            lines = run("--words", "-", given=story).stdout.decode().splitlines()
            self.assertEqual(lines[0].split(), names)

    def test_columns_stand_below_their_names(self):
        lines = run("--words").stdout.decode().splitlines()
        receipt = lines[3]
        self.assertEqual(receipt[lines[0].index("behind") :].split(), ["1", "accepted"])
        self.assertEqual(receipt[lines[0].index("behind")], "1")
        self.assertEqual(receipt[lines[0].index("answer") :], "accepted")
        names = next(line for line in lines if line.startswith("board"))
        board = lines[lines.index(names) + 1]
        end = names.index("leader epoch") + len("leader epoch")
        self.assertEqual(board[end - 1 : end + 1], "1 ")
        self.assertEqual(board[names.index("members")], "1")
        self.assertEqual(board[names.index("mark") :], "late")

    def test_records_have_no_lines(self):
        lines = run("--words", "-", given=RECORDS + bytes([200, 1, 2, 3, 4, 5, 6, 7])).stdout.decode().splitlines()
        self.assertEqual(lines[0].split(), ["record", "step", "behind", "answer"])
        self.assertEqual(lines[2].split(), ["2", "append", "1", "41", "accepted"])
        raw = ["5", "raw", "200", "1", "2", "3", "4", "5", "6", "7"]
        self.assertEqual(lines[5].split(), [*raw, *"refused 1: these eight bytes are no step".split()])

    def test_the_refusals_that_the_samples_tell_of(self):
        """The comments of the samples say which lines are refused, and with what."""
        told = 0
        for sample in (ROOT / "examples").glob("*.txt"):
            shown = {}
            for line in run("--words", sample).stdout.decode().split("\n\n")[0].splitlines()[1:]:
                _, number, *_, answer = re.split(r"  +", line.strip())
                shown[int(number)] = answer
            for number, line in enumerate(sample.read_text().splitlines(), 1):
                if sheet.line_words(line):
                    refusal = re.search(r"# Refused (\d+)", line)
                    told += refusal is not None
                    expected = rf"refused {refusal[1]}: .+" if refusal else "accepted"
                    self.assertRegex(shown[number], f"^{expected}$")
        self.assertEqual(told, 8)


class Explained(InFolder):
    def test_the_sample_in_words_and_in_records(self):
        for name, data in [("words", WORDS), ("records", RECORDS)]:
            with self.subTest(name):
                self.listed(run("--explain", self.file(name, data)), LINES)
                self.listed(run("--explain", "-", given=data), LINES)
        self.listed(run("--explain"), LINES)

    def test_the_sheet_of_a_seed(self):
        self.listed(run("--explain", "--seed", "0", "5"), SEED_0_LINES)

    def test_refused_and_malformed_records(self):
        """Trial P6 of document 01, then records that are malformed, and an opening that stands second."""
        story = b"open 1\nadd 2\nadd 2\nraw 9 2 2 0 0 0 0 0\nraw 200 1 2 3 4 5 6 255\nopen 1\n"
        lines = b"""\
opening with board 1: accepted
add board 2: accepted
add board 2: refused, the board is a member already
record 09 02 02 00 00 00 00 00: refused, these eight bytes are no step
record C8 01 02 03 04 05 06 FF: refused, these eight bytes are no step
opening with board 1: refused, an opening stands first and nowhere else
"""
        self.listed(run("--explain", "-", given=story), lines)

    def test_what_the_program_prints_is_printed_as_it_is(self):
        program = self.script("other", "cat; printf 'one: two\\303\\274\\377\\n\\n'")
        # The program that lists is not run.
        done = run("--explain", "-", given=RECORDS, explainer=program, program=self.folder / "none")
        self.listed(done, RECORDS + b"one: two\303\274\377\n\n")

    def test_reasons_are_the_programs(self):
        """No other place has words for an answer: what --words and --ask show follows the program."""
        program = self.script("other", "echo 'a: accepted'; [ $(wc -c) = 8 ] || echo 'b, c: refused, for: no reason'")
        story = b"open 1\nreceipt 1\n"
        lines = run("--words", "-", given=story, explainer=program).stdout.decode().splitlines()
        self.assertEqual(re.split("  +", lines[2].strip()), ["2", "2", "receipt 1", "refused 12: for: no reason"])
        said = run("--ask", given=story, explainer=program).stdout.decode().splitlines()
        self.assertEqual((said[1], said[-1]), ("accepted", "refused 12: for: no reason"))

    def test_programs_that_fail(self):
        name = self.folder / "none"
        ways = [["--words"], ["--ask", self.file("story", WORDS)]]
        for explainer, said in [
            (name, f"{name} does not run: No such file"),
            (self.script("ends", "exit 7"), "ends ended with status 7"),
        ]:
            for words in [["--explain"], *ways]:
                done = run(*words, explainer=explainer)
                self.assertEqual((done.stdout, done.returncode), (b"", FAILED))
                self.assertIn(said, done.stderr)
        # Lines that are too few, too many, no words, or of other answers than the listing's.
        wrong = [LINES[31:], LINES + LINES, b"refused 2\n", LINES.replace(b"41: accepted", b"41: accepted not")]
        wrong.append(LINES.replace(b"41: accepted", b"41: refused, its log is full"))
        for text in wrong:
            given = self.file("text", text)
            for words in ways:
                done = run(*words, explainer=self.script("other", f"cat '{given}'"))
                self.assertEqual((done.stdout, done.returncode), (b"", FAILED))
                self.assertIn("other printed does not tell the answers of the listing", done.stderr)
                self.assertNotIn("Traceback", done.stderr)


class Images(InFolder):
    """A row that is stored, shown and taken up again: document 02, Paper 7."""

    ENDING = LISTING[LISTING.index(b"registry") :]
    # Two boards, three sales, a receipt; then board 2 leads alone.
    STORY = ["open 1", "append 1 41", "add 2", "news 1", "news 2", "controller news", "read leader", "receive 2"]
    STORY += ["read 2", "set normal", "count 1 2", "receipt 1", "add 2", "raw 9 2 2 0 0 0 0 0", "append 1 42"]
    STORY += ["change leader", "news 2", "append 2 43", "receipt 2"]

    def setUp(self):
        super().setUp()
        self.image = self.folder / "row.image"

    def refused(self, done, number, *said):
        self.assertEqual((done.stdout, done.returncode), (b"refused %d\n" % number, REFUSED), done.stderr)
        self.assertTrue(done.stderr.startswith(f"run-sheet: refused {number}: "))
        for words in said:
            self.assertIn(words, done.stderr)

    def test_the_samples_image(self):
        for words in [["--save", self.image], ["--save", self.image, self.file("records", RECORDS)]]:
            self.listed(run(*words))
            self.assertEqual(self.image.read_bytes(), IMAGE)
        self.listed(run("--explain", "--save", self.image), LINES)
        self.assertEqual(self.image.read_bytes(), IMAGE)
        self.listed(run("--show", self.image), self.ENDING)
        self.listed(run("--show", "-", given=IMAGE), self.ENDING)

    def test_in_words(self):
        """The row of an image is shown as a listing shows it, without the records."""
        listed = run("--words", "--save", self.image).stdout
        done = run("--words", "--show", self.image)
        self.listed(done, listed.partition(b"\n\n")[2])
        # No program has the reasons of a row taken up.
        done = run("--words", "--resume", self.image, "-", given=b"\nreceipt 1\nappend 1 42\nreceipt 1\n")
        self.assertEqual((done.returncode, done.stderr), (LISTED, ""))
        steps, _, boards, receipts = done.stdout.decode().split("\n\n")
        self.assertEqual(
            [re.split(r"  +", line.strip()) for line in steps.splitlines()],
            [
                ["record", "line", "step", "behind", "answer"],
                ["1", "2", "receipt 1", "refused 12"],
                ["2", "3", "append 1 42", "accepted"],
                ["3", "4", "receipt 1", "1", "accepted"],
            ],
        )
        self.assertEqual(boards.splitlines()[1].split(), ["1", "1", "1", "1", "1", "1", "2", "late"])
        self.assertEqual(receipts, "receipts: 2, as value@epoch: 41@1 42@1\n")

    def test_going_on(self):
        """The sample's board 2 is a member already (5), and no receipt is due (12)."""
        image = self.file("image", IMAGE)
        for name, data in [("words", b"add 2\nreceipt 1\n"), ("records", RECORDS[24:] + RECORDS[16:24])]:
            done = run("--resume", image, "--save", self.image, self.file(name, data))
            self.listed(done, b"1 3 5\n2 2 12\n" + self.ENDING)
            # Refused steps leave the row as it was.
            self.assertEqual(self.image.read_bytes(), IMAGE)
        # An opening stands in mid-sheet, and malformed records are answered too.
        given = b"open 1\nraw 200 1 2 3 4 5 6 7\n"
        self.listed(run("--resume", image, "-", given=given), b"1 0 1\n2 200 1\n" + self.ENDING)
        self.listed(run("--resume", image, "-", given=b"# nothing\n"), self.ENDING)
        self.listed(run("--resume", "-", self.file("none", b""), given=IMAGE), self.ENDING)

    def test_the_image_in_the_midst_of_a_story(self):
        """Every field of examples/power-cut/first.txt's row, in the order of Paper 7."""
        run("--save", self.image, ROOT / "examples" / "power-cut" / "first.txt")
        both, waiting, boards, none = 3, 1, 2, 65535
        head = pack("<HHBBBB", 2, 1, 1, both, waiting, 0) + pack("<HHBBBB", 2, 1, 1, both, boards, 0)
        # The controller has heard its leader alone.
        head += pack("<HH", 2, 0) + pack("<HH", none, 0) * 7
        # Board 1 has counted itself at length 2 and board 2 at 1; board 2 counts nobody. Epoch, leader epoch, joined,
        # leader, members, counts, first record.
        head += pack("<HHHBB8HH", 2, 1, 1, 1, both, 2, 1, 0, 0, 0, 0, 0, 0, 1)
        head += pack("<HHHBB8HH", 2, 1, 1, 1, both, 0, 0, 0, 0, 0, 0, 0, 0, 3)
        head += pack("<HHHBB8HH", 1, 1, 1, 1, 1, 0, 0, 0, 0, 0, 0, 0, 0, 0) * 6
        head += pack("<H", 5)
        # Value, epoch, next record.
        log = [(41, 1, 2), (42, 1, 0), (41, 1, 4), (42, 1, 0)]
        records = b"".join(pack("<IHH", *entry) for entry in [*log, (41, 1, 0)])
        self.assertEqual(self.image.read_bytes(), head + records)

    def test_a_new_image(self):
        """crates/resumesheet has the sample with four records more, worked out by hand."""
        folder = ROOT / "crates" / "resumesheet"
        given, expected = (folder / "stdin").read_bytes(), (folder / "stdout").read_bytes()
        steps = self.file("steps", given[4 + len(IMAGE) :])
        done = run("--resume", self.file("image", IMAGE), "--save", self.image, steps)
        ending = self.ENDING.replace(b"1 1 1 1 1 1 1 late", b"1 1 1 1 1 1 2 late").replace(b"1 41@1", b"2 41@1 42@1")
        self.listed(done, b"1 2 12\n2 3 5\n3 1 0\n4 2 0 1\n" + ending)
        self.assertEqual(self.image.read_bytes(), expected[1 + 2 * 4 :])

    def test_a_story_cut_at_every_place(self):
        """It goes on as if it had not been cut: each line has its answer and its set, and the end is the same."""
        for story in [self.STORY, (ROOT / "examples" / "two-sales.txt").read_text().splitlines()]:
            records = sheet.encode("\n".join(story))
            whole = run("-", given=records).stdout.decode().splitlines()
            count = len(records) // 8
            answers = [line.partition(" ")[2] for line in whole[:count]]
            last = run("--save", self.image, "-", given=records)
            self.assertEqual(last.returncode, LISTED)
            image = self.image.read_bytes()
            for cut in range(1, count + 1):
                run("--save", self.image, "-", given=records[: 8 * cut])
                done = run("--resume", self.image, "--save", self.image, "-", given=records[8 * cut :])
                lines = [f"{n} {answer}" for n, answer in enumerate(answers[cut:], 1)] + whole[count:]
                self.listed(done, "".join(line + "\n" for line in lines).encode())
                self.assertEqual(self.image.read_bytes(), image)

    def test_a_power_cut_after_every_step(self):
        """The row is stored and taken up again after each step of the story."""
        records = sheet.encode("\n".join(self.STORY))
        whole = run("-", given=records).stdout.decode().splitlines()
        run("--save", self.image, "-", given=records[:8])
        for n in range(2, len(self.STORY) + 1):
            done = run("--resume", self.image, "--save", self.image, "-", given=records[8 * n - 8 : 8 * n])
            self.assertEqual(done.stdout.decode().splitlines()[0], whole[n - 1].replace(f"{n} ", "1 ", 1))
        self.assertEqual(done.stdout.decode().splitlines()[1:], whole[len(self.STORY) :])

    def test_images_that_are_refused(self):
        """17 a length, 18 a number, 19 a link: by --show and by --resume, with the steps untold."""
        head, records = IMAGE[:258], IMAGE[258:]
        long = "and an image 258 and 8 for each of 0 to 4,608 records"
        for image, number, said in [
            (b"", 17, f"it has 0 bytes, {long}"),
            (IMAGE[:257], 17, f"it has 257 bytes, {long}"),
            (IMAGE + b"\0", 17, f"it has 275 bytes, {long}"),
            (head + records + bytes(8) * 4607, 17, f"it has more than 37,122 bytes, {long}"),
            (IMAGE + bytes(1 << 18), 17, f"it has more than 37,122 bytes, {long}"),
            (b"\0\0" + IMAGE[2:], 18, "a number outside its range"),
            (IMAGE[:7] + b"\1" + IMAGE[8:], 18, "a zero byte that is not 0"),
            # Leader 0 while waiting.
            (IMAGE[:4] + b"\0" + IMAGE[5:], 18, "a row that refusal 1 would turn away"),
            # A record that is not met, one that is met twice, one that is not there.
            (IMAGE + records[:8], 19, "a record that is met twice or not at all"),
            (head[:256] + b"\1\0" + records, 19, "a record that is met twice or not at all"),
            (head[:256] + b"\3\0" + records, 19, "a chain that passes its last record"),
        ]:
            path = self.file("image", image)
            shown = [["--show", path], ["--words", "--show", path], ["--plan", "--show", path]]
            for words in [*shown, ["--resume", path, "-", "--save", self.image]]:
                self.refused(run(*words, given=b"add 3\n"), number, f"{path} is no image: it has ", said)
            self.refused(run("--show", "-", given=image), number, "standard input is no image: ")
        self.assertFalse(self.image.exists())

    def test_steps_that_are_refused(self):
        image = self.file("image", IMAGE)
        for data, said in [
            (RECORDS[:-1], "31 bytes are no whole records of 8 bytes"),
            (b"add 3\nraw 1 2 3\n", "11 bytes are no whole records of 8 bytes"),
            (RECORDS[24:] * 4096, "4,096 records are more than 4,095"),
            (RECORDS[24:] * 100_000, "100,000 records are more than 4,095"),
        ]:
            done = run("--resume", image, "--save", self.image, "-", given=data)
            self.refused(done, 2, said)
            # The steps are looked at before the image.
            self.refused(run("--resume", self.file("other", b"?"), "-", given=data), 2, said)
        self.assertFalse(self.image.exists())
        done = run("--resume", image, "-", given=RECORDS[24:] * 4095)
        self.listed(done, b"".join(b"%d 3 5\n" % n for n in range(1, 4096)) + self.ENDING)
        # A sheet that is refused has no row.
        for words in [[], ["--words"], ["--explain"]]:
            self.refused(run(*words, "--save", self.image, "-", given=RECORDS[8:]), 2, "no opening first")
        self.assertFalse(self.image.exists())

    def test_a_row_from_elsewhere(self):
        """Choosing with leader 0, the controller at stage boards with all heard: set normal leaves a row that refusal 1
        turns away, so that nothing can be shown or saved, and every step after it is answered 1."""
        made = bytearray(IMAGE)
        made[4], made[6] = 0, 2
        made[8:16] = [2, 0, 1, 0, 1, 3, 2, 0]
        made[16:24] = [0, 0, 0, 0, 0, 0, 0, 0]
        done = run("--resume", self.file("image", made), "--save", self.image, "-", given=b"set normal\nadd 3\n")
        self.assertEqual((done.stdout, done.returncode), (b"1 13 0 12\n2 3 1\n", REFUSED))
        self.assertIn("run-sheet: refused 1: these steps made a row outside its ranges", done.stderr)
        self.assertFalse(self.image.exists())

    def test_the_program_that_takes_rows_up(self):
        """Inputs that the tool does not make: too short for their image, or longer than any."""
        length = len(IMAGE).to_bytes(4, "little")
        for given, printed in [
            (length + IMAGE, b"\0" + IMAGE),
            (b"", b"\2"),
            (length[:3], b"\2"),
            (length, b"\2"),
            (length + IMAGE[:-1], b"\2"),
            (b"\xff\xff\xff\xff" + IMAGE, b"\2"),
            # The image's last record taken for a step: the receipts' chain then passes the last one.
            ((len(IMAGE) - 8).to_bytes(4, "little") + IMAGE, b"\x13"),
            ((37130).to_bytes(4, "little") + bytes(37130), b"\x11"),
            (bytes(4), b"\x11"),
            (length + IMAGE + bytes(8) * 4095, b"\0" + b"\1\0" * 4095 + IMAGE),
            (length + IMAGE + bytes(8) * 4096, b"\2"),
            (length + IMAGE + bytes(1 << 20), b"\2"),
        ]:
            done = subprocess.run([TAKER], input=given, stdout=subprocess.PIPE, check=True)
            self.assertEqual(done.stdout, printed, (given[:4], len(given)))

    def test_files_of_others_are_spared(self):
        story, records = self.file("story", WORDS), self.file("records", RECORDS)
        # By its length it could be an image.
        text = self.file("text", b"# " * 129)
        for path in [story, records, text, self.file("image too", IMAGE + b"\0")]:
            before = path.read_bytes()
            for words in [[story], ["--resume", self.file("image", IMAGE), story], ["--seed", "0", "5"]]:
                self.not_run(run("--save", path, *words), f"{path} is there already, and is no image: choose another")
            self.assertEqual(path.read_bytes(), before)
        self.listed(run("--save", self.file("empty", b""), story))
        self.assertEqual((self.folder / "empty").read_bytes(), IMAGE)

    def test_files_that_cannot_be_written(self):
        for path, said in [
            (self.folder, "Is a directory"),
            (self.folder / "no" / "where", "No such file or directory"),
            ("/dev/full", "No space left on device"),
        ]:
            for words in [[], ["--resume", self.file("image", IMAGE), self.file("steps", b"add 3\n")]]:
                done = run("--save", path, *words)
                self.assertEqual((done.stdout, done.returncode), (b"", FAILED))
                self.assertEqual(done.stderr, f"run-sheet: {path} is not written: {said}\n")

    def test_files_that_cannot_be_read(self):
        none, story = self.folder / "none", self.file("story", WORDS)
        for words in [["--show"], ["--resume"]]:
            more = [story] if words == ["--resume"] else []
            self.not_run(run(*words, none, *more), "none cannot be read: No such file")
            self.not_run(run(*words, self.folder, *more), "cannot be read: Is a directory")
        self.not_run(run("--resume", self.file("image", IMAGE), none), "none cannot be read: No such file")
        self.refused(run("--show", "/dev/zero"), 17, "more than 37,122 bytes")

    def test_options_that_do_not_go_together(self):
        image, story = self.file("image", IMAGE), self.file("story", WORDS)
        show, resume, keep, seed = ["--show", image], ["--resume", image], ["--save", self.image], ["--seed", "0", "5"]
        for words, said in [
            ([*show, *seed], "--show does not go with --seed"),
            ([*show, *keep], "--show does not go with --save"),
            ([*show, *resume], "--show does not go with --resume"),
            ([*show, "--explain"], "--show does not go with --explain"),
            ([*show, "--ask"], "--show does not go with --ask"),
            ([*show, story], "--show takes an image alone"),
            ([*resume, *seed], "--resume does not go with --seed"),
            ([*resume, "--explain", story], "--resume does not go with --explain"),
            ([*resume, "--ask"], "--resume does not go with --ask"),
            ([*resume, "--plan", story], "--resume does not go with --plan"),
            ([*show, "--plan", story], "--show takes an image alone"),
            (resume, "--resume goes on with the steps of a SHEET"),
            (["--resume", "-", "-"], "image and steps cannot both be standard input"),
            ([*keep, "--ask"], "--save does not go with --ask"),
        ]:
            self.not_run(run(*words), said)
        self.assertFalse(self.image.exists())

    def test_programs_that_fail(self):
        image, story, name = self.file("image", IMAGE), self.file("story", WORDS[-6:]), self.folder / "none"
        for words, which in [
            (["--save", self.image], "saver"),
            (["--show", image], "shower"),
            (["--resume", image, story], "taker"),
            (["--resume", image, story], "shower"),
        ]:
            for program, said in [
                (name, f"{name} does not run: No such file"),
                (self.script("ends", "exit 7"), "ends ended with status 7"),
            ]:
                done = run(*words, **{which: program})
                self.assertEqual((done.stdout, done.returncode), (b"", FAILED))
                self.assertIn(said, done.stderr)
        for answer in [b"", b"\0", b"\0\0", b"\x12 more", b"\0\5\1" + IMAGE, b"\0\0\0" + IMAGE[1:], b"\0\0" + IMAGE]:
            given = self.file("answer", answer)
            done = run("--resume", image, story, taker=self.script("other", f"cat >/dev/null; cat '{given}'"))
            self.assertEqual((done.stdout, done.returncode), (b"", FAILED), answer[:4])
            self.assertIn("other printed are no answers", done.stderr)
        done = run("--resume", image, story, "--save", self.image, shower=self.script("other", "echo refused 18"))
        self.assertEqual((done.stdout, done.returncode), (b"", FAILED))
        self.assertIn("printed is no image: ", done.stderr)
        done = run("--save", self.image, saver=self.script("other", "echo hello"))
        self.assertEqual((done.stdout, done.returncode), (b"", FAILED))
        self.assertIn("other printed is no image", done.stderr)
        self.assertFalse(self.image.exists())
        done = run("--words", "--show", image, shower=self.script("other", "echo hello"))
        self.assertEqual((done.stdout, done.returncode), (b"", FAILED))
        self.assertIn("printed is no listing", done.stderr)


class Planned(InFolder):
    """The steps that lead a row to normal, document 02, Paper 10, each list worked out by hand."""

    NORMAL = b"normal: no step is needed\n"
    # The sample waits, since board 2 was added. Board 2 joined at the opening, and lacks one entry.
    SAMPLE = ["controller news", "news 1", "read leader", "news 2", "receive 2", "read 2", "set normal"]
    NONE = "run-sheet: refused 20: no list of steps leads the row to normal: too few epochs are left for it"
    # Board 7 leads alone, board 8 having been replaced; all are added again. The logs of the others are empty.
    EIGHT = ["open 8", "add 7", "controller news", "news 8", "read leader", "news 7", "read 7", "set normal"]
    EIGHT += ["change leader", "news 7", *["append 7 9"] * 512, *(f"add {board}" for board in [1, 2, 3, 4, 5, 6, 8])]

    def planned(self, done, steps):
        lines = "".join(f"{n} {words}\n" for n, words in enumerate(steps, 1))
        self.listed(done, lines.encode() or self.NORMAL)

    def plan(self, story):
        return run("--plan", "-", given="\n".join(story).encode())

    def test_the_sample(self):
        for words in [[], [self.file("words", WORDS)], [self.file("records", RECORDS)]]:
            self.planned(run("--plan", *words), self.SAMPLE)
        self.planned(run("--plan", "-", given=WORDS), self.SAMPLE)

    def test_the_row_of_an_image(self):
        self.planned(run("--plan", "--show", self.file("image", IMAGE)), self.SAMPLE)
        self.planned(run("--show", "-", "--plan", given=IMAGE), self.SAMPLE)

    def test_beside_a_row_that_is_saved(self):
        image = self.folder / "image"
        self.planned(run("--plan", "--save", image), self.SAMPLE)
        self.assertEqual(image.read_bytes(), IMAGE)

    def test_normal_rows(self):
        self.planned(run("--plan", "-", given=WORDS[: WORDS.index(b"add")]), [])
        self.planned(run("--plan", "--seed", "0", "5"), [])
        image = self.folder / "image"
        run("--save", image, "--seed", "0", "5")
        self.planned(run("--plan", "--show", image), [])

    def test_what_is_left_out(self):
        """The steps of the sample's list, made one after the other."""
        made = WORDS.decode().splitlines()
        for n, words in enumerate(self.SAMPLE):
            self.planned(self.plan(made), self.SAMPLE[n:])
            made.append(words)
        self.planned(self.plan(made), [])

    def test_choosing(self):
        # The leader of two is replaced by the other. Of three, the lowest-numbered majority of 2 and 3 is both.
        two = ["open 1", "add 2", "controller news", "news 1", "read leader", "news 2", "read 2", "set normal"]
        self.planned(self.plan([*two, "change leader"]), [])
        three = [*two, "add 3", "controller news", "news 1", "read leader", "news 2", "read 2", "set normal"]
        chosen = ["controller news", "news 2", "hear 2", "news 3", "hear 3", "install 2"]
        # On a tie board 2 is installed. Boards join the new leader.
        chosen += ["news 2", "read leader", "news 3", "join 3", "read 3", "set normal"]
        self.planned(self.plan([*three, "change leader"]), chosen)

    def test_the_lists_lead_to_normal(self):
        for path in sorted((ROOT / "examples").glob("*.txt")):
            story = sheet.decode(sheet.encode(path.read_text()))
            lines = run("--plan", path).stdout.decode().splitlines()
            steps = [line.partition(" ")[2] for line in lines if line[0].isdigit()]
            done = run("-", given=(story + "".join(words + "\n" for words in steps)).encode())
            listed = listing.parse(done.stdout.decode())
            self.assertEqual(listed.answers[len(story.splitlines()) :], [0] * len(steps), path)
            self.assertEqual(listed.registry["status"], "normal", path)

    def test_the_longest_list(self):
        steps = ["controller news", "news 7", "read leader"]
        for board in [1, 2, 3, 4]:
            steps += [f"news {board}", f"join {board}", *[f"receive {board}"] * 512, f"read {board}"]
        steps.append("set normal")
        self.assertEqual(len(steps), 2064)
        self.planned(self.plan(self.EIGHT), steps)

    def test_no_list(self):
        # Each adding and removing is an epoch. Set normal takes one more, and the last is 4,000.
        story = ["open 1", "add 2", *["add 3", "remove 3"] * 1998]
        steps = ["controller news", "news 1", "read leader", "news 2", "read 2", "set normal"]
        self.planned(self.plan(story), steps)
        self.planned(self.plan([*story, "add 3"]), steps)
        done = self.plan([*story, "add 3", "remove 3"])
        self.assertEqual((done.stdout, done.stderr, done.returncode), (b"refused 20\n", f"{self.NONE}\n", REFUSED))
        # The leader of this image is no member.
        done = run("--plan", "--show", "-", given=IMAGE[:5] + b"\2" + IMAGE[6:])
        self.assertEqual((done.stdout, done.returncode), (b"refused 20\n", REFUSED))
        self.assertEqual(done.stderr, f"{self.NONE}, or no run gives such a row\n")

    def test_programs_that_fail(self):
        image, name = self.file("image", IMAGE), self.folder / "none"
        long = self.file("long", RECORDS[24:] * 2065)
        for program, said in [
            (name, f"{name} does not run: No such file"),
            (self.script("ends", "exit 7"), "ends ended with status 7"),
            (self.script("hello", "cat >/dev/null; echo hello"), "hello printed is no list of steps"),
            (self.script("part", "cat >/dev/null; head -c 7 /dev/zero"), "part printed is no list of steps"),
            (self.script("long", f"cat >/dev/null; cat '{long}'"), "long printed is no list of steps"),
        ]:
            for done in [run("--plan", planner=program), run("--plan", "--show", image, image_planner=program)]:
                self.assertEqual((done.stdout, done.returncode), (b"", FAILED))
                self.assertIn(said, done.stderr)
                self.assertNotIn("Traceback", done.stderr)

    def test_at_the_prompt(self):
        lines = ["plan", *WORDS.decode().splitlines(), "plan", "remove 2", "plan", "plan 2"]
        done = run("--ask", given="".join(line + "\n" for line in lines).encode())
        self.assertEqual((done.returncode, done.stderr), (LISTED, ""))
        said = done.stdout.decode().splitlines()
        self.assertEqual(said[1], "unopened: no step so far")
        first = said.index("1 controller news")
        self.assertEqual(said[first : first + 7], [f"{n} {words}" for n, words in enumerate(self.SAMPLE, 1)])
        self.assertEqual(said[-2:], ["normal: no step is needed", "plan stands alone on its line"])
        # A plan is no step.
        story = self.file("story", "\n".join(["open 1", "add 2", *["add 3", "remove 3"] * 1998, "add 3"]).encode())
        done = run("--ask", story, given=b"remove 3\nplan\n")
        self.assertEqual(done.stdout.decode().splitlines()[-1], self.NONE.partition(": ")[2])
        # Without its program the prompt goes on.
        done = run("--ask", given=b"open 1\nplan\nadd 2\n", planner=self.folder / "none")
        self.assertEqual((done.returncode, done.stderr), (LISTED, ""))
        said = done.stdout.decode().splitlines()
        self.assertEqual(said[3], f"{self.folder}/none does not run: No such file or directory")
        self.assertEqual(said[4], "accepted")


class Compared(unittest.TestCase):
    """The comparison of two listings, the sample's and an edited one."""

    def edited(self, old, new, text=LISTING):
        self.assertEqual(text.count(old), 1)
        return text.replace(old, new)

    def changes(self, before, after, expected):
        before, after = (listing.parse(text.decode()) for text in (before, after))
        self.assertEqual(listing.changes(before, after), expected)

    def test_nothing(self):
        self.changes(LISTING, LISTING, [])

    def test_a_set(self):
        other = self.edited(b"3 2 0 1\n", b"3 2 0 13\n")
        self.changes(LISTING, other, ["record 3: behind 1 -> 1 3"])
        self.changes(other, LISTING, ["record 3: behind 1 3 -> 1"])

    def test_a_set_on_one_side(self):
        other = self.edited(b"3 2 0 1\n", b"3 2 14\n")
        self.changes(LISTING, other, ["record 3: behind 1 -> none"])
        self.changes(other, LISTING, ["record 3: behind 1"])

    def test_sets_of_set_normal_and_install(self):
        before = self.edited(b"2 1 0\n", b"2 15 0 2\n", self.edited(b"4 3 0\n", b"4 13 0 23\n"))
        after = self.edited(b"2 15 0 2\n", b"2 15 0 28\n", self.edited(b"4 13 0 23\n", b"4 13 0 234\n", before))
        self.changes(before, after, ["record 2: behind 2 -> 2 8", "record 4: behind 2 3 -> 2 3 4"])

    def test_records_more_and_fewer(self):
        two = self.edited(b"3 2 0 1\n4 3 0\n", b"")
        self.changes(two, LISTING, ["record 3: behind 1"])
        self.changes(LISTING, two, [])

    def test_a_set_beside_the_state(self):
        other = self.edited(b"3 2 0 1\n4 3 0\nregistry 2 ", b"3 2 0 8\n4 3 0\nregistry 3 ")
        self.changes(LISTING, other, ["record 3: behind 1 -> 8", "registry: epoch 2 -> 3"])


class Formats(unittest.TestCase):
    """docs/FORMATS.md, the header and the tools say the same."""

    page = (ROOT / "docs" / "FORMATS.md").read_text()
    header = (ROOT / "include" / "row.h").read_text()

    def rows(self, title):
        part = self.page.split(f"\n## {title}\n")[1].split("\n## ")[0]
        rows = [line.strip("| ").split(" | ") for line in part.splitlines() if line.startswith("|")]
        return [[cell.strip() for cell in row] for row in rows[2:]]

    def test_the_steps(self):
        rows = self.rows("The steps")
        self.assertEqual(len(rows), 16)
        for step, (words, number, fields, asks, _) in enumerate(rows):
            self.assertEqual(int(number), step)
            form = [word if word.islower() else word[0] for word in sheet.FORMS[step]]
            shown = ["B" if word in "AB" else word[0] if word.isupper() else word for word in words.strip("`").split()]
            self.assertEqual(shown, form)
            answers = [int(answer) for answer in re.findall(r"\[(\d+)\]", asks)]
            self.assertEqual(answers, CHECKS.get(step, [1]), words)
            self.assertEqual(fields.count("board"), form.count("B"))
            self.assertEqual(fields.count("value"), form.count("V"))

    def test_the_answers(self):
        rows = self.rows("The answers")
        self.assertEqual([int(row[0]) for row in rows], list(range(20)))
        # What only a list back to normal is answered.
        lists = self.rows("Lists back to normal")
        self.assertEqual([int(row[0]) for row in lists], [20])
        for number, *_, name in rows + lists:
            self.assertRegex(self.header, rf"{name.strip('`')}(?: =)? {number}\b")

    def test_the_refusals_of_other_calls(self):
        told = re.findall(r"(\d)\s\(`(ROW_\w+)`\)", self.page)
        seed = [("2", "ROW_BAD_COUNT"), ("3", "ROW_SHORT_SLICE")]
        words = [("1", "ROW_NO_LINE"), ("3", "ROW_SHORT_LINE"), ("2", "ROW_BAD_SHEET"), ("3", "ROW_SHORT_TEXT")]
        images = [("2", "ROW_BAD_SHEET"), ("3", "ROW_SHORT_IMAGE"), ("3", "ROW_SHORT_SCRATCH")]
        lists = [("2", "ROW_BAD_SHEET"), ("3", "ROW_SHORT_LIST")]
        self.assertEqual(told, seed + words + images + lists)
        for number, name in told:
            self.assertRegex(self.header, rf"#define {name} {number}\b")

    def test_the_steps_of_the_header(self):
        steps = re.findall(r"ROW_STEP_(\w+) = (\d+),? +/\* ([\w, ]+?)  ", self.header)
        self.assertEqual([int(number) for _, number, _ in steps], list(range(16)))
        for (name, _, fields), form in zip(steps, sheet.FORMS):
            # Two names of the header are longer than the words: opening, take_news.
            for word in [word for word in form if word.islower()]:
                self.assertIn(word, name.lower())
            kinds = {"none": [], "board": ["BOARD"], "second": ["BOARD"], "value": ["VALUE"]}
            used = [kind for field in fields.split(", ") for kind in kinds[field]]
            self.assertEqual(used, [word for word in form if word.isupper()])


class Asking(InFolder):
    def ask(self, lines, *words):
        """What the prompt says to each line, without the first that it says by itself."""
        done = run("--ask", *words, given="".join(line + "\n" for line in lines).encode())
        self.assertEqual((done.returncode, done.stderr), (LISTED, ""))
        return done.stdout.decode().splitlines()[1:]

    def test_trials_of_document_01(self):
        """P6 to P9: each step with its answer and what the paper says has changed."""
        said = self.ask(
            ["open 1", "add 2", "add 2", "change leader", "read leader", "controller news", "read leader"]
            + ["news 1", "read leader", "set normal", "read 2", "set normal", "change leader"]
        )
        answers = [re.match(r"accepted|refused \d+", line)[0] for line in said if not line.startswith(" ")]
        expected = ["accepted", "accepted", "refused 5", "refused 4", "refused 15", "accepted", "refused 16"]
        expected += ["accepted", "accepted", "refused 14", "accepted", "accepted", "accepted"]
        self.assertEqual(answers, expected)
        self.assertIn("  registry: epoch 1 -> 2, members 1 -> 1 2, status normal -> waiting", said)
        normal = "  registry: epoch 2 -> 3, status waiting -> normal"
        # P8: both members are heard at length 0.
        self.assertEqual(said[said.index(normal) - 2 : said.index(normal)], ["accepted", "  record 12: behind 1 2"])
        change = "  registry: epoch 3 -> 4, leader epoch 1 -> 4, leader 1 -> 2, members 1 2 -> 2"
        self.assertEqual(said[said.index(change) - 1], "accepted")
        self.assertIn("  nothing that a listing shows has changed", said)

    def test_what_changed(self):
        said = self.ask(["open 1", "receipt 1", "append 1 41", "receipt 1", "add 2", "news 2"])
        self.assertEqual(
            said,
            [
                "accepted",
                "  registry: epoch 1, leader epoch 1, leader 1, members 1, status normal",
                "refused 12: its log is not longer than the receipts",
                "accepted",
                "  board 1: length 0 -> 1",
                "accepted",
                "  record 4: behind 1",
                "  receipts: 0 -> 1, 41@1",
                "accepted",
                "  registry: epoch 1 -> 2, members 1 -> 1 2, status normal -> waiting",
                "  boards 1 2 3 4 5 6 7 8: mark current -> late",
                "accepted",
                "  board 2: epoch 1 -> 2, members 1 -> 1 2, mark late -> current",
            ],
        )

    def test_late_until_joined(self):
        """Document 02, Paper 1: a board that took news is late until it joins."""
        story = str(ROOT / "examples" / "late-until-joined.txt")
        joined = "joined 1 -> 7, length 2 -> 1, mark late -> current"
        self.assertEqual(
            self.ask(["undo", "join 4", "join 1"], story),
            [
                "taken back: join 4",
                "  board 4: joined 7 -> 1, length 1 -> 2, mark current -> late",
                "accepted",
                f"  board 4: {joined}",
                "accepted",
                f"  board 1: {joined}",
            ],
        )

    def test_two_sales(self):
        """Document 02, Paper 4: a join cuts an entry that has its leader's value and another epoch."""
        story = str(ROOT / "examples" / "two-sales.txt")
        self.assertEqual(
            self.ask(["undo", "join 1", "receive 1", "receive 1"], story),
            [
                "taken back: join 1",
                "  board 1: joined 6 -> 1, length 1 -> 2, mark current -> late",
                "accepted",
                "  board 1: joined 1 -> 6, length 2 -> 1, mark late -> current",
                "accepted",
                "  board 1: length 1 -> 2",
                "refused 12: its log is not shorter than its leader's",
            ],
        )

    def test_who_stood_behind(self):
        """Document 02, Paper 6. No member is ranked above board 3, which has the longest log of those heard."""
        said = self.ask(["undo", "install 3"], str(ROOT / "examples" / "who-stood-behind.txt"))
        accepted = said.index("accepted")
        self.assertEqual(said[accepted + 1], "  record 52: behind 2 3 4 5 6")
        # Of the record that is taken back no set is told.
        self.assertEqual(said[0], "taken back: install 2")
        self.assertNotIn("behind", "".join(said[:accepted]))

    def test_listings_that_differ_in_a_set_alone(self):
        """Such a change is told, by a program that has second thoughts about a receipt."""
        other = LISTING.replace(b"\n3 2 0 1\n", b"\n3 2 0 12\n")
        three, four = self.file("three", LISTING.replace(b"4 3 0\n", b"")), self.file("four", other)
        program = self.script("other", f"[ $(wc -c) = 24 ] && cat '{three}' || cat '{four}'")
        story = self.file("story", RECORDS[:24])
        done = run("--ask", story, given=b"add 2\n", program=program)
        self.assertEqual(done.stdout.decode().splitlines()[1:], ["accepted", "  record 3: behind 1 -> 1 2"])

    def test_undo(self):
        said = self.ask(["undo", "open 1", "add 2", "undo", "add 2", "undo", "undo", "show"])
        self.assertEqual(said[0], "there is no step to take back")
        self.assertEqual(said.count("  registry: epoch 2 -> 1, members 1 2 -> 1, status waiting -> normal"), 2)
        self.assertEqual(said[-2:], ["taken back: open 1", "unopened: no step so far"])

    def test_no_opening_first(self):
        said = self.ask(["add 2", "open 9", "open 1", "open 1"])
        self.assertEqual(said[0], "refused 2: no opening first: record 1 is 'add 2'")
        self.assertIn("board '9' is not a number from 1 to 8", said[1])
        self.assertEqual(said[2], "accepted")
        self.assertEqual(said[4], "refused 1: an opening stands first and nowhere else")

    def test_a_full_sheet(self):
        path = self.file("long", RECORDS + RECORDS[24:] * 4091)
        self.assertEqual(self.ask(["add 3"], path), ["refused 2: 4,096 records are more than 4,095"])

    def test_show_and_save(self):
        path = self.folder / "a story"
        said = self.ask(["open 1", "append 1 41", "receipt 1", "add 2", f"save {path}", "show"])
        shown = run("--words", "-", given=RECORDS).stdout.decode().splitlines()
        self.assertEqual(said[-len(shown) :], shown)
        self.assertIn(f"4 steps saved as {path}", said)
        self.assertEqual(path.read_bytes(), WORDS)
        self.listed(run(path))

    def test_saving_spares_files_of_others(self):
        theirs, ours = self.file("theirs", b"# A story.\n" + WORDS), self.folder / "ours"
        lines = [f"save {ours}", "undo", f"save {ours}", f"save {theirs}", "save", f"save {self.folder}/no/where"]
        said = self.ask([*lines, "save \0"], theirs)
        self.assertEqual(theirs.read_bytes(), b"# A story.\n" + WORDS)
        self.assertEqual(ours.read_bytes(), WORDS.replace(b"add 2\n", b""))
        self.assertIn(f"{theirs} is there already: choose another name", said)
        self.assertIn("save takes the name of a file", said)
        self.assertIn("is not saved: No such file", said[-2])
        self.assertIn("is not saved: ", said[-1])

    def test_help_quit_and_wrong_lines(self):
        said = self.ask(["help", "", "# nothing", "undo 3", "read the leader", "\xff", "quit", "open 1"])
        for form in sheet.FORMS:
            self.assertTrue(any(line.startswith("  " + " ".join(form)) for line in said), form)
        for command in ["show", "plan", "undo", "save FILE", "help", "quit"]:
            self.assertTrue(any(line.startswith("  " + command) for line in said), command)
        self.assertEqual(said[-3], "undo stands alone on its line")
        self.assertIn("did you mean 'read leader'? (help has every step)", said[-2])
        self.assertIn("unknown step", said[-1])

    def test_a_sheet_to_begin_with(self):
        story = self.file("story", b"\n" + WORDS)
        said = self.ask(["add 2", "show"], story)
        self.assertEqual(said[0], "refused 5: the board is a member already")
        self.assertEqual(said[5].split(), ["4", "5", "add", "2", "accepted"])
        self.assertEqual(said[6].split()[:5], ["5", "add", "2", "refused", "5:"])
        done = run("--ask", self.file("late", WORDS[7:]), given=b"open 1\n")
        self.assertEqual(done.stdout, b"refused 2: no opening first: line 1 is 'append 1 41'\n")
        self.assertEqual(done.returncode, REFUSED)

    def test_a_prompt_at_a_terminal(self):
        leader, follower = pty.openpty()
        os.write(leader, b"open 1\nadd 2\n\x04")
        done = run("--ask", stdin=follower, given=None)
        os.close(follower)
        os.close(leader)
        self.assertEqual((done.returncode, done.stderr.replace("row> ", "")), (LISTED, ""))
        said = done.stdout + done.stderr.encode()
        self.assertEqual((said.count(b"row> "), said.count(b"accepted")), (3, 2))


# Proves what is not stamped, one crate after the other, as slowly as is needed to be seen.
PROVER = """
name=$(basename "$PWD")
echo "$* $name" >>../../called
prove() {
    sleep 1.5
    echo "fn $1::claim: proved"
    [ ! -f ../../refuse ] || echo "fn $1::other: not proved"
    echo "statements core: modules loaded=754 checked=0"
    echo "crate $1: modules loaded=0 checked=54"
    if [ -f ../../refuse ]; then
        echo "logic=not-proved"
        echo "rattle build: nothing was built, since only a proved crate is built"
        return 1
    fi
    echo "logic=proved functions=1"
}
{
    if [ ! -f ../rules/out/rlib/stamp ]; then
        mkdir -p ../rules/out/rlib
        if ! prove rules; then
            echo "rt: the library rules did not build, so nothing above it was checked"
            exit 1
        fi
        touch ../rules/out/rlib/stamp
    fi
    if [ -f out/$name.stamp ]; then
        echo "rt: nothing has changed since the last proved build, by out/$name.stamp, so nothing is checked now"
    else
        mkdir -p out
        prove $name || exit 1
        cp "$PROVED/$name" out
        touch out/$name.stamp
    fi
    echo "rt: running out/$name; to give it other input, run that file yourself"
} >&2
out/$name
"""


class Building(InFolder):
    """The first run, in a copy of the tools beside a prover that only takes its time."""

    def setUp(self):
        super().setUp()
        self.root = self.folder / "a row"
        shutil.copytree(TOOL.parent, self.root / "tools")
        shutil.copytree(ROOT / "examples", self.root / "examples")
        programs = {"runsheet": PROGRAM, "seedsheet": MAKER, "explainsheet": EXPLAINER}
        programs |= {"savesheet": SAVER, "showimage": SHOWER, "resumesheet": TAKER}
        programs |= {"plansheet": PLANNER, "planimage": IMAGE_PLANNER}
        crates = "".join(f"{name}: rules io libc\n" for name in programs) + "other: rules\nrules:\n"
        self.file("a row/crates.txt", b"# NAME: DEPENDENCIES\n" + crates.encode())
        self.file("a row/crates/rules/src/lib.rt", b"// The rules of a row. And more.\n")
        for name in programs:
            self.file(f"a row/crates/{name}/src/main.rt", b"use std::io;\n")
        self.script("bin/rt", PROVER)
        proved = self.folder / "proved"
        proved.mkdir()
        for name, program in programs.items():
            (proved / name).symlink_to(program)
        self.env = {name: value for name, value in os.environ.items() if name.lower() not in programs}
        self.env |= {"PATH": f"{self.folder}/bin:{self.env['PATH']}", "PROVED": str(proved)}

    def run_copy(self, *words, **more):
        return run(*words, tool=self.root / "tools" / "run-sheet", **({"env": self.env} | more))

    def called(self):
        return (self.root / "called").read_text().splitlines() if (self.root / "called").exists() else []

    def test_the_first_run_and_the_next(self):
        done = self.run_copy()
        self.assertEqual((done.stdout, done.returncode), (LISTING, LISTED))
        told = "run-sheet: proving and building the program; about four minutes the first time\n"
        self.assertEqual(done.stderr, told)
        log = (self.root / "target" / "log" / "run-sheet.log").read_text()
        self.assertIn("fn rules::claim: proved\n", log)
        self.listed(self.run_copy())
        self.assertEqual(self.called(), ["run runsheet"] * 2)
        # A crate that has changed since is proved without those words.
        (self.root / "crates/runsheet/out/runsheet.stamp").unlink()
        done = self.run_copy()
        self.assertEqual((done.stdout, done.stderr), (LISTING, "run-sheet: proving and building the program\n"))

    def test_a_seed_needs_both_programs(self):
        """The environment may name either."""
        seed = ["--seed", "0", "5"]
        self.run_copy()
        done = self.run_copy(*seed)
        told = "run-sheet: proving and building the programs\n"
        self.assertEqual((done.stdout, done.stderr), (SEED_0_LISTING, told))
        for named in [{}, {"RUNSHEET": PROGRAM}, {"SEEDSHEET": MAKER}, {"RUNSHEET": PROGRAM, "SEEDSHEET": MAKER}]:
            self.listed(self.run_copy(*seed, env=self.env | named), SEED_0_LISTING)
        both = ["run runsheet", "run seedsheet"]
        self.assertEqual(self.called(), ["run runsheet", *both, *both, "run seedsheet", "run runsheet"])

    def test_words_need_the_program_that_has_them(self):
        self.listed(self.run_copy("--explain", env=self.env | {"EXPLAINSHEET": EXPLAINER}), LINES)
        self.assertEqual(self.called(), [])
        done = self.run_copy("--explain")
        told = "run-sheet: proving and building the program; about four minutes the first time\n"
        self.assertEqual((done.stdout, done.stderr), (LINES, told))
        self.listed(self.run_copy("--explain"), LINES)
        done = self.run_copy("--explain", "--seed", "0", "5")
        self.assertEqual((done.stdout, done.stderr), (SEED_0_LINES, "run-sheet: proving and building the programs\n"))
        words = run("--words").stdout
        done = self.run_copy("--words")
        self.assertEqual((done.stdout, done.stderr), (words, "run-sheet: proving and building the programs\n"))
        self.listed(self.run_copy("--words", env=self.env | {"RUNSHEET": PROGRAM}), words)
        done = self.run_copy("--ask", given=b"open 1\n", env=self.env | {"EXPLAINSHEET": EXPLAINER})
        self.assertIn(b"\naccepted\n", done.stdout)
        self.assertEqual(
            self.called(),
            [
                "run explainsheet",
                "run explainsheet",
                *["run explainsheet", "run seedsheet"],
                *["run runsheet", "run explainsheet"],
                "run explainsheet",
                "run runsheet",
            ],
        )

    def test_images_need_their_programs(self):
        image, story = self.folder / "image", self.file("steps", WORDS[-6:])
        self.run_copy("--save", image)
        self.assertEqual(image.read_bytes(), IMAGE)
        self.run_copy("--show", image)
        self.run_copy("--resume", image, story)
        self.run_copy("--explain", "--save", image, "--seed", "0", "5")
        self.run_copy("--show", image, env=self.env | {"SHOWIMAGE": SHOWER})
        self.assertEqual(
            self.called(),
            [
                *["run runsheet", "run savesheet"],
                "run showimage",
                *["run resumesheet", "run showimage"],
                *["run explainsheet", "run savesheet", "run seedsheet"],
            ],
        )

    def test_plans_need_their_programs(self):
        plan = run("--plan").stdout
        done = self.run_copy("--plan")
        told = "run-sheet: proving and building the program; about four minutes the first time\n"
        self.assertEqual((done.stdout, done.stderr), (plan, told))
        done = self.run_copy("--plan", "--show", self.file("image", IMAGE))
        self.assertEqual(done.stdout, plan)
        # The prompt builds it once it is asked for a plan.
        self.run_copy("--ask", given=b"open 1\n")
        done = self.run_copy("--ask", given=b"open 1\nplan\n")
        self.assertEqual(done.stdout.decode().splitlines()[-1], "normal: no step is needed")
        (self.root / "refuse").touch()
        (self.root / "crates/plansheet/out/plansheet.stamp").unlink()
        done = self.run_copy("--ask", given=b"open 1\nplan\nadd 2\n")
        self.assertIn(b"\nthe program is not proved; ", done.stdout)
        self.assertEqual(done.returncode, LISTED)
        prompt = ["run runsheet", "run explainsheet"]
        expected = ["run plansheet", "run planimage", *prompt, *prompt, "run plansheet", *prompt, "run plansheet"]
        self.assertEqual(self.called(), expected)

    def test_one_line_of_progress_at_a_terminal(self):
        leader, follower = pty.openpty()
        done = self.run_copy(stderr=follower)
        self.assertEqual((done.stdout, done.returncode), (LISTING, LISTED))
        os.close(follower)
        shown = b""
        try:
            while part := os.read(leader, 65536):
                shown += part
        except OSError:
            # The other end is closed, and all was read.
            pass
        os.close(leader)
        first, *lines, last = shown.decode().replace("\r\n", "\n").split("\r\033[K")
        self.assertEqual(first, "run-sheet: proving and building the program; about four minutes the first time\n")
        self.assertRegex(lines[0], r"^ +\d s  crate 1 of 2: rules, The rules of a row$")
        self.assertRegex(lines[-1], r"^ +\d s  crate 2 of 2: runsheet$")
        self.assertEqual(last, "")
        self.assertNotIn("\n", "".join(lines))

    def test_nothing_is_proved_for_a_sheet_that_is_none(self):
        self.not_run(self.run_copy(self.folder / "none"))
        self.not_run(self.run_copy(self.folder))
        self.not_run(self.run_copy("-", given=b"opne 1\n"))
        self.not_run(self.run_copy("--list"))
        self.not_run(self.run_copy("--seed", "0", "5", self.folder / "none"))
        self.not_run(self.run_copy("--show", self.folder / "none"))
        self.not_run(self.run_copy("--plan", self.folder / "none"))
        self.not_run(self.run_copy("--plan", "--show", self.folder / "none"))
        self.not_run(self.run_copy("--resume", self.folder / "none", "-"))
        self.not_run(self.run_copy("--resume", self.file("image", IMAGE), "-", given=b"opne 1\n"))
        self.not_run(self.run_copy("--save", self.file("story", WORDS)))
        self.assertEqual(self.called(), [])

    def failed(self, done, *said):
        self.assertEqual((done.stdout, done.returncode), (b"", FAILED))
        for words in said:
            self.assertIn(words, done.stderr)
        self.assertNotIn("Traceback", done.stderr)

    def test_a_program_that_is_not_proved(self):
        self.file("a row/refuse", b"")
        done = self.run_copy()
        said = ["fn rules::other: not proved", "rt: the library rules did not build, so nothing above it was checked"]
        self.failed(done, "the program is not proved; target/log/run-sheet.log ends with", *said)
        self.assertNotIn("claim: proved", done.stderr)

    def test_no_prover(self):
        # A PATH with the interpreter alone.
        (self.folder / "bin" / "rt").unlink()
        (self.folder / "bin" / "python3").symlink_to(sys.executable)
        env = self.env | {"PATH": f"{self.folder}/bin"}
        self.failed(self.run_copy(env=env), "rt, the toolchain, is not on the PATH")

    def test_programs_that_fail(self):
        name = self.folder / "none"
        self.failed(run(program=name), f"{name} does not run: No such file")
        self.failed(run(program=self.script("ends", "exit 7")), "ended with status 7")
        self.failed(run("--words", program=self.script("other", "echo hello")), "printed is no listing")

    def test_lines_of_records_that_are_none(self):
        """The boards behind a record stand in the lines of accepted steps 2, 13 and 15, and in no other."""
        lines = LISTING.decode()
        for line, wrong in [
            ("3 2 0 1", "3 2 0"),
            ("3 2 0 1", "3 2 0 1 1"),
            ("3 2 0 1", "3 2 14 1"),
            ("2 1 0", "2 1 0 1"),
            ("2 1 0", "2 1"),
            ("2 1 0", "2 13 0"),
            ("2 1 0", "2 15 0"),
        ]:
            given = self.file("text", lines.replace(f"\n{line}\n", f"\n{wrong}\n").encode())
            self.assertNotEqual(given.read_bytes(), LISTING)
            for words in [["--words"], ["--ask", self.file("story", WORDS)]]:
                self.failed(run(*words, program=self.script("other", f"cat '{given}'")), "printed is no listing")


if __name__ == "__main__":
    unittest.main()
