#!/usr/bin/env python3
"""Sheets in words, to and from their records.

  tools/sheet.py encode < words > sheet
  tools/sheet.py decode < sheet > words

One step a line; a board is 1 to 8, a value 0 to 4294967295. Blank lines, and
what stands after a #, are left out.

  open BOARD              0   opening
  append BOARD VALUE      1   the value joins the board's log
  receipt BOARD           2   receipt by the board
  add BOARD               3   to the members
  remove BOARD            4   from the members
  change leader           5
  news BOARD              6   the board takes news
  join BOARD              7   the board follows its leader's log
  receive BOARD           8   the leader's next entry
  count BOARD BOARD       9   the first, a leader, counts the second
  controller news         10  the controller takes news
  read leader             11  the controller reads its leader
  read BOARD              12  the controller reads the board
  set normal              13
  hear BOARD              14  the controller hears the board
  install BOARD           15  as the leader

  raw BYTE ... BYTE           a record as its eight bytes, 0 to 255

Raw is for records that have no words: a field outside its values, an unused
byte that is not 0. The last line of a sheet of wrong length is raw with fewer
than eight bytes. A text without a step is the empty sheet. What each step asks and
does: docs/FORMATS.md.

Exit status: 0; 1 the words are no sheet; 2 bad usage; 3 reading or writing failed.
"""

import difflib
import os
import re
import sys
from typing import NamedTuple, Optional

# The words of steps 0 to 15. A name in capitals is a field.
FORMS = [
    ["open", "BOARD"],
    ["append", "BOARD", "VALUE"],
    ["receipt", "BOARD"],
    ["add", "BOARD"],
    ["remove", "BOARD"],
    ["change", "leader"],
    ["news", "BOARD"],
    ["join", "BOARD"],
    ["receive", "BOARD"],
    ["count", "BOARD", "BOARD"],
    ["controller", "news"],
    ["read", "leader"],
    ["read", "BOARD"],
    ["set", "normal"],
    ["hear", "BOARD"],
    ["install", "BOARD"],
]
RECORD = 8
RECORDS_MAX = 4095
# The least and the greatest of a field.
RANGES = {"BOARD": (1, 8), "VALUE": (0, 2**32 - 1), "BYTE": (0, 255)}
NAMES = sorted({word for form in FORMS for word in form if word not in RANGES})
# More errors than these are only counted.
ERRORS_SHOWN = 10
# No sheet is near as long; it keeps an endless file from being read for ever.
BYTES_MAX = 1 << 24


class SheetError(Exception):
    """What is no sheet, with every (line, message); the line is None where it is not about one."""

    def __init__(self, *errors):
        super().__init__("; ".join(message for _, message in errors))
        self.errors = errors


class Step(NamedTuple):
    """A record of a sheet, its line in the file if it has one, and its words."""

    line: Optional[int]
    words: str
    record: bytes


def wrong(message):
    return SheetError((None, message))


# One line


def number(word, field):
    """The number in a word, which must be in the field's range."""
    low, high = RANGES[field]
    digits = word.isascii() and word.isdigit() and len(word) <= len(str(high))
    if not (digits and low <= int(word) <= high):
        raise wrong(f"{field.lower()} '{word}' is not a number from {low} to {high}")
    return int(word)


def encode_exactly(words):
    """The record of a line's words."""
    if words[0] == "raw":
        if not 1 <= len(words) - 1 <= RECORD:
            raise wrong(f"raw takes 8 bytes, not {len(words) - 1}")
        return bytes(number(word, "BYTE") for word in words[1:])
    # `read leader` and `read BOARD` begin alike, so plain words come first.
    if words in FORMS:
        return bytes([FORMS.index(words)]) + bytes(7)
    known = [step for step, form in enumerate(FORMS) if form[0] == words[0]]
    if not known:
        raise wrong(f"unknown step '{words[0]}'")
    step = known[-1]
    form = FORMS[step]
    if len(words) != len(form) or form[1] not in RANGES:
        raise wrong(f"'{' '.join(words)}' is not '{' '.join(form)}'")
    record = bytearray([step]) + bytes(7)
    for place in range(1, len(form)):
        field = number(words[place], form[place])
        if form[place] == "VALUE":
            record[4:] = field.to_bytes(4, "little")
        else:
            record[place] = field
    if form[0] == "count" and record[1] == record[2]:
        raise wrong("a leader does not count itself")
    return bytes(record)


def meant(words):
    """What a line that is no step may mean: a step with its numbers and the nearest names, or None."""
    tokens = [word.strip(".,;:!?()'\"").lower() for word in words]
    numbers = [token for token in tokens if token.isdigit()]
    near = [difflib.get_close_matches(token, NAMES, 1, 0.7) for token in tokens]
    names = {name for found in near for name in found}
    for form in FORMS:
        fields = [word for word in form if word in RANGES]
        if len(fields) == len(numbers) and names.issuperset(set(form) - set(fields)):
            given = iter(numbers)
            guess = [next(given) if word in RANGES else word for word in form]
            try:
                encode_exactly(guess)
                return " ".join(guess)
            except SheetError:
                pass
    return None


def encode_line(words):
    """The record of a line's words; the error says what may have been meant."""
    try:
        return encode_exactly(words)
    except SheetError as error:
        guess = None if words[0] == "raw" else meant(words)
        if guess is None and words[0] not in NAMES + ["raw"]:
            first = difflib.get_close_matches(words[0].lower(), [form[0] for form in FORMS], 1, 0.7)
            guess = next((" ".join(form) for form in FORMS if form[0] in first), None)
        if guess is None:
            raise
        raise wrong(f"{error}; did you mean '{guess}'?") from None


def decode_record(record):
    """The line of a record."""
    if len(record) == RECORD and record[0] < len(FORMS):
        value = int.from_bytes(record[4:], "little")
        words = list(FORMS[record[0]])
        for place, word in enumerate(words):
            if word in RANGES:
                words[place] = str(value if word == "VALUE" else record[place])
        # Words say nothing of unused bytes, so they must give the record again.
        try:
            if encode_exactly(words) == record:
                return " ".join(words)
        except SheetError:
            pass
    return " ".join(["raw", *map(str, record)])


# Whole sheets


def line_words(line):
    return line.split("#")[0].split()


def parse(text):
    """The steps of a text. Every line that is no step is an error."""
    steps, errors = [], []
    short = False
    for line, content in enumerate(re.split(r"\r\n|\r|\n", text), 1):
        words = line_words(content)
        if not words:
            continue
        try:
            if short:
                raise wrong("only the last raw line may have fewer than 8 bytes")
            step = Step(line, " ".join(words), encode_line(words))
            short = len(step.record) != RECORD
            steps.append(step)
        except SheetError as error:
            errors.append((line, str(error)))
    if errors:
        raise SheetError(*errors)
    return steps


def cut(records):
    """The steps of records."""
    parts = [records[n : n + RECORD] for n in range(0, len(records), RECORD)]
    return [Step(None, decode_record(part), part) for part in parts]


def join(steps):
    """The records of steps."""
    return b"".join(step.record for step in steps)


def encode(text):
    """The records of a text."""
    return join(parse(text))


def decode(records):
    """The text of records."""
    return "".join(step.words + "\n" for step in cut(records))


def is_utf16(data):
    """A byte order mark of UTF-16, or two characters of it that are plain ones."""
    plain = rb"[\t\r\n -~]"
    mark = rb"\xff\xfe|\xfe\xff"
    return re.match(mark + rb"|(?:%b\0){2}|(?:\0%b){2}" % (plain, plain), data) is not None


def text_of(data):
    """The text that data hold, or None if they are records: no record of a step is text, by its byte 3."""
    if is_utf16(data):
        raise wrong("this is UTF-16: save the text as UTF-8")
    data = data.removeprefix(b"\xef\xbb\xbf")
    binary = re.search(rb"[\x00-\x08\x0e-\x1f\x7f]", data)
    if binary and data[0] < len(FORMS):
        return None
    if binary:
        said = f"byte {binary.start() + 1} is {data[binary.start()]}, which is no text"
        raise wrong(f"binary data, neither words nor records: {said}, and records begin with a step, 0 to 15")
    try:
        return data.decode()
    except UnicodeDecodeError as error:
        line = len(re.split(rb"\r\n|\r|\n", data[: error.start]))
        raise SheetError((line, f"byte {data[error.start]} is not UTF-8: save the text as UTF-8")) from None


def load(data):
    """The steps of a sheet in words or in records."""
    text = text_of(data)
    return cut(data) if text is None else parse(text)


def messages(error, name=""):
    """The lines that say what is wrong with a sheet of this name."""
    lines = []
    for line, message in error.errors[:ERRORS_SHOWN]:
        place = ", ".join(part for part in [name, line and f"line {line}"] if part)
        lines.append(f"{place}: {message}" if place else message)
    more = len(error.errors) - ERRORS_SHOWN
    if more > 0:
        lines.append(f"and {more} more lines that are no steps")
    return lines


# Reading and writing


def read_up_to(descriptor, most):
    """The bytes of an open file, no more than so many."""
    with open(descriptor, "rb", closefd=False) as file:
        return file.read(most)


def read_all(descriptor):
    """All bytes of an open file."""
    data = read_up_to(descriptor, BYTES_MAX + 1)
    if len(data) > BYTES_MAX:
        raise wrong(f"it has more than {BYTES_MAX} bytes, which no sheet has")
    return data


def put(data):
    """Writes to standard output, all of it or an OSError: nothing is left for the interpreter's end."""
    while data:
        data = data[os.write(1, data) :]


def main():
    words = sys.argv[1:]
    if words in (["-h"], ["--help"]):
        put((__doc__.strip() + "\n").encode())
    elif words == ["encode"]:
        text = text_of(read_all(0))
        if text is None:
            raise wrong("these are records already")
        put(encode(text))
    elif words == ["decode"]:
        put(decode(read_all(0)).encode())
    else:
        print(__doc__.strip(), file=sys.stderr)
        sys.exit(2)


if __name__ == "__main__":
    try:
        main()
    except SheetError as failure:
        for said in messages(failure):
            print(f"sheet.py: {said}", file=sys.stderr)
        print("sheet.py: --help has every step in words", file=sys.stderr)
        sys.exit(1)
    except OSError as failure:
        print(f"sheet.py: {failure.strerror}", file=sys.stderr)
        sys.exit(3)
