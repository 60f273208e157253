"""Images of rows: their files, what is wrong with one, and what is asked and answered where a row is taken up."""

from pathlib import Path

import listing
import sheet

HEAD = 258
RECORD = 8
RECORDS_MAX = 4608
BYTES_MAX = HEAD + RECORD * RECORDS_MAX
# The places in the head that hold 0.
ZEROS = [7, 15]
# What refusals 18 and 19 say of an image.
WRONG = {
    18: "it has a number outside its range, a zero byte that is not 0, or a row that refusal 1 would turn away",
    19: "it has a chain that passes its last record or 512 entries, or a record that is met twice or not at all",
}


def may_be(data):
    """Whether bytes may be an image, by their length and their zeros: no text may, nor whole records."""
    length = HEAD <= len(data) <= BYTES_MAX and (len(data) - HEAD) % RECORD == 0
    return length and not any(data[place] for place in ZEROS)


def why_refused(refusal, image):
    """Why an image is refused with 17, 18 or 19."""
    if refusal in WRONG:
        return WRONG[refusal]
    length = f"{len(image):,} bytes" if len(image) <= BYTES_MAX else f"more than {BYTES_MAX:,} bytes"
    return f"it has {length}, and an image {HEAD} and {RECORD} for each of 0 to {RECORDS_MAX:,} records"


def is_other(name):
    """Whether a file of this name is there that is no image, nor empty: it is not written over."""
    path = Path(name)
    try:
        if not path.is_file():
            return False
        with path.open("rb") as file:
            before = file.read(BYTES_MAX + 1)
    except OSError:
        # Who may not read it hears of it where it is written.
        return False
    return before != b"" and not may_be(before)


# A row that is taken up


def question(image, steps):
    """What the program is given: the image with its length before it, then the records."""
    return len(image).to_bytes(4, "little") + image + sheet.join(steps)


def record_line(n, step, answer, behind):
    """The line of record n of a listing, with the boards behind it."""
    boards = "".join(str(board) for board in range(1, 9) if behind >> (board - 1) & 1)
    if (boards != "") != (answer == 0 and str(step) in listing.MAJORITIES):
        raise ValueError(f"record {n}")
    return " ".join([str(n), str(step), str(answer), *([boards] if boards else [])])


def taken(printed, steps):
    """What the program says: the refusal or 0, a line for each record, and the image of the row after them or nothing.
    Raises a ValueError where it says something else."""
    refusal, told, image = printed[0:1], printed[1 : 1 + 2 * len(steps)], printed[1 + 2 * len(steps) :]
    if refusal != b"\0":
        if len(printed) != 1:
            raise ValueError
        return refusal[0], [], b""
    if len(told) != 2 * len(steps) or (image and not may_be(image)):
        raise ValueError
    pairs = zip(steps, told[0::2], told[1::2])
    return 0, [record_line(n, step.record[0], *pair) for n, (step, *pair) in enumerate(pairs, 1)], image
