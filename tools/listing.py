"""A listing taken apart, shown with its columns named, and compared with another."""

import re
from itertools import takewhile
from typing import NamedTuple

VIEW = ["epoch", "leader epoch", "leader", "members"]
REGISTRY = [*VIEW, "status"]
CONTROL = [*VIEW, "stage"]
BOARD = ["board", *VIEW, "joined", "length", "mark"]
# Columns of sets.
SETS = ["members", "behind"]
# The steps that ask for a majority. The line of one that is accepted has the boards behind it.
MAJORITIES = ["2", "13", "15"]
# The whole listing of a sheet with no records, and what people see of it.
UNOPENED = "unopened\n"
UNOPENED_IN_WORDS = "unopened: no step so far\n"


class Listing(NamedTuple):
    """The answers, as numbers and as told, for each record the boards behind it or nothing, and the other lines as
    fields by name; a receipt as value@epoch."""

    answers: list
    told: list
    behind: list
    registry: dict
    control: dict
    boards: list
    receipts: list


def apart(boards):
    """A set of boards, its digits apart from each other."""
    return " ".join(boards)


def fields(columns, values):
    """The fields of a line by name."""
    named = dict(zip(columns, values, strict=True))
    return named | {"members": apart(named["members"])}


def answered(line):
    """The answer of a record, and the boards behind it, if its line has them."""
    _, step, answer, *behind = line
    if len(behind) != (answer == "0" and step in MAJORITIES):
        raise ValueError(" ".join(line))
    return int(answer), apart("".join(behind))


def parse(text):
    """The listing that the program printed. Its answers are not told yet."""
    lines = [line.split(" ") for line in text.split("\n")[:-1]]
    records = [answered(line) for line in takewhile(lambda line: line[0] != "registry", lines)]
    registry, control, *boards, receipts = lines[len(records) :]
    return Listing(
        [answer for answer, _ in records],
        [],
        [behind for _, behind in records],
        fields(REGISTRY, registry[1:]),
        fields(CONTROL, control[1:]),
        [fields(BOARD, board[1:]) for board in boards],
        receipts[2:],
    )


def tell_answer(answer, line):
    """`accepted`, or the number of the refusal and the reason that the line in words has."""
    said = re.fullmatch(r"[^:]*: (?:accepted|refused, (.+))", line)
    if not said or (said[1] is None) != (answer == 0):
        raise ValueError(f"'{line}' with answer {answer}")
    return "accepted" if answer == 0 else f"refused {answer}: {said[1]}"


def tell(listing, text):
    """The listing with its answers told, by the lines in words of the same sheet."""
    lines = text.split("\n")[:-1]
    return listing._replace(told=[tell_answer(*pair) for pair in zip(listing.answers, lines, strict=True)])


def number(listing):
    """The listing with its answers told by their numbers alone."""
    told = [f"refused {answer}" if answer else "accepted" for answer in listing.answers]
    return listing._replace(told=told)


def table(rows):
    """Rows of equal columns under their names: numbers to the right, words and sets to the left."""
    columns = list(zip(*rows))
    widths = [max(map(len, column)) for column in columns]
    right = [name not in SETS and "".join(cells).isdigit() for name, *cells in columns]
    for row in rows:
        cells = zip(row, widths, right)
        yield "  ".join(cell.rjust(width) if far else cell.ljust(width) for cell, width, far in cells).rstrip()


def records(steps, listing):
    """The rows of the records, under the names of their columns."""
    rows = [["record", "line", "step", "behind", "answer"]]
    for n, (step, behind, told) in enumerate(zip(steps, listing.behind, listing.told, strict=True), 1):
        rows.append([str(n), str(step.line or ""), step.words, behind, told])
    # Records have no lines, nor has what is typed; and it may be that no majority was asked for.
    columns = [column for column in zip(*rows) if any(column[1:])]
    return list(zip(*columns))


def in_words(steps, listing):
    """The listing for people."""
    views = [["", *VIEW, "status or stage"]]
    views.append(["registry", *listing.registry.values()])
    views.append(["controller", *listing.control.values()])
    boards = [BOARD, *(list(board.values()) for board in listing.boards)]
    receipts = f"receipts: {len(listing.receipts)}"
    if listing.receipts:
        receipts += ", as value@epoch: " + " ".join(listing.receipts)
    parts = [*table(records(steps, listing)), ""] if steps else []
    parts += [*table(views), "", *table(boards), "", receipts]
    return "".join(part + "\n" for part in parts)


def moved(before, after):
    """The fields that differ, each with its old and its new value."""
    return ", ".join(f"{name} {before[name]} -> {after[name]}" for name in after if before[name] != after[name])


def moved_behind(before, after):
    """The records with other boards behind them than before, a line each; a new record had none."""
    lines = []
    then = before.behind + [""] * len(after.behind)
    for n, (old, new) in enumerate(zip(then, after.behind), 1):
        if old != new:
            lines.append(f"record {n}: behind " + (f"{old} -> " if old else "") + (new or "none"))
    return lines


def changes(before, after):
    """What differs between two listings, a line each, but for the answers. None before an opening."""
    if before is None:
        return ["registry: " + ", ".join(f"{name} {value}" for name, value in after.registry.items())]
    lines = moved_behind(before, after)
    for name, old, new in [
        ("registry", before.registry, after.registry),
        ("controller", before.control, after.control),
    ]:
        if old != new:
            lines.append(f"{name}: {moved(old, new)}")
    # Boards with the same change share a line.
    alike = {}
    for old, new in zip(before.boards, after.boards):
        if old != new:
            alike.setdefault(moved(old, new), []).append(new["board"])
    for change, boards in alike.items():
        lines.append(f"board{'s' * (len(boards) > 1)} {' '.join(boards)}: {change}")
    old, new = before.receipts, after.receipts
    if old != new:
        lines.append(f"receipts: {len(old)} -> {len(new)}" + "".join(f", {receipt}" for receipt in new[len(old) :]))
    return lines
