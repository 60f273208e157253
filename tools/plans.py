"""Lists of steps that lead a row to normal: what people see of them, and why there is none."""

import sheet

RECORDS_MAX = 2064
NORMAL = "normal: no step is needed"
NONE = "no list of steps leads the row to normal"
# Why the row of a run has no list, and why that of an image has none.
USED_UP = "too few epochs are left for it"
ODD = f"{USED_UP}, or no run gives such a row"


def lines(records):
    """A line for each record of a list, numbered from 1. Raises a ValueError where these are no records of steps."""
    steps = sheet.cut(records)
    if len(steps) > RECORDS_MAX or any(step.words.startswith("raw") for step in steps):
        raise ValueError
    return [f"{n} {step.words}" for n, step in enumerate(steps, 1)] or [NORMAL]
