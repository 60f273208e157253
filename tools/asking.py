"""A prompt: one types a step and sees its answer and what changed."""

import re
import sys
from pathlib import Path

import listing
import sheet

HELLO = "A step a line; help lists them."
FIRST = " The row begins with an opening, such as: open 1"
HELP = """\
A step in words adds a record and shows its answer. A refused step stays too, as in any sheet.

{steps}
  show                    the listing so far
  plan                    the steps that lead the row to normal
  undo                    takes the last step back
  save FILE               writes the steps to FILE, in words
  help                    this
  quit                    ends, as the end of the input does
"""


def steps_help():
    """The steps in words, as the help of sheet.py has them."""
    return re.search(r"^  open .*?\n(?=\n)", sheet.__doc__, re.M | re.S).group()


def say(*lines):
    sheet.put("".join(line + "\n" for line in lines).encode())


class Session:
    """The steps so far, and the listing that the proved program gives of them, if there are any."""

    def __init__(self, run, planned, steps, now):
        """`run` gives the listing of steps, or None and why they are refused, `planned` the lines of the steps that
        lead their row to normal; `now` is the listing of the first ones."""
        self.run = run
        self.planned = planned
        self.steps = steps
        self.now = now
        self.saved = set()

    def turn(self, steps, said):
        """Goes over to these steps, unless the program refuses them, and says what it is and what changed."""
        before, after = self.now, None
        if steps:
            after, why = self.run(steps)
            if after is None:
                say(why)
                return
        self.steps, self.now = steps, after
        say(said if said else after.told[-1])
        if after:
            changes = listing.changes(before, after)
            if not changes and not said and after.answers[-1] == 0:
                # Counts and heard lengths stand in no line.
                changes = ["nothing that a listing shows has changed"]
            say(*(f"  {line}" for line in changes))

    def step(self, line):
        words = sheet.line_words(line)
        if not words:
            return
        try:
            record = sheet.encode_line(words)
        except sheet.SheetError as error:
            say(f"{error} (help has every step)")
            return
        self.turn([*self.steps, sheet.Step(None, " ".join(words), record)], None)

    def undo(self):
        if self.steps:
            self.turn(self.steps[:-1], f"taken back: {self.steps[-1].words}")
        else:
            say("there is no step to take back")

    def show(self):
        shown = listing.in_words(self.steps, self.now) if self.steps else listing.UNOPENED_IN_WORDS
        say(shown.rstrip("\n"))

    def plan(self):
        say(*(self.planned(self.steps) if self.steps else [listing.UNOPENED_IN_WORDS.strip()]))

    def help(self):
        say(HELP.format(steps=steps_help()).rstrip("\n"))

    def save(self, name):
        if not name:
            say("save takes the name of a file")
            return
        try:
            path = Path(name).expanduser().resolve()
            # A file that this session did not write may hold more than steps.
            with path.open("w" if path in self.saved else "x", encoding="utf-8") as file:
                file.writelines(step.words + "\n" for step in self.steps)
            self.saved.add(path)
            done = f"{len(self.steps)} steps saved as {name}"
        except FileExistsError:
            done = f"{name} is there already: choose another name"
        except (OSError, RuntimeError, ValueError) as error:
            done = f"{name} is not saved: {getattr(error, 'strerror', None) or error}"
        say(done)

    def obey(self, line):
        """One line of input. Returns whether to go on."""
        word, _, rest = line.strip().partition(" ")
        alone = {"undo": self.undo, "show": self.show, "plan": self.plan, "help": self.help, "quit": None}
        if word == "save":
            self.save(rest.strip())
        elif word not in alone:
            self.step(line)
        elif rest:
            say(f"{word} stands alone on its line")
        elif word == "quit":
            return False
        else:
            alone[word]()
        return True


def ask(session):
    """Takes lines until the end of the input."""
    if sys.stdin is None:
        return
    terminal = sys.stdin.isatty()
    if terminal:
        try:
            import readline  # noqa: F401  (the line can then be edited)
        except ImportError:
            pass
    sys.stdin.reconfigure(errors="replace")
    say(HELLO if session.steps else HELLO + FIRST)
    while True:
        try:
            if not session.obey(input("row> " if terminal else "")):
                return
        except EOFError:
            if terminal:
                say("")
            return
        except KeyboardInterrupt:
            # The line is dropped, the steps stay.
            say("")
