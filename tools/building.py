"""Proves and builds programs, with one line of progress where somebody looks on."""

import os
import re
import shutil
import subprocess
import sys
import time

TICK = 0.5
# What rt says of what is proved, of the libraries and the kit, and the details of a goal.
PLAIN = re.compile(r"\s|$|fn .*: proved$|(logic|statements|library|crate|axioms) |only=|rt: (chose|\w+: begins with) ")


class BuildError(Exception):
    """A program is not there."""


def order(root, programs):
    """The crates that the programs need and the programs themselves, in the order in which rt proves them."""
    needs = {}
    for line in (root / "crates.txt").read_text().splitlines():
        name, colon, others = line.split("#")[0].partition(":")
        if colon:
            needs[name.split()[0]] = others.split()
    found = []

    def visit(name):
        if name not in found:
            for other in needs.get(name, []):
                if other in needs:
                    visit(other)
            found.append(name)

    for name in programs:
        visit(name)
    return found


def purpose(root, crate):
    """What a crate is about: the head comment of its first file, up to the first stop."""
    for name in ["lib.rt", "main.rt"]:
        path = root / "crates" / crate / "src" / name
        if path.exists():
            head = path.read_text().partition("\n")[0]
            if head.startswith("//"):
                return head.lstrip("/ ").partition(". ")[0].rstrip(".")
    return ""


class Progress:
    """What standard error shows while crates are proved: nothing before there is one to prove."""

    def __init__(self, root, programs):
        self.root = root
        self.what = "the program" if len(programs) == 1 else "the programs"
        self.first = not any(path(root, name).exists() for name in programs)
        self.stamps = {crate: stamp(root, crate, programs) for crate in order(root, programs)}
        self.began = time.monotonic()
        self.shown = False
        self.terminal = sys.stderr.isatty()

    def tell(self):
        """Looks at what rt has proved so far."""
        crates = list(self.stamps)
        # rt takes a crate's stamp away before it proves the crate anew.
        left = [crate for crate in crates if not self.stamps[crate].exists()]
        if not (self.first or left):
            return
        if not self.shown:
            self.shown = True
            time_needed = "; about four minutes the first time" if self.first else ""
            print(f"run-sheet: proving and building {self.what}{time_needed}", file=sys.stderr)
        if self.terminal and left:
            crate, n, seconds = left[0], len(crates), time.monotonic() - self.began
            k = crates.index(crate) + 1
            about = purpose(self.root, crate)
            line = f"{seconds:4.0f} s  crate {k} of {n}: {crate}" + (f", {about}" if about else "")
            # Standard output may be a file. A terminal that does not know its width says 0.
            width = (os.get_terminal_size(sys.stderr.fileno()).columns or 80) - 1
            print(f"\r\033[K{line[:width]}", end="", file=sys.stderr, flush=True)

    def end(self):
        if self.terminal and self.shown:
            print("\r\033[K", end="", file=sys.stderr, flush=True)


def stamp(root, crate, programs):
    """What rt leaves beside a crate that it has proved and built."""
    out = root / "crates" / crate / "out"
    return out / f"{crate}.stamp" if crate in programs else out / "rlib" / "stamp"


def path(root, program):
    """Where a program is put."""
    return root / "target" / "bin" / program


def run(root, program, progress, said):
    """Has rt prove and build a program, and run it on nothing. Returns whether all was proved."""
    folder = root / "crates" / program
    how = {"stdin": subprocess.DEVNULL, "stdout": subprocess.DEVNULL, "stderr": said}
    process = subprocess.Popen(["rt", "run"], cwd=folder, **how)
    try:
        while True:
            try:
                proved = process.wait(TICK) == 0
                break
            except subprocess.TimeoutExpired:
                progress.tell()
    finally:
        if process.poll() is None:
            process.terminate()
    if proved:
        # At once, so that nobody runs a half of it.
        part = path(root, f"{program}.{os.getpid()}")
        part.parent.mkdir(parents=True, exist_ok=True)
        shutil.copy2(folder / "out" / program, part)
        part.replace(path(root, program))
    return proved


def check(root, programs, log):
    """Proves and builds the programs. Returns whether all was proved; what rt says is in the log."""
    progress = Progress(root, programs)
    try:
        with log.open("wb") as said:
            return all(run(root, program, progress, said) for program in programs)
    finally:
        progress.end()


def build(root, programs):
    """The paths of the proved programs of these names."""
    log = root / "target" / "log" / "run-sheet.log"
    try:
        log.parent.mkdir(parents=True, exist_ok=True)
        proved = check(root, programs, log)
    except FileNotFoundError as error:
        if error.filename != "rt":
            raise BuildError(f"{error.filename}: {error.strerror}") from None
        names = " and ".join(name.upper() for name in programs)
        raise BuildError(f"rt, the toolchain, is not on the PATH ({names} may name what was built)") from None
    except OSError as error:
        raise BuildError(f"{error.filename}: {error.strerror}") from None
    if not proved:
        said = [line for line in log.read_text(errors="replace").splitlines() if not PLAIN.match(line)]
        last = "".join(f"\n  {line}" for line in said[-12:])
        raise BuildError(f"the program is not proved; {log.relative_to(root)} ends with{last}")
    return [path(root, name) for name in programs]
