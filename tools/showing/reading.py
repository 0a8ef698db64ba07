"""What a file holds: a run and what the program says of it, or a log and what the judge says of it."""
import importlib.machinery
import importlib.util
import pathlib
import re
import subprocess
from typing import NamedTuple

TOOLS = pathlib.Path(__file__).resolve().parent.parent
HEAD = 5
ENTRY = 12
MOST_ENTRIES = 256
NO_MOMENT = 65535
PUSH, POP, TAKE = 1, 2, 3
NIL, DONE, FULL, LOST = 0, 1, 2, 3


class Trouble(Exception):
    """Why no page can be made."""


class Refused(Exception):
    """The program's own line on a file that it refuses."""


class Entry(NamedTuple):
    """An entry of a log, in the order of its bytes, and its place from 0."""
    process: int
    queue: int
    kind: int
    result: int
    node: int
    start: int
    end: int
    moment: int
    place: int

    def did(self, kind, *results):
        return self.kind == kind and self.result in results

    def bears(self):
        """Document 01 has a moment for this call."""
        return self.result == DONE or self.did(POP, NIL)


class Run(NamedTuple):
    """A run file's contents: of each process its calls, as (code, argument)."""
    width: int
    slots: int
    scripts: list
    schedule: bytes


class Story(NamedTuple):
    """All that the page tells. `run` is None where there is a log alone; `gone` is then unknown."""
    processes: int
    slots: int
    entries: list
    number: int
    fault: int
    run: Run
    steps: int
    gone: int


def runfile_tool():
    """The tool that turns texts into run files reads their bytes too."""
    loader = importlib.machinery.SourceFileLoader("runfile", str(TOOLS / "runfile"))
    module = importlib.util.module_from_spec(importlib.util.spec_from_loader("runfile", loader))
    loader.exec_module(module)
    return module


def two(data, at):
    return int.from_bytes(data[at:at + 2], "big")


# ---- which it is

def fits_log(data):
    """The length is the one that the head says."""
    return len(data) >= HEAD and two(data, 3) <= MOST_ENTRIES and len(data) == HEAD + ENTRY * two(data, 3)


def fits_run(data):
    runfile = runfile_tool()
    try:
        runfile.text_of(data)
    except runfile.Wrong:
        return False
    return True


def which(data):
    """("run" or "log", whether the other fits too). A run file's fourth byte is P, 1 to 8; a log's is the higher byte of the number of its
    entries: 1 for 256 of them, else 0."""
    if len(data) >= 4 and data[3] == 0:
        return "log", False
    if not fits_log(data):
        return "run", False
    return ("run", True) if fits_run(data) else ("log", False)


# ---- the programs

def answer(command, data):
    done = subprocess.run(command, input=data, capture_output=True)
    if done.returncode or not done.stdout:
        raise Trouble(f"the program could not do its work: {done.stderr.decode().strip()}")
    return done.stdout.decode().splitlines()


def judged(program, log):
    """The judge's number and entry."""
    line = answer([*program, "judge"], log)[-1]
    match = re.fullmatch(r"judge ([0-9]+) entry ([0-9]+)", line)
    if not match:
        raise Trouble(f"the judge's answer is not understood: {line}")
    return int(match[1]), int(match[2])


def contents(data):
    """The contents of a run file that the bench has taken."""
    read = runfile_tool().Bytes(data)
    width, slots = read.sizes()
    lengths = read.lengths()
    words = iter(read.calls(lengths))
    scripts = [[call(next(words)) for _ in range(n)] for n in lengths]
    return Run(width, slots, scripts, read.steps(len(lengths)))


def call(words):
    kind, _, number = words.partition(" ")
    return {"push": PUSH, "pop": POP, "take": TAKE}[kind], int(number or 0)


def log_bytes(processes, slots, entries):
    parts = [bytes([2, processes, slots]), len(entries).to_bytes(2, "big")]
    for e in entries:
        parts += [bytes(e[:4]), *(n.to_bytes(2, "big") for n in e[4:8])]
    return b"".join(parts)


def run_story(program, data):
    *lines, last = answer(program, data)
    if last.startswith("refused "):
        raise Refused(last)
    match = re.fullmatch(r"entries ([0-9]+) steps ([0-9]+) gone-round ([0-9]+) judge ([0-9]+)", last)
    if not match or int(match[1]) != len(lines):
        raise Trouble(f"the program's answer is not understood: {last}")
    run = contents(data)
    entries = [Entry(*map(int, line.split()), place) for place, line in enumerate(lines)]
    number, fault = judged(program, log_bytes(len(run.scripts), run.slots, entries))
    if number != int(match[4]):
        raise Trouble(f"the program and the judge differ: {last}, and judge {number}")
    return Story(len(run.scripts), run.slots, entries, number, fault, run, int(match[2]), int(match[3]))


def log_story(program, data):
    number, fault = judged(program, data)
    if number in (11, 12, 13):
        raise Refused(f"judge {number} entry {fault}")
    entries = [log_entry(data, place) for place in range(two(data, 3))]
    steps = max((max(e.start, e.end) + 1 for e in entries), default=0)
    return Story(data[1], data[2], entries, number, fault, None, steps, None)


def log_entry(data, place):
    at = HEAD + ENTRY * place
    return Entry(*data[at:at + 4], *(two(data, at + i) for i in (4, 6, 8, 10)), place)
