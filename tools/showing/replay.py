"""A run stepped by hand: the sheet of `every_run_replayed` lends the desk one stage after another and notes what it answers. The desk alone makes the
steps; here is only who steps next, and what is lent."""
import subprocess
from typing import NamedTuple

from .reading import DONE, FULL, LOST, NIL, POP, PUSH, TAKE, Entry, Trouble

IDLE = "idle"


class Step(NamedTuple):
    """A step: who, on which queue, the stage lent; and the desk's answer: the word, the slots, and the next stage or the result."""
    process: int
    queue: int
    stage: str
    word: tuple
    slots: tuple
    next: str  # the next stage, or "" where the call has returned
    result: str  # the desk's words for the result, or ""

    def row(self):
        return self.stage.split()[0]

    def resets(self):
        """A successful B6, and each B7."""
        return self.row() == "B7" or self.row() == "B6" and bool(self.result)


class Desk:
    """The desk with one queue: a line is answered before the next is typed."""

    def __init__(self, command, width, slots):
        self.typing = subprocess.Popen(command, stdin=subprocess.PIPE, stdout=subprocess.PIPE)
        self.answer(f"{width} {slots}")

    def answer(self, line):
        """The answer: word, slots, and the words after them."""
        self.typing.stdin.write(line.encode() + b"\n")
        self.typing.stdin.flush()
        words = self.typing.stdout.readline().decode().split()
        if words[:1] != ["word"] or "refused" in words:
            raise Trouble(f"the desk answers {' '.join(words) or 'nothing'!r} to {line!r}")
        end = next((i for i in range(5, len(words)) if not words[i].isdigit()), len(words))
        return tuple(map(int, words[1:4])), tuple(map(int, words[5:end])), words[end:]

    def close(self):
        self.typing.stdin.close()
        self.typing.stdout.close()
        self.typing.wait()


class Sheet:
    """What is noted: of each process the stage that the desk gave it last and the calls of its script that have not returned."""

    def __init__(self, run, desks):
        self.desks = desks
        self.left = [list(script) for script in run.scripts]
        self.stages = [IDLE] * len(run.scripts)

    def lends(self, p):
        """The queue and the stage that process p lends next."""
        code, argument = self.left[p][0] if self.left[p] else (0, 0)
        queue = argument if code == TAKE else p
        if self.stages[p] != IDLE:
            return queue, self.stages[p]
        return queue, {0: IDLE, PUSH: f"P1 {argument}", POP: "B1", TAKE: "T1"}[code]

    def step(self, p):
        queue, stage = self.lends(p)
        word, slots, said = self.desks[queue].answer(stage)
        if said[:1] == ["next"]:
            self.stages[p] = " ".join(said[1:])
            return Step(p, queue, stage, word, slots, self.stages[p], "")
        self.stages[p] = IDLE
        self.left[p].pop(0)
        return Step(p, queue, stage, word, slots, "", " ".join(said))

    def half_done(self):
        """The half-done processes, the lowest first."""
        return [p for p, stage in enumerate(self.stages) if stage != IDLE]


def replayed(command, run):
    """The steps of a run, by the desk's answers: those of the schedule, then those of the closing."""
    desks = []
    try:
        for _ in run.scripts:
            desks.append(Desk(command, run.width, run.slots))
        sheet = Sheet(run, desks)
        steps = [sheet.step(p) for p in run.schedule]
        while half_done := sheet.half_done():
            steps.append(sheet.step(half_done[0]))
        return steps
    except OSError as error:
        raise Trouble(f"the desk broke off: {error.strerror}") from None
    finally:
        for desk in desks:
            desk.close()


# ---- the calls as the replay has them

class Call(NamedTuple):
    """A call that has returned: its entry but for the moment, the steps of its rows, and the resets of its queue since its first step."""
    entry: Entry
    rows: dict
    unseen: list


def result_of(step):
    """The log's result and node. A take that fails at T4 has lost its race, whatever the word for it."""
    name, *node = step.result.split()
    if name in ("done", "node"):
        return DONE, int(node[0]) if node else 0
    if name == "full":
        return FULL, 0
    return (LOST if step.row() == "T4" else NIL), 0


def calls_of(steps):
    """The calls in the order in which they return."""
    begun, resets, calls = {}, [], []
    for number, step in enumerate(steps):
        if step.stage == IDLE:
            continue
        rows = begun.setdefault(step.process, {"node": node_of(step), "resets": len(resets)})
        rows[step.row()] = number
        if step.result:
            calls.append(returned(step, number, begun.pop(step.process), resets, len(calls)))
        if step.resets():
            resets.append((step.queue, number))
    return calls


def node_of(step):
    """The node of the push that this step begins, or 0."""
    return int(step.stage.split()[1]) if step.row() == "P1" else 0


def returned(step, number, rows, resets, place):
    result, node = result_of(step)
    pushed, before = rows.pop("node"), rows.pop("resets")
    kind = {"P": PUSH, "B": POP, "T": TAKE}[step.row()[0]]
    entry = Entry(step.process, step.queue, kind, result, node or pushed, min(rows.values()), number, 0, place)
    return Call(entry, rows, [at for queue, at in resets[before:] if queue == step.queue])


def gone_round(calls):
    """The successful T4 steps whose queue was reset since their T1."""
    return [call for call in calls if call.entry.did(TAKE, DONE) and call.unseen]


def same_call(call, entry):
    """The entry is the call's. An old log has 0 for a lost race."""
    mine = call.entry
    results = {mine.result, NIL} if mine.result == LOST else {mine.result}
    return entry.result in results and entry[:3] == mine[:3] and entry[4:7] == mine[4:7]


def checked(story, steps, calls):
    """The story, where the replay is the program's own run; a take that lost its race then says so, also where the log has 0 for it."""
    same = len(steps) == story.steps and len(calls) == len(story.entries) and len(gone_round(calls)) == story.gone
    if not same or not all(map(same_call, calls, story.entries)):
        raise Trouble("the run replayed at the desk is not the program's: no page is made. Please report this file")
    return story._replace(entries=[e._replace(result=call.entry.result) for e, call in zip(story.entries, calls)])
