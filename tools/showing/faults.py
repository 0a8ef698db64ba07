"""The fault in words: the numbers of this log, and what the entry clashes with. The judge has named the rule and the entry; here it is said why."""
from typing import NamedTuple

from .queues import held
from .reading import DONE, FULL, LOST, NIL, NO_MOMENT, POP, PUSH, TAKE
from .words import call_words, capital, listed, many


class Fault(NamedTuple):
    """A sentence, and the places of the entries that the one at fault clashes with."""
    why: str
    clashes: list


def named(e):
    return f"entry {e.place} (process {e.process}, {call_words(e)})"


def nodes_words(nodes):
    if not nodes:
        return "nothing"
    return f"node {nodes[0]}" if len(nodes) == 1 else f"nodes {' '.join(map(str, nodes))} from top to bottom"


def told(e, why, clashes=()):
    """Each sentence begins with the entry at fault."""
    return Fault(f"{capital(named(e))}: {why}.", [d.place for d in clashes])


def fault_of(story):
    """The fault of a story, or None."""
    if story.number == 0:
        return None
    e = story.entries[story.fault]
    return {14: fields, 15: ends, 16: moments, 17: contents, 18: cause, 19: room}[story.number](story, e)


# ---- rule 1

def fields(story, e):
    p = story.processes
    tests = [
        (e.process >= p, f"process {e.process} is not below P, which is {p}"),
        (e.queue >= p, f"queue {e.queue} is not below P, which is {p}"),
        (e.kind not in (PUSH, POP, TAKE), f"kind {e.kind} is none of 1, 2 and 3"),
        (e.result > LOST, f"there is no result {e.result}"),
        (e.kind in (PUSH, POP) and e.process != e.queue,
         f"a push or a bottom pop is on the process's own queue, and this is process {e.process} on queue {e.queue}"),
        (e.result == FULL and e.kind != PUSH, "result 2, FULL, is for a push only"),
        (e.result == NIL and e.kind == PUSH, "result 0, NIL, is for a pop only"),
        (e.result == LOST and e.kind != TAKE, "result 3, a lost race, is for a top pop only"),
        (e.node == 0 and e.result in (DONE, FULL), f"result {e.result} wants a node, and the node is 0"),
        (e.node != 0 and e.result in (NIL, LOST), f"result {e.result} has the node 0, and this one has node {e.node}"),
        (e.start > e.end, f"it starts at step {e.start}, after its end at step {e.end}"),
        (e.end > 32766, f"its end, step {e.end}, is above 32766"),
    ]
    return told(e, "; ".join(why for broken, why in tests if broken) or "the judge takes none of these fields for one of a call")


# ---- rule 2

def ends(story, e):
    earlier = story.entries[:e.place]
    late = [d for d in earlier if d.end >= e.end]
    if late:
        d = late[-1]
        return told(e, f"it ends at step {e.end}, and {named(d)} stands before it and ends at step {d.end}, but ends must rise", [d])
    d = [d for d in earlier if d.process == e.process and d.end >= e.start][-1]
    return told(e, f"it starts at step {e.start}, and process {e.process} was then in its call before it, {named(d)}, until step {d.end}", [d])


# ---- rule 3

def moments(story, e):
    low, high = 2 * e.start, 2 * e.end + 1
    if not e.bears():
        return told(e, f"such a call has no moment, so {NO_MOMENT} should stand here, and {e.moment} does")
    if e.moment == NO_MOMENT:
        return told(e, f"such a call has a moment, from {low} to {high} here, and {NO_MOMENT} says that there is none")
    if not low <= e.moment <= high:
        return told(e, f"its moment {e.moment} lies outside the call, which is from step {e.start} to step {e.end}, so from moment {low} to {high}")
    d = next(d for d in story.entries[:e.place] if d.bears() and d.moment == e.moment)
    return told(e, f"its moment {e.moment} is that of {named(d)} too, and all moments differ", [d])


# ---- rule 4

def contents(story, e):
    if e.kind == PUSH:
        d = min((d for d in story.entries if d.did(PUSH, DONE) and d.node == e.node and d.moment < e.moment), key=lambda d: d.moment)
        return told(e, f"node {e.node} was already pushed by process {d.process} on queue {d.queue} at moment {d.moment}, in entry {d.place}", [d])
    nodes = held(story.entries, e.queue, e.moment)
    has = f"at moment {e.moment} queue {e.queue} held {nodes_words(nodes)}"
    if e.result == NIL:
        pushes = [d for d in story.entries if d.did(PUSH, DONE) and d.queue == e.queue and d.node == nodes[-1]]
        return told(e, f"it says that nothing was there, but {has}", pushes[:1])
    end = "" if not nodes else f", so that node {nodes[-1 if e.kind == POP else 0]} was due" if len(nodes) > 1 else ""
    why, clash = whereabouts(story, e, nodes)
    return told(e, f"{why}; {has}{end}", clash)


def whereabouts(story, e, nodes):
    """Why a pop cannot have given its node, and the entry that says so."""
    given = [d for d in story.entries if d.kind != PUSH and d.result == DONE and d.node == e.node and d.moment < e.moment]
    pushes = [d for d in story.entries if d.did(PUSH, DONE) and d.node == e.node]
    if e.node in nodes:
        d = next(d for d in story.entries if d.did(PUSH, DONE) and d.node == nodes[-1 if e.kind == POP else 0])
        return f"node {e.node} was there, but not at the {'bottom' if e.kind == POP else 'top'}", [d]
    if given:
        d = max(given, key=lambda d: d.moment)
        return f"node {e.node} was already given to process {d.process} at moment {d.moment}, in entry {d.place}", [d]
    if not pushes:
        return f"node {e.node} was never pushed", []
    d = pushes[0]
    when = "only pushed" if d.moment > e.moment else "pushed"
    return f"node {e.node} was {when} by process {d.process} on queue {d.queue} at moment {d.moment}, in entry {d.place}", [d]


# ---- rule 5

def cause(story, e):
    """Where no instant is empty and nobody else takes the topmost node, one node is the topmost all the time."""
    low, high = 2 * e.start, 2 * e.end + 1
    top = held(story.entries, e.queue, low + 1)[0]
    d = next(d for d in story.entries if d.did(PUSH, DONE) and d.queue == e.queue and d.node == top)
    return told(e, f"in its time, from moment {low} to {high}, queue {e.queue} was never empty, and no other process took its topmost node: "
                   f"node {top}, pushed at moment {d.moment} in entry {d.place}, stood at the top throughout", [d])


# ---- rule 6

def room(story, e):
    own = [d for d in story.entries[:e.place] if d.queue == e.queue]
    empty = [d for d in own if d.did(POP, NIL)]
    counted = own[own.index(empty[-1]) + 1:] if empty else own
    pushes, pops = [sum(d.did(kind, DONE) for d in counted) for kind in (PUSH, POP)]
    since = f"since queue {e.queue} was found empty in entry {empty[-1].place}" if empty else "since the log's beginning"
    return told(e, f"{since} queue {e.queue} had {many(pushes, 'push')} less {many(pops, 'pop')}, which is {pushes - pops}, "
                   f"and full takes {story.slots}, the slots of a queue", empty[-1:])


# ---- takes that have gone round

def gone_words(run, call, entries):
    """Of a gone-round take: the resets that went unseen, and why."""
    e = entries[call.entry.place]
    resets = f"reset at step{'s' * (len(call.unseen) > 1)} {listed(call.unseen)}"
    why = "there is no tag" if run.width == 0 else f"its tag of {many(run.width, 'bit')} had come round to the same number"
    between = f"between this call's T1 at step {call.rows['T1']} and its T4 at step {call.rows['T4']}"
    return f"{capital(named(e))}: queue {e.queue} was {resets}, {between}, and T4 saw nothing of it, since {why}."
