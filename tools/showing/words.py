"""Calls, rows and rules in words."""
from .reading import DONE, FULL, LOST, NIL, POP, PUSH, TAKE

KINDS = {PUSH: "push", POP: "pop", TAKE: "take"}

# document 01's table of steps: the access, and what comes then
ROWS = {
    "idle": ("no call is left: nothing is altered", ""),
    "P1": ("load bottom as b", "b = C: return FULL"),
    "P2": ("store the node in slot b", ""),
    "P3": ("store b+1 in bottom", "return done"),
    "T1": ("load age as (t, g)", ""),
    "T2": ("load bottom as b", "b ≤ t: return NIL"),
    "T3": ("load slot t", ""),
    "T4": ("if age is still (t, g), age becomes (t+1, g)", "changed: return the node; else NIL"),
    "B1": ("load bottom as b", "b = 0: return NIL"),
    "B2": ("store b−1 in bottom", ""),
    "B3": ("load slot b−1", ""),
    "B4": ("load age as (t, g)", "b−1 > t: return the node"),
    "B5": ("store 0 in bottom", "b−1 = t: go to B6; else B7"),
    "B6": ("if age is still (t, g), age becomes (0, next g)", "changed: return the node; else B7"),
    "B7": ("store (0, next g) in age", "return NIL"),
}

# the numbers that a stage carries, in the order in which the desk prints them; x is what was loaded from a slot
CARRIES = {
    "P1": "node", "P2": "node b", "P3": "b", "T2": "t g", "T3": "t g b", "T4": "t g b x",
    "B2": "b", "B3": "b", "B4": "b x", "B5": "b x t g", "B6": "b x t g", "B7": "b x t g",
}

RULES = {
    14: ("rule 1", "fields in their ranges, and in keeping with one another"),
    15: ("rule 2", "ends rise, and a process starts a call after its previous one has ended"),
    16: ("rule 3", "a moment stands exactly where one is wanted, within its call, and no two are the same"),
    17: ("rule 4", "by rising moments, a push adds a new node, and a pop gives what its queue holds"),
    18: ("rule 5", "a take that comes back with nothing found its queue empty, or another process took the topmost node meanwhile"),
    19: ("rule 6", "a push is full only where the pushes less the pops, since the queue's latest empty pop, are at least C"),
}


def call_words(e):
    """The call, its result and its node: `push 7`, `pop: 7`, `take from 0: nothing there`."""
    name = f"take from {e.queue}" if e.kind == TAKE else KINDS.get(e.kind, f"kind {e.kind}")
    if e.kind == PUSH:
        name = f"push {e.node}"
    return name + result_words(e)


def result_words(e):
    if e.kind == PUSH:
        return {DONE: "", FULL: ": full"}.get(e.result, f": result {e.result}")
    if e.result == DONE:
        return f": {e.node}"
    if e.result == NIL:
        return ": nothing there"
    return ": lost the race" if e.did(TAKE, LOST) else f": result {e.result}"


def script_words(code, argument):
    """A call of a script, before its result is known."""
    return {PUSH: f"push {argument}", POP: "pop", TAKE: f"take from {argument}"}[code]


def many(n, thing):
    """`1 push`, `2 pushes`."""
    return f"{n:,} {thing}{'' if n == 1 else 'es' if thing.endswith('sh') else 's'}"


def listed(things):
    """`a`, `a and b`, `a, b and c`."""
    things = [str(thing) for thing in things]
    return " and ".join([", ".join(things[:-1]), things[-1]]) if len(things) > 1 else "".join(things)


def capital(sentence):
    return sentence[:1].upper() + sentence[1:]
