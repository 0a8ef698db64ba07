"""The queues by moments, as the judge reads them: each call with a moment makes of its queue's nodes what it says, whatever they are."""
from typing import NamedTuple

from .reading import DONE, POP, PUSH, TAKE


class Change(NamedTuple):
    """A call with a moment, and its queue's nodes, top first, just before and just after it."""
    entry: tuple
    before: tuple
    after: tuple


def applied(e, nodes):
    if e.did(PUSH, DONE):
        return (*nodes, e.node)
    if e.did(POP, DONE):
        return nodes[:-1]
    if e.did(TAKE, DONE):
        return nodes[1:]
    return nodes


def changes(entries, queue):
    """The changes of a queue by rising moment."""
    made, nodes = [], ()
    for e in sorted((e for e in entries if e.bears() and e.queue == queue), key=lambda e: e.moment):
        after = applied(e, nodes)
        made.append(Change(e, nodes, after))
        nodes = after
    return made


def held(entries, queue, instant):
    """The nodes of a queue, top first, just before an instant."""
    nodes = ()
    for change in changes(entries, queue):
        if change.entry.moment < instant:
            nodes = change.after
    return nodes
