"""The parts of the page that stand still, as HTML, and the data that its script draws from."""
import html
import json

from .queues import changes, held
from .reading import DONE, NO_MOMENT, PUSH
from .words import CARRIES, KINDS, ROWS, call_words, script_words

SHAPES = {1: "●", 2: "■", 3: "◆"}
MARKS = {"fault": "✕ fault", "clash": "! clash", "gone": "↻ gone round", "unseen": "↺ reset"}


def text(words):
    return html.escape(str(words))


def tag(name, inside, cls="", **attributes):
    attributes = ({"class": cls} if cls else {}) | attributes
    told = "".join(f' {key.replace("_", "-")}="{html.escape(str(value))}"' for key, value in attributes.items())
    return f"<{name}{told}>{inside}</{name}>"


def marks_of(place, marked):
    """The words for what is marked of an entry."""
    return "".join(tag("b", text(MARKS[mark]), f"mark {mark}") for mark, places in marked.items() if place in places)


def classes_of(place, marked):
    return " ".join(mark for mark, places in marked.items() if place in places)


def kind_class(e):
    return KINDS.get(e.kind, "other")


# ---- the queues by moments

def column(head, nodes, cls="", new=None):
    """A queue's nodes between one moment and the next. A node that just came is set off."""
    items = "".join(tag("li", text(node), "new" if node == new and i == len(nodes) - 1 else "") for i, node in enumerate(nodes))
    return tag("div", head + (tag("ol", items) if nodes else tag("p", "empty", "empty")), f"column {cls}".strip())


def call_column(when, e, nodes, marked):
    """A call and the nodes after it."""
    call = tag("span", f"{SHAPES.get(e.kind, '')} {text(call_words(e))}", f"call {kind_class(e)}")
    head = tag("h4", when) + tag("p", f"process {e.process}", "who") + call + marks_of(e.place, marked)
    return column(head, nodes, classes_of(e.place, marked), e.node if e.did(PUSH, DONE) else None)


def columns(story, queue, marked):
    """By rising moment. An entry at fault that has no moment stands where its call begins."""
    made = [(c.entry.moment, call_column(f"moment {c.entry.moment}", c.entry, c.after, marked)) for c in changes(story.entries, queue)]
    for e in (story.entries[place] for place in marked["fault"]):
        if e.queue == queue and not e.bears():
            low, high = 2 * e.start, 2 * e.end + 1
            made.append((low - 0.5, call_column(f"moments {low} to {high}", e, held(story.entries, queue, low), marked)))
    return [drawn for _, drawn in sorted(made)]


def queue_strip(story, queue, marked):
    first = column(tag("h4", "at first"), ())
    strip = tag("div", first + "".join(columns(story, queue, marked)), "strip", tabindex=0, role="group", aria_label=f"queue {queue} by moments")
    return tag("section", tag("h3", f"queue {queue}") + strip, "queue-by-moments")


def queues_part(story, marked):
    if story.number in (14, 15, 16):
        return tag("p", f"The judge reads no queue of a log that breaks rule {story.number - 13}.")
    used = [q for q in range(story.processes) if any(e.bears() and e.queue == q for e in story.entries)]
    unused = [q for q in range(story.processes) if q not in used]
    parts = [tag("p", "Each column is a queue from one moment to the next, its top node first, as the judge reads the log.", "quiet")]
    parts += [queue_strip(story, q, marked) for q in used]
    if unused:
        parts.append(tag("p", f"No call has a moment on queue {', '.join(map(str, unused))}: empty from first to last.", "quiet"))
    return "".join(parts)


# ---- the log in words

def row(e, marked):
    moment = "none" if e.moment == NO_MOMENT else e.moment
    end = tag("a", e.end, href=f"#step={e.end}")
    call = f"{SHAPES.get(e.kind, '')} {text(call_words(e))} {marks_of(e.place, marked)}"
    cells = [tag("td", cell) for cell in (e.place, f"process {e.process}", call, e.queue, e.start, end, moment)]
    return tag("tr", "".join(cells), classes_of(e.place, marked))


def log_part(story, marked):
    if not story.entries:
        return tag("p", "No call was finished.")
    head = "".join(tag("th", name, scope="col") for name in ("entry", "process", "call", "queue", "start", "end", "moment"))
    rows = "".join(row(e, marked) for e in story.entries)
    return tag("div", tag("table", tag("thead", tag("tr", head)) + tag("tbody", rows)), "wide")


# ---- what the script draws from

def bar(e, marked):
    """process, queue, kind, whether it had an effect, start, end, moment or -1, words, marks."""
    moment = e.moment if e.bears() and e.moment != NO_MOMENT else -1
    return [e.process, e.queue, kind_class(e), int(e.result == DONE), e.start, e.end, moment, call_words(e), classes_of(e.place, marked)]


def step_data(steps):
    """Of each step what it altered: process, queue, stage, next stage or "", result, word, and slots that are other than before as place and node."""
    slots, data = {}, []
    for step in steps:
        before = slots.get(step.queue, (0,) * len(step.slots))
        altered = [n for i, (old, new) in enumerate(zip(before, step.slots)) if old != new for n in (i, new)]
        slots[step.queue] = step.slots
        data.append([step.process, step.queue, step.stage, step.next, step.result, *step.word, *altered])
    return data


def data_of(story, steps, marked):
    """All that the script gets, as JSON that can stand inside a script element."""
    data = {
        "processes": story.processes, "slots": story.slots, "count": story.steps,
        "opens": story.entries[story.fault].end if story.number else -1,
        "bars": [bar(e, marked) for e in story.entries],
        "shapes": {KINDS[kind]: shape for kind, shape in SHAPES.items()}, "marks": MARKS,
    }
    if story.run:
        scripts = [[script_words(*call) for call in script] for script in story.run.scripts]
        data |= {"scheduled": len(story.run.schedule), "scripts": scripts, "steps": step_data(steps), "rows": ROWS, "carries": CARRIES}
    return json.dumps(data, ensure_ascii=False, separators=(",", ":")).replace("<", "\\u003c")
