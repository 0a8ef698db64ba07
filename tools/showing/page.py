"""The page: one file, with its style, its script and its data inside."""
import os
import pathlib
import string
import tempfile

from .drawing import data_of, log_part, queues_part, tag, text
from .faults import fault_of, gone_words
from .reading import NIL, LOST, TAKE, Trouble
from .replay import gone_round
from .words import RULES, listed, many

HERE = pathlib.Path(__file__).resolve().parent
MADE_BY = "<!doctype html>\n<!-- made by scarpgoblet show -->\n"  # a file that begins so may be written over


def facts(story):
    """Sizes and counts, in a line."""
    calls = many(len(story.entries), "finished call")
    known = [f"P = {story.processes} {'process' if story.processes == 1 else 'processes'}", f"C = {many(story.slots, 'slot')} a queue"]
    if not story.run:
        return [*known, calls, "a log alone, without its run file"]
    closing = story.steps - len(story.run.schedule)
    width = f"W = {many(story.run.width, 'bit')} of tag" if story.run.width else "W = 0, no tag"
    return [width, *known, calls, many(story.steps, "step") + (f", {closing} of them the closing" if closing else ""), f"gone-round {story.gone}"]


def verdict(story, fault):
    """What the judge says, and why."""
    if not fault:
        return tag("div", tag("p", tag("b", "✓ Accepted.") + " The judge's number is 0: the log keeps all six rules."), "verdict accepted")
    name, law = RULES[story.number]
    head = tag("p", tag("b", f"✕ The judge's number is {story.number}, at entry {story.fault}.") + f" It breaks {name}: {text(law)}.")
    steps = [story.entries[place].end for place in (*fault.clashes, story.fault)]
    return tag("div", head + tag("p", text(fault.why), "why") + see(steps), "verdict wrong")


def see(steps):
    """A way to these steps."""
    links = listed(tag("a", f"step {at}", href=f"#step={at}") for at in steps)
    return tag("p", f"See {links}.")


def gone_part(story, calls):
    """The takes that have gone round, with a way to the steps."""
    told = []
    for call in gone_round(calls):
        why = tag("p", tag("b", "↻ Gone round. ") + text(gone_words(story.run, call, story.entries)))
        told.append(tag("div", why + see([call.rows["T1"], *call.unseen, call.rows["T4"]]), "verdict gone"))
    return "".join(told)


def notes(story):
    """What a reader of a log alone has to know."""
    if story.run:
        return ""
    told = ["Without the run file the steps of a call, idle steps, the closing and gone-round takes are not known."]
    takes = [e for e in story.entries if e.kind == TAKE]
    if any(e.result == NIL for e in takes) and not any(e.result == LOST for e in takes):
        told.append("An old log says <q>nothing there</q> of a take that lost its race too.")
    return "".join(tag("p", words, "quiet") for words in told)


def marked_entries(story, fault, calls):
    """The places of the entries that are marked, by their marks. A reset is the last step of a pop."""
    unseen = {at for call in gone_round(calls) for at in call.unseen}
    return {
        "fault": [story.fault] if fault else [],
        "clash": fault.clashes if fault else [],
        "gone": [call.entry.place for call in gone_round(calls)],
        "unseen": [call.entry.place for call in calls if call.entry.end in unseen],
    }


def part(name):
    return (HERE / name).read_text(encoding="utf-8")


def page_of(story, steps, calls, name, command):
    """The page of a story, and the sentence on its fault or None."""
    fault = fault_of(story)
    marked = marked_entries(story, fault, calls)
    template = string.Template(part("page.html"))
    page = template.substitute(
        made_by=MADE_BY, name=text(name), command=text(command),
        style=part("page.css"), script=part("page.js"), data=data_of(story, steps, marked),
        facts="".join(tag("li", text(fact)) for fact in facts(story)),
        verdict=verdict(story, fault) + gone_part(story, calls), notes=notes(story), kind="run" if story.run else "log",
        unseen=tag("li", "<i>◯</i> reset that went unseen") if marked["unseen"] else "",
        queues=queues_part(story, marked), log=log_part(story, marked),
    )
    return page, fault.why if fault else None


# ---- where it goes

def may_write(path):
    """A page of ours may be written over, and nothing else."""
    try:
        if not os.path.lexists(path) or os.path.isfile(path) and begins_as_ours(path):
            return
    except OSError as error:
        raise Trouble(f"{path}: {error.strerror}: no page is written") from None
    raise Trouble(f"{path}: this is there already and is no page of ours, so it is not written over: give the page another name")


def begins_as_ours(path):
    with open(path, "rb") as file:
        return file.read(len(MADE_BY)) == MADE_BY.encode()


def write(path, page):
    """All of the page or nothing: what is half written never stands under its name."""
    made, place = None, os.path.realpath(path)
    try:
        with tempfile.NamedTemporaryFile(dir=os.path.dirname(place), prefix=".page-", delete=False) as file:
            made = file.name
            file.write(page.encode(errors="replace"))
        os.chmod(made, 0o666 & ~umask())
        os.replace(made, place)
    except OSError as error:
        if made:
            os.unlink(made)
        raise Trouble(f"{path}: {error.strerror}: no page is written") from None


def umask():
    """The mask of new files, which can be read only by setting it."""
    mask = os.umask(0)
    os.umask(mask)
    return mask
