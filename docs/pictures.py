#!/usr/bin/env python3
"""Makes the pictures of the documents from the text below, from crates.txt and from the examples: docs/house.svg, flow.svg, life.svg,
session.svg, cycle.svg, crash.svg, stream.svg, and docs/runs/ with a picture of each example's run.

    docs/pictures.py            writes them
    docs/pictures.py --check    tells whether they are as this makes them
"""

import glob
import importlib.machinery
import importlib.util
import os
import re
import sys

DOCS = os.path.dirname(os.path.abspath(__file__))
TOP = os.path.dirname(DOCS)
sys.path.insert(0, os.path.join(TOP, "tools"))
sys.dont_write_bytecode = True
import docs as sources  # noqa: E402
from svg import arrow, box, line, picture, words  # noqa: E402

# The life of a transaction: each place with its begin word and its state word, and the step that leads to the next.
LIFE = """
Idle | 0 | 0 | load the tail
Begun a | 0 | 0 | store the begin word
Announced a | a | 0 | load the tail: the begin stamp
Active a | a | 0 | seal: store 1
Sealing a | a | 1 | add to the tail: the commit stamp
Drawn a c | a | 1 | store the stamp
Sealed a c | a | c | settle: look at all that counts, store the block
Decided a c | a | c | install the versions, clear the begin word
Leaving c | 0 | c | clear the state word
"""

# The log of examples/durable.erm, and what the crash of examples/crash.sh cuts off: where each block begins, how many words it has
# and what it is. The last number is the log's end.
LOG = """
8 | open, run 1
13 | balance 1000
33 | balance 500
42 |
"""
CUT = 41


def rows_of(text):
    return [[word.strip() for word in line.split("|")] for line in text.strip().split("\n")]


def laws_only(name):
    """Whether a crate has definitions and proofs, and functions that do nothing."""
    doing = re.compile(r"^\s+(?:let|match|if|for|while|self\.)", re.M)
    return not any(doing.search(re.sub(r"(?m)^\s*(?:ghost|ensures|requires|//|→).*$", "", sources.text_of(it))) for it in sources.files_of(name, "src", ".rt") if "test" not in it)


# From how many lines of code, definitions and proofs on a crate's box is longer by a step, and the lengths.
STEPS = (500, 1000, 2000, 4000, 8000)
LENGTHS = (106, 124, 150, 186, 232, 290)


def length_of(name):
    """How long a crate's box is: by a step for each doubling of its lines."""
    files = [it for folder in ("src", "specs", "proofs") for it in sources.files_of(name, folder, (".rt", ".antt"))]
    count = sum(sources.text_of(it).count("\n") for it in files)
    return LENGTHS[sum(count >= least for least in STEPS)]


def house():
    """The layers of the program, with a box for each crate."""
    crates, parts, y, width = sources.Crates(), [], 10, 900
    needed = crates.below("erm_main")
    for layer, _, names in crates.layers:
        names = [it for it in names if it in needed]
        x, top, boxes = 170, y + 8, []
        for crate in names:
            wide = length_of(crate)
            if x + wide > width - 20:
                x, y = 170, y + 30
            boxes += [box(x, y + 8, wide, 22, "none" if laws_only(crate) else "box"), words(x + wide / 2, y + 23, crate[4:], "word")]
            x += wide + 8
        if names:
            y += 38
            parts += [box(10, top - 6, width - 20, y - top, "plain"), words(22, top + 15, layer, "small", "start"), *boxes]
    notes = ["Each crate (erm_..) uses crates of its own layer and of lower ones alone. Blue ones have code that runs, grey ones laws and proofs alone."]
    notes += [f"A box is longer by a step from {', '.join(f'{it:,}' for it in STEPS[:-1])} and {STEPS[-1]:,} lines of code, definitions and proofs on."]
    parts += [words(width / 2, y + 18 * (i + 1), note, "small") for i, note in enumerate(notes)]
    return picture(width, y + 48, "The crates of the program in layers", parts)


# The way of the data: each place, with the crates that have it; then what goes from one to the next.
FLOW = """
script | bytes of standard input | erm_top, erm_script
lines | what each line asks for | erm_log_run, erm_lines
tree | get, put, scan over rows | erm_tree, erm_node
world | sessions: read, claim, commit | erm_plain
machine | one atomic step at a time | erm_core, erm_seat
ring | blocks decided, in memory | erm_plain, erm_core_turns
log | blocks, written and waited for | erm_flush, erm_log_disk
disk | erm-data: segments, two slots | erm_outside_real
"""


def flow():
    rows, parts, place = rows_of(FLOW), [], {}
    for i, (name, what, crates) in enumerate(rows):
        x, y = (20 + 215 * i, 54) if i < 4 else (20 + 215 * (7 - i), 204)
        place[name] = (x, y)
        parts += [box(x, y, 180, 76), words(x + 90, y + 21, name, "head"), words(x + 90, y + 42, what, "small"), words(x + 90, y + 62, crates, "small")]
    for a, b, text in (("script", "lines", ""), ("lines", "tree", ""), ("tree", "world", "")):
        parts.append(arrow(f"M{place[a][0] + 180} {place[a][1] + 38} H{place[b][0] - 2}"))
    x, y = place["world"]
    parts += [arrow(f"M{x + 130} {y + 76} V{place['machine'][1] - 2}"), words(x + 136, y + 118, "steps", "small", "start")]
    for a, b in (("machine", "ring"), ("ring", "log"), ("log", "disk")):
        parts.append(arrow(f"M{place[a][0]} {place[a][1] + 38} H{place[b][0] + 182}"))
    parts += [arrow(f"M{x + 50} {place['machine'][1]} V{y + 78}", "good"), words(x + 44, y + 118, "answers", "small", "end")]
    x, y = place["lines"]
    parts += [arrow(f"M{x + 90} {y} V28 H{place['script'][0] + 90} V{y - 2}", "good"), words(x + 96, 32, "report: an answer a line, the serial order, the map (erm_summary, erm_report)", "small", "start")]
    x, y = place["disk"]
    parts += [arrow(f"M{x + 90} {y} C{x + 90} {y - 50} {place['world'][0] - 60} {y - 6} {place['world'][0] + 6} {place['world'][1] + 78}", "good")]
    parts += [words(x + 110, y - 34, "at the start: recovered (erm_recover), opened (erm_start)", "small", "start")]
    parts += [words(20, 312, "Black: what is asked for, and written. Blue: what comes back. The machine's steps are one list; what is proved of a run is a view of it.", "small", "start")]
    return picture(865, 328, "The way of the data, from a script to the disk and back", parts)


def life():
    parts, rows = [], rows_of(LIFE)
    parts += [words(90, 22, "place", "small"), words(210, 22, "begin word", "small"), words(300, 22, "state word", "small")]
    for number, (place, begin, state, step) in enumerate(rows):
        y = 32 + 48 * number
        parts += [box(20, y, 140, 28), words(90, y + 19, place)]
        parts += [box(180, y, 60, 28, "plain"), words(210, y + 19, begin, "word")]
        parts += [box(270, y, 60, 28, "plain"), words(300, y + 19, state, "word")]
        if number + 1 < len(rows):
            parts += [arrow(f"M90 {y + 28} V{y + 46}"), words(350, y + 43, step, "small", "start")]
    last = 32 + 48 * (len(rows) - 1)
    parts += [words(350, last + 19, f"{rows[-1][3]}: idle again", "small", "start")]
    parts += [arrow(f"M20 {last + 14} H8 V46 H18")]
    active = 32 + 48 * 3 + 14
    parts += [line(f"M20 {active} H8"), words(350, active + 5, "reads, claims, writes; an abort leads back to Idle", "small", "start")]
    parts += [words(20, last + 62, "a: the place in the log when it began.  c: the commit stamp, where the block begins in the log.", "small", "start")]
    parts += [words(20, last + 80, "State word 1: a stamp is being drawn, and others who meet it wait or look again.", "small", "start")]
    return picture(660, last + 95, "The life of a transaction, with its places and words", parts)


# What a session's transaction goes through: each state with what it may do or is told there; then the step to the next one.
SESSION = """
active | get, next, scan, put, del, tidy | seal
sealed | has a stamp, and may wait | settle
committed | counts, and is in the map | flush
durable | outlives a crash |
"""


def session():
    parts, rows = [words(8, 75, "begin", "small", "start"), arrow("M8 84 H52")], rows_of(SESSION)
    for i, (name, what, step) in enumerate(rows):
        x = 54 + 236 * i
        parts += [box(x, 56, 172, 56), words(x + 86, 79, name, "head"), words(x + 86, 99, what, "small")]
        if step:
            parts += [arrow(f"M{x + 172} 84 H{x + 234}"), words(x + 203, 76, step, "small")]
    parts += [arrow("M320 56 C320 22 432 22 432 54"), words(376, 22, "wait: the line is asked again", "small")]
    parts += [words(258, 130, "(commit: both in one)", "small")]
    for x, name, what in ((54, "over", "refused or aborted"), (290, "over", "excluded at its stamp")):
        parts += [arrow(f"M{x + 86} 112 V166", "bad"), box(x, 168, 172, 56, "lost"), words(x + 86, 191, name, "head"), words(x + 86, 211, what, "small")]
    parts += [words(54, 250, "What is over leaves nothing, and its session may begin again. So it may behind committed. A script's end settles what is sealed, and aborts what is active.", "small", "start")]
    return picture(950, 266, "The life of a transaction, as its session sees it", parts)


def crash():
    rows, parts = [(int(at), what) for at, what in rows_of(LOG)], []
    place = lambda at: 40 + 15 * (at - 8)
    y = 50
    for (at, what), (end, _) in zip(rows, rows[1:]):
        kind = "box" if end <= CUT else "lost"
        parts += [box(place(at), y, place(end) - place(at), 44, kind), words((place(at) + place(end)) / 2, y + 26, what, "small")]
    for at, what in rows:
        parts += [words(place(at), y - 10, at, "word"), line(f"M{place(at)} {y - 6} V{y}")]
    parts += [f'<path class="bad" d="M{place(CUT)} {y - 24} V{y + 60}"/>', words(place(CUT) + 6, y - 26, "the crash", "small", "start")]
    base, taken = place(8), max(end for end, _ in rows if end <= CUT)
    parts += [arrow(f"M{base} {y + 84} H{place(taken) - 2}"), words((base + place(taken)) / 2, y + 78, f"recovery takes what reads whole: recovered {taken}")]
    parts += [words(place(taken) + 12, y + 78, "this block doesn't read whole,", "small", "start"), words(place(taken) + 12, y + 94, "so all of it is gone", "small", "start")]
    y += 130
    for (at, what), (end, _) in zip(rows, rows[1:]):
        if end <= CUT:
            parts += [box(place(at), y, place(end) - place(at), 44), words((place(at) + place(end)) / 2, y + 26, what, "small")]
    parts += [box(place(taken), y, 15 * 5, 44), words(place(taken) + 37, y + 26, "open, run 2", "small"), words(place(taken), y - 6, taken, "word")]
    parts += [words(place(taken + 5) + 8, y + 20, "the next run goes on, and", "small", "start"), words(place(taken + 5) + 8, y + 35, "writes over the bytes behind", "small", "start")]
    parts += [words(40, y + 76, "Flushed at 33 before: what was told durable lies below, so it is there. Places are words of eight bytes.", "small", "start")]
    return picture(720, y + 92, "A log that a crash cut, and what recovery takes", parts)


def told_stream():
    """What examples/stream.out tells of two runs and of the stream behind them: the blocks by ascending stamps, each with its stamp, its session
    and its succ, or with the stamp alone where it opens a run; where the last one ends; and the stamps of the commits told, in their order."""
    parts = [it.split("\n") for it in sources.text_of("examples/stream.out").split("$ ")[1:]]
    runs = [[row.split() for row in it[1:]] for it in parts if it[0].startswith("erm run")]
    opened = [int(row[1]) for run in runs for row in run if row[:1] == ["open"]]
    blocks = [(at, None, None) for at in opened[:2]]
    blocks += [(int(row[4]), row[1], row[6]) for run in runs for row in run if row[:1] == ["commit"]]
    follow = next(it for it in parts if it[0] == "erm ship | erm follow")
    return sorted(blocks), opened[2], [int(it.split()[4]) for it in follow if it.startswith("commit")]


def stream():
    """Order against commit order: the blocks of two runs along their stamps, and below the places in the serial order that are told."""
    blocks, end, told = told_stream()
    place = lambda at: 30 + 6.2 * (at - blocks[0][0])
    top, low, wide, middle, names = 84, 208, 94, {}, {}
    left, right = 30 + (wide + 6) * len(told), place(end)
    parts = [words(30, 22, "The log, by commit stamps", "head", "start"), words(right, top - 8, end, "word")]
    for (at, name, succ), (behind, _, _) in zip(blocks, [*blocks[1:], (end, None, None)]):
        middle[at], names[at] = (place(at) + place(behind)) / 2, name
        parts += [words(place(at), top - 8, at, "word"), line(f"M{place(at):g} {top - 4} V{top}")]
        if name is None:
            parts += [box(place(at), top, place(behind) - place(at), 44, "plain"), words(middle[at], top + 26, "open", "small")]
            parts += [line(f"M{place(at):g} {top - 22} V{top - 40} H{place(at) + 8:g}"), words(place(at) + 12, top - 36, f"safe stamp {at}", "small", "start")]
        else:
            parts += [box(place(at), top, place(behind) - place(at), 44, "box" if at in told else "none")]
            parts += [words(middle[at], top + 19, name), words(middle[at], top + 36, f"succ {succ}", "small")]
    for number, at in enumerate(told):
        x = 30 + (wide + 6) * number
        kind = "good" if any(it < at for it in told[number + 1 :]) else "line"
        parts += [box(x, low, wide, 34), words(x + wide / 2, low + 22, f"{number + 1}  {names[at]}")]
        parts += [arrow(f"M{middle[at]:g} {top + 44} C{middle[at]:g} {top + 84} {x + wide / 2:g} {low - 46} {x + wide / 2:g} {low - 2}", kind)]
    pending = [at for at, name, _ in blocks if name and at not in told]
    parts += [box(left, low, right - left, 34, "none"), words((left + right) / 2, low + 22, f"pending {len(pending)}")]
    parts += [line(f"M{middle[at]:g} {top + 44} V{low}", "thin") for at in pending]
    parts += [words(30, low + 58, "The serial order, as far as it is told: by succ, and where that is the same the greater stamp first", "head", "start")]
    notes = ["Blue: a commit that comes before one of a lesser stamp. Each commit from a safe stamp on comes behind all below it, so those below are told."]
    notes += [f"Grey: a later commit may still come before one of these. They are due where the next run opens, at {end}, which is then the safe stamp."]
    parts += [words(30, low + 82 + 18 * i, note, "small", "start") for i, note in enumerate(notes)]
    return picture(round(right) + 30, low + 114, "The serial order of a stream against the order of its commits", parts)


def run_of(name):
    """The picture of an example's run, by tools/picture."""
    path = os.path.join(TOP, "tools", "picture")
    loader = importlib.machinery.SourceFileLoader("run_picture", path)
    drawing = importlib.util.module_from_spec(importlib.util.spec_from_loader("run_picture", loader))
    loader.exec_module(drawing)
    script, report = (os.path.join(TOP, "examples", f"{name}.{it}") for it in ("erm", "out"))
    return drawing.draw(drawing.read(script), drawing.read(report), f"A run of {name}.erm")


def pictures():
    """Each picture's name, and how it is made."""
    yield from (("house", house), ("flow", flow), ("life", life), ("session", session), ("crash", crash), ("stream", stream), ("cycle", lambda: run_of("write_skew")))
    for path in sorted(glob.glob(os.path.join(TOP, "examples", "*.erm"))):
        name = os.path.basename(path)[:-4]
        if name != "empty":
            yield f"runs/{name}", lambda name=name: run_of(name)


def main():
    wrong = []
    os.makedirs(os.path.join(DOCS, "runs"), exist_ok=True)
    for name, make in pictures():
        path, text = os.path.join(DOCS, f"{name}.svg"), make()
        if "--check" not in sys.argv[1:]:
            with open(path, "w", encoding="utf-8") as file:
                file.write(text)
        elif not os.path.exists(path) or open(path, encoding="utf-8").read() != text:
            wrong.append(name)
    if wrong:
        sys.exit(f"not as docs/pictures.py makes them: {', '.join(wrong)}")


if __name__ == "__main__":
    main()
