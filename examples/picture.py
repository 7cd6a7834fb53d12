#!/usr/bin/env python3
"""Draws who held the processor: found tick by tick, and held against the completions that were printed.

usage: picture.py TEXT PRINTED SVG

TEXT is what make_log.py reads; its comment `# task N: NAME` names a task. PRINTED is what ./replay prints for the
log that make_log.py makes of it."""
import re
import sys
from html import escape

sys.dont_write_bytecode = True
from make_log import read_text

COLOURS = "#0072b2 #d55e00 #009e73 #b5508c #c98a00 #3fa0dc #7a4a32 #5b5b8c".split()
PLOT, LANE, TOP, MARGIN = 800, 34, 52, 20


def replay(setup, rows):
    """The spans (task, from, to) in which a task held the processor, and when each row was done: document 01's rule."""
    (policy, _, length), priorities = setup
    rank = lambda task: (-priorities[task] if task < len(priorities) else 0, task)
    spans, done = [], [0] * len(rows)
    queue, used, owed, row_of, clock, asked = [], 0, {}, {}, 0, 0
    while queue or asked < len(rows):
        if not queue:
            clock = rows[asked][0]
        while asked < len(rows) and rows[asked][0] == clock:
            _, task, amount = rows[asked]
            owed[task], row_of[task] = amount, asked
            queue.append(task)
            asked += 1
        if policy == 2 and used == length:
            queue.append(queue.pop(0))
            used = 0
        task = queue[0] if policy == 2 else min(queue, key=rank)
        if spans and spans[-1][0] == task and spans[-1][2] == clock:
            spans[-1][2] += 1
        else:
            spans.append([task, clock, clock + 1])
        clock, used, owed[task] = clock + 1, used + 1, owed[task] - 1
        if owed[task] <= 0:
            queue.remove(task)
            done[row_of[task]], used = clock, 0
    return spans, done


def printed(rows, done):
    lines = [f"{i} {task} {time} {amount} {at}" for i, ((time, task, amount), at) in enumerate(zip(rows, done), 1)]
    return "\n".join(["row task asked amount done", *lines, f"end {max(done, default=0)}", ""])


def step_of(end):
    """The step of the axis: 1, 2 or 5 times a power of ten, at most fifteen of them."""
    power = 1
    while True:
        for step in (power, 2 * power, 5 * power):
            if end <= 15 * step:
                return step
        power *= 10


def tag(name, words="", **given):
    """An element of the picture."""
    given = "".join(f' {key.replace("_", "-")}="{value}"' for key, value in given.items())
    return f"<{name}{given}>{escape(words)}</{name}>" if words else f"<{name}{given}/>"


def asked_mark(x, y, fill):
    return tag("path", d=f"M{x} {y} l-4 -6 h8 z", fill=fill)


def done_mark(x, y, stroke, r=3.5):
    return tag("circle", cx=x, cy=y, r=r, fill="#fff", stroke=stroke, stroke_width=2)


def legend(x, y):
    yield asked_mark(x + 4, y - 2, "#555")
    yield tag("text", "asked", x=x + 14, y=y)
    yield tag("rect", x=x + 80, y=y - 6, width=26, height=4, fill="#555", opacity=0.35)
    yield tag("text", "open, waiting", x=x + 113, y=y)
    yield tag("rect", x=x + 220, y=y - 12, width=26, height=16, fill="#555")
    yield tag("text", "holds the processor", x=x + 253, y=y)
    yield done_mark(x + 402, y - 4, "#555")
    yield tag("text", "done", x=x + 412, y=y)


def drawn(setup, rows, spans, done, names):
    """The elements: title, axis, a lane for each task and one for the processor, marks, legend."""
    (policy, count, length), _ = setup
    end, few = max(done, default=1), len(rows) <= 12
    left, bottom = edges(names)
    x = lambda time: round(left + PLOT * time / end, 1)
    middle = lambda lane: TOP + LANE * lane + LANE // 2
    colour = lambda task: COLOURS[task % len(COLOURS)]
    bar = lambda start, stop, lane, tall, task, **more: tag(
        "rect", x=x(start), y=middle(lane) - tall // 2, width=round(x(stop) - x(start), 1), height=tall,
        fill=colour(task), **more)
    rule = f"Round robin, slice {length}" if policy == 2 else "Priority"
    yield tag("text", f"{rule}: who held the processor", x=MARGIN, y=28, font_size=16, font_weight="bold")
    for time in range(0, end + 1, step_of(end)):
        yield tag("line", x1=x(time), y1=TOP, x2=x(time), y2=bottom, stroke="#e4e4e4")
        yield tag("text", str(time), x=x(time), y=bottom + 17, text_anchor="middle", fill="#666")
    for lane, name in enumerate([*names, "processor"]):
        yield tag("text", name, x=left - 14, y=middle(lane) + 4, text_anchor="end")
    yield tag("line", x1=left, y1=bottom - LANE, x2=left + PLOT, y2=bottom - LANE, stroke="#999")
    for (time, task, _), at in zip(rows, done):
        yield bar(time, at, task, 4, task, opacity=0.35)
    for task, start, stop in spans:
        yield bar(start, stop, task, 16, task)
        yield bar(start, stop, count, 16, task)
    for (time, task, amount), at in zip(rows, done):
        yield asked_mark(x(time), middle(task) - 9, colour(task))
        yield done_mark(x(at), middle(task), colour(task), 3.5 if few else 2.5)
        if few:
            yield tag("text", f"asks {amount}", x=x(time) + 7, y=middle(task) - 10, font_size=10)
            yield tag("text", f"done at {at}", x=x(at) - 7, y=middle(task) - 10, font_size=10, text_anchor="end")
    yield from legend(left, bottom + 42)


def edges(names):
    """Where the lanes begin, and where they end below."""
    return MARGIN + 16 + 7 * max(len(name) for name in [*names, "processor"]), TOP + LANE * (len(names) + 1)


def picture(setup, rows, spans, done, names):
    left, bottom = edges(names)
    width, height = left + PLOT + 2 * MARGIN, bottom + 62
    head = (f'<svg xmlns="http://www.w3.org/2000/svg" viewBox="0 0 {width} {height}" width="{width}" height="{height}" '
            'font-family="DejaVu Sans, Verdana, sans-serif" font-size="12" fill="#222">')
    ground = tag("rect", width=width, height=height, rx=10, fill="#fff")
    return "\n".join([head, ground, *drawn(setup, rows, spans, done, names), "</svg>", ""])


def main(arguments):
    if len(arguments) != 3 or arguments[0] in ("-h", "--help"):
        print(__doc__, file=sys.stderr)
        return 2
    try:
        with open(arguments[0], encoding="utf-8") as file:
            lines = file.readlines()
        setup, rows = read_text(lines)
        with open(arguments[1], encoding="ascii") as file:
            told = file.read()
        if told.startswith("refused"):
            raise ValueError("a refused log has no picture")
        spans, done = replay(setup, rows)
        if told != printed(rows, done):
            raise ValueError(f"{arguments[1]} is not what the rule gives, tick by tick")
        named = dict(re.findall(r"^# task (\d+): (.*)$", "".join(lines), re.M))
        names = [named.get(str(task), f"task {task}") for task in range(setup[0][1])]
        with open(arguments[2], "w", encoding="ascii") as out:
            out.write(picture(setup, rows, spans, done, names))
    except (OSError, ValueError) as fault:
        print(f"picture.py: {fault}", file=sys.stderr)
        return 1
    return 0


if __name__ == "__main__":
    sys.exit(main(sys.argv[1:]))
