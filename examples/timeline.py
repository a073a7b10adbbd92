#!/usr/bin/env python3
"""Draw a run of poolsim as an SVG picture.

    poolsim run < site.json | python3 timeline.py > run.svg
    poolsim replay < some.script | python3 timeline.py > run.svg
    python3 timeline.py printed-by-poolsim.txt > run.svg
    python3 timeline.py --pool cloud/main --entries 200-400 printed.txt > part.svg

The input is what `poolsim run` or `poolsim replay` printed: the configuration,
a line `%%`, one line for each entry of the journal, a line `%%`, and one line
for each job's fate. The output is one SVG picture, about 1,400 pixels wide for
a long journal and narrower for a short one. `journal.py`, beside this file,
reads the input.

The x axis counts the entries of the journal. An entry changes a state at its
own number, and an entry that was refused changes nothing. From top to bottom
the picture has:

- a dashed line for each session that expired, and a solid one for each that
  crashed, with the session and its role; a light line for each tick of time;
- a lane for each job: new, asked, accepted by a pool, fulfilled, using its
  nodes, and a mark where it ended. Its fate is written at the right;
- a lane for each node, with its pool and its label: building, with each launch
  inside and a cross where one failed, then ready, in use, used or on hold,
  deleting, failed. A node's bar is thin while the node is given to no request.
  Otherwise the bar names the job, if there is room. The node's last state is
  written at the right;
- a lane for each thing that is used: the servers, cores and MiB of each pool and
  of each tenant that has jobs, as far as they have a limit, or else the servers;
  and the handles of each semaphore that jobs name. A lane is as high as the limit,
  or as the most that was used if there is none. A tenant's use counts what its
  accepted requests still wait for. No tenant is drawn if none is listed.

More than 80 jobs and nodes share lanes: those of one requester or of one pool
follow one another in as few lanes as they need, each with its number where
there is room, and jobs are drawn from where they ask for nodes. If there are
more than 200 lanes even so (or `--lanes N`), the first are drawn, and the
picture says how much was left out. In a browser, each bar shows its state and
its entries under the pointer. Locks and sweeps are not drawn.

`--job`, `--requester` and `--pool` select, by the number (`j0`, `q0`, `p0`) or
by the name (`check/unit`, `check`, `cloud/main`); give one more than once for
more of the same kind. A job is drawn if it is one of the jobs, of one of the
requesters, and was accepted by one of the pools; a node is drawn if it is of
one of the pools and was given to a job that is selected. `--entries A-B` draws
these entries alone.

If a line of the input cannot be read, the tool prints one line to standard
error, with the number of that line, and the exit status is 1. If an option is
at fault, it prints one line, and the status is 2.
"""

from __future__ import annotations

import argparse
import re
import sys
from dataclasses import dataclass
from typing import Dict, List, NoReturn, Optional, Sequence, Set, Tuple
from xml.sax.saxutils import escape, quoteattr

from journal import DEFAULT, Fault, Job, Lane, Loss, Node, Run, Span, Use, cut, read_run, read_text

# ------------------------------------------------------------ what is selected of it


@dataclass
class Selection:
    """The jobs, requesters and pools to draw, of which none is all, and the entries."""

    jobs: Set[str]
    requesters: Set[str]
    pools: Set[str]
    first: int
    last: int

    def has_job(self, job: Job) -> bool:
        return (
            (not self.jobs or job.word in self.jobs)
            and (not self.requesters or job.requester in self.requesters)
            and (not self.pools or not self.pools.isdisjoint(job.pools))
        )

    def has_node(self, node: Node, jobs: Set[str]) -> bool:
        is_for_all = not self.jobs and not self.requesters
        return (not self.pools or node.pool in self.pools) and (
            is_for_all or not jobs.isdisjoint(node.jobs)
        )


@dataclass
class Chosen:
    """What is drawn of a run: the lanes, and what is used."""

    jobs: List[Job]
    nodes: List[Node]
    pools: List[Use]
    tenants: List[Use]
    semaphores: List[Use]


def chosen_of(run: Run, selection: Selection) -> Chosen:
    first, last = selection.first, selection.last
    is_part = (first, last) != (0, run.entries)
    jobs = [job for job in run.jobs.values() if selection.has_job(job)]
    words = {job.word for job in jobs}
    nodes = [node for node in run.nodes.values() if selection.has_node(node, words)]
    pools = [
        use
        for word, pool in run.pools.items()
        if not selection.pools or word in selection.pools
        for use in pool.uses
    ]
    tenants = [] if list(run.tenants) == [DEFAULT] else list(run.tenants)
    of_jobs = {job.tenant for job in jobs}, {name for job in jobs for name in job.semaphores}
    return Chosen(
        [job for job in jobs if not is_part or job.is_in(first, last)],
        [node for node in nodes if not is_part or node.is_in(first, last)],
        pools,
        [use for name in tenants if name in of_jobs[0] for use in run.tenants[name].uses],
        [run.semaphores[name] for name in run.semaphores if name in of_jobs[1]],
    )


# ------------------------------------------------------------------ how it looks

# The colours are those of Okabe and Ito, with lighter shades of two of them.
BLACK, ORANGE, SKY, GREEN, YELLOW = "#000000", "#e69f00", "#56b4e9", "#009e73", "#f0e442"
BLUE, VERMILION, PURPLE = "#0072b2", "#d55e00", "#cc79a7"
INK, FAINT, GRID, BAND = "#222222", "#666666", "#d4d4d4", "#f5f5f5"

WIDTH = 1400
ENTRY_WIDTH = 12  # the most pixels for one entry, so that short journals stay small
LANE = 20
BAR_HEIGHT = 14
THIN = 6
HEAD = 24
MARK_ROWS = 8
MARK_ROW = 15
FONT = "Helvetica, Arial, 'DejaVu Sans', sans-serif"

# Lines over a tile of 6 by 6, which tell states apart without their colour.
DOTS = "M1.5 1.5h1.2M4.5 4.5h1.2"
UPRIGHT = "M1.5 0v6M4.5 0v6"
SLANT = "M-1 1L1 -1M0 6L6 0M5 7L7 5"
CROSSED = "M0 0L6 6M0 6L6 0"


@dataclass
class Look:
    """How a state's bars are filled and edged, and the colour of a text in them."""

    fill: str
    edge: str
    lines: str = ""
    lines_colour: str = ""
    ink: str = INK


LOOKS = {
    "new": Look("#c8c8c8", "#8c8c8c"),
    "asked": Look("#ffffff", "#777777", DOTS, "#999999"),
    "accepted": Look("#fbe6b8", "#b57d00"),
    "fulfilled": Look(SKY, "#2c7fae"),
    "using": Look(BLUE, "#004f7c", ink="#ffffff"),
    "request failed": Look("#f3b48a", VERMILION, CROSSED, VERMILION),
    "building": Look("#fbe6b8", "#b57d00"),
    "launch": Look(ORANGE, "#8a5f00"),
    "ready": Look(SKY, "#2c7fae"),
    "in-use": Look(BLUE, "#004f7c", ink="#ffffff"),
    "used": Look(PURPLE, "#9c4a78", DOTS, "#ffffff"),
    "hold": Look(YELLOW, "#8d8500", UPRIGHT, "#a59c00"),
    "deleting": Look("#e2e2e2", "#7a7a7a", SLANT, "#8f8f8f"),
    "failed": Look("#f3b48a", VERMILION, CROSSED, VERMILION),
}
JOB_STATES = ("new", "asked", "accepted", "fulfilled", "using", "request failed")
NODE_STATES = ("building", "ready", "in-use", "used", "hold", "deleting", "failed")
ENDINGS = ("served", "failed", "lost", "withdrawn")
LOSS_LINES = {
    "expire": {"stroke": BLACK, "stroke_width": 1.4, "stroke_dasharray": "5 3"},
    "crash": {"stroke": VERMILION, "stroke_width": 1.8},
}


class Svg:
    """The elements of a picture, in the order in which they are painted."""

    def __init__(self) -> None:
        self.parts: List[str] = []

    def add(self, tag: str, text: str = "", title: str = "", **attributes: object) -> None:
        inside = (f"<title>{escape(title)}</title>" if title else "") + escape(text)
        self.parts.append(f"<{tag}{shown(attributes)}" + (f">{inside}</{tag}>" if inside else "/>"))

    def text(self, x: float, y: float, text: str, size: int = 12, fill: str = INK, **look: object) -> None:
        self.add("text", text, x=x, y=y, font_size=size, fill=fill, **look)

    def line(self, x1: float, y1: float, x2: float, y2: float, title: str = "", **look: object) -> None:
        self.add("line", title=title, x1=x1, y1=y1, x2=x2, y2=y2, **look)

    def picture(self, width: float, height: float, title: str) -> str:
        box = f"0 0 {plain(width)} {plain(height)}"
        size = shown({"width": width, "height": height, "viewBox": box, "font-family": FONT})
        start = f'<svg xmlns="http://www.w3.org/2000/svg"{size}>'
        return "\n".join([start, f"<title>{escape(title)}</title>", *self.parts, "</svg>"]) + "\n"


def plain(value: object) -> str:
    """A number with one decimal place at most; anything else as it is."""
    return f"{value:.1f}".rstrip("0").rstrip(".") if isinstance(value, float) else str(value)


def shown(attributes: Dict[str, object]) -> str:
    pairs = ((name.replace("_", "-"), quoteattr(plain(value))) for name, value in attributes.items())
    return "".join(f" {name}={value}" for name, value in pairs)


def width_of(text: str, size: int = 12) -> float:
    """About how wide a text is, in pixels."""
    return len(text) * size * 0.58


def count_of(count: int, one: str, more: str) -> str:
    return f"{count:,} {one if count == 1 else more}"


def round_step(least: float) -> int:
    """The least of 1, 2, 5, 10, 20, 50 and so on that is not below this."""
    step = 1
    while True:
        for factor in (1, 2, 5):
            if step * factor >= least:
                return step * factor
        step *= 10


def fill_of(state: str) -> str:
    return f"url(#{state.replace(' ', '-')})" if LOOKS[state].lines else LOOKS[state].fill


def add_patterns(svg: Svg) -> None:
    svg.parts.append("<defs>")
    for state, look in LOOKS.items():
        if look.lines:
            tile = {"id": state.replace(" ", "-"), "width": 6, "height": 6, "patternUnits": "userSpaceOnUse"}
            svg.parts.append(f"<pattern{shown(tile)}>")
            svg.add("rect", width=6, height=6, fill=look.fill)
            svg.add("path", d=look.lines, stroke=look.lines_colour, stroke_width=1.2)
            svg.parts.append("</pattern>")
    svg.parts.append("</defs>")


def add_bar(
    svg: Svg, state: str, x: float, width: float, middle: float, height: float, title: str = ""
) -> None:
    edge = {"stroke": LOOKS[state].edge, "stroke_width": 0.8} if width > 2 else {}
    box = {"x": x, "y": middle - height / 2, "width": max(width, 1.0), "height": height}
    svg.add("rect", title=title, **box, fill=fill_of(state), **edge)


def add_cross(svg: Svg, x: float, y: float, size: float, colour: str, width: float) -> None:
    for rise in (size, -size):
        svg.line(x - size, y + rise, x + size, y - rise, stroke=colour, stroke_width=width)


def add_ending(svg: Svg, ending: str, x: float, y: float, title: str = "") -> None:
    """The mark of a job's end: each has a shape of its own."""
    if ending == "lost":
        svg.add("path", title=title, d=f"M{plain(x)} {plain(y - 8)}l8 8l-8 8l-8 -8z", fill=BLACK)
        svg.text(x, y + 4, "?", 11, "#ffffff", text_anchor="middle", font_weight="bold")
        return
    colour = {"served": GREEN, "failed": VERMILION, "withdrawn": "#ffffff"}[ending]
    svg.add("circle", title=title, cx=x, cy=y, r=6.5, fill=colour, stroke=INK, stroke_width=0.8)
    if ending == "served":
        check = f"M{plain(x - 3.2)} {plain(y + 0.2)}l2.4 2.6l4.2 -5.2"
        svg.add("path", d=check, stroke="#ffffff", stroke_width=1.8, fill="none")
    elif ending == "failed":
        add_cross(svg, x, y, 2.8, "#ffffff", 1.8)
    else:
        svg.line(x - 3.5, y, x + 3.5, y, stroke=INK, stroke_width=1.8)


@dataclass
class Frame:
    """Where the entries `first` to `last` are: from `left` to `right`; `width` is the picture's."""

    left: float
    right: float
    width: float
    first: int
    last: int

    def x(self, entry: int) -> float:
        """Where the entry is; what is before the first entry or after the last is at that edge."""
        place = min(max(entry, self.first), self.last + 1) - self.first
        return self.left + (self.right - self.left) * place / (self.last + 1 - self.first)

    def has(self, entry: int) -> bool:
        return self.first <= entry <= self.last


def add_span(svg: Svg, frame: Frame, lane: Lane, span: Span, text: str, middle: float) -> None:
    start, end = span.start, span.end
    if start > frame.last or end <= frame.first:
        return
    x, width = frame.x(start), frame.x(end) - frame.x(start)
    title = f"{lane.word} {lane.name}: {span.state} {span.text}".rstrip() + f", entry {start} to {end}"
    add_bar(svg, span.state, x, width, middle, THIN if span.thin else BAR_HEIGHT, title)
    has_mark = isinstance(lane, Job) and lane.ending and span is lane.spans[-1]
    if text and not span.thin:
        add_bar_text(svg, span.state, text, x, width - (7 if has_mark else 0), middle)


def add_bar_text(svg: Svg, state: str, text: str, x: float, room: float, middle: float) -> None:
    """The text in a bar, if it fits, over a plain ground where the bar has lines."""
    look, width, centre = LOOKS[state], width_of(text, 10), x + room / 2
    if width + 4 > room:
        return
    if look.lines:
        svg.add("rect", x=centre - width / 2 - 1, y=middle - 5, width=width + 2, height=10, fill=look.fill)
    svg.text(centre, middle + 3.6, text, 10, look.ink, text_anchor="middle")


def add_launches(svg: Svg, frame: Frame, node: Node, middle: float) -> None:
    for attempt, launch in enumerate(node.launches, 1):
        x, end = frame.x(launch.start), frame.x(launch.end)
        if end == x:
            continue
        title = f"{node.word}: launch {attempt}, entry {launch.start} to {launch.end}"
        add_bar(svg, "launch", x, end - x, middle, THIN, title + (", failed" if launch.failed else ""))
    for launch in node.launches:
        if launch.failed and frame.has(launch.end):
            add_cross(svg, frame.x(launch.end), middle, 3.5, "#ffffff", 3.6)
            add_cross(svg, frame.x(launch.end), middle, 3.5, BLACK, 1.6)


def add_lane(svg: Svg, frame: Frame, lane: Lane, middle: float) -> None:
    for span in lane.spans:
        add_span(svg, frame, lane, span, span.text, middle)
    add_marks(svg, frame, lane, middle)


def add_marks(svg: Svg, frame: Frame, lane: Lane, middle: float) -> None:
    """The launches of a node, or the mark of a job's end."""
    if isinstance(lane, Node):
        add_launches(svg, frame, lane, middle)
    if isinstance(lane, Job) and lane.ending and frame.has(lane.spans[-1].end):
        end = lane.spans[-1].end
        title = f"{lane.word} {lane.name}: {lane.ending}, entry {end}"
        add_ending(svg, lane.ending, frame.x(end), middle, title)


def add_shared(svg: Svg, frame: Frame, lane: Lane, middle: float) -> None:
    """A job from where it asks, or a node, with its number in its longest bar, or else over them all."""
    spans = [span for span in lane.spans if span.state != "new"]
    longest = max(spans, key=lambda span: 0.0 if span.thin else room_of(frame, span))
    fits = not longest.thin and room_of(frame, longest) >= width_of(lane.word, 10) + 12
    for span in spans:
        text = lane.word if fits and span is longest else ""
        add_span(svg, frame, lane, span, text, middle)
    add_marks(svg, frame, lane, middle)
    if not fits:
        add_number(svg, lane.word, frame.x(spans[0].start), frame.x(spans[-1].end), middle)


def room_of(frame: Frame, span: Span) -> float:
    return frame.x(span.end) - frame.x(span.start)


def add_number(svg: Svg, word: str, left: float, right: float, middle: float) -> None:
    """A number over several bars, if all of them together are as wide."""
    width, centre = width_of(word, 9), (left + right - 6) / 2
    if width + 8 <= right - left:
        x = centre - width / 2 - 1
        svg.add("rect", x=x, y=middle - 4.5, width=width + 2, height=9, fill="#ffffff", fill_opacity=0.85)
        svg.text(centre, middle + 3.2, word, 9, text_anchor="middle")


# ------------------------------------------------------------------------ the lanes


@dataclass
class Row:
    """What one lane of the picture shows: a job or a node alone, or several one after another."""

    name: str
    labels: str
    last_word: str
    lanes: List[Lane]
    is_shared: bool = False

    def add(self, svg: Svg, frame: Frame, middle: float) -> None:
        svg.text(12, middle + 4, self.name)
        svg.text(frame.left - 10, middle + 4, self.labels, 11, FAINT, text_anchor="end")
        for lane in self.lanes:
            (add_shared if self.is_shared else add_lane)(svg, frame, lane, middle)
        svg.text(frame.right + 14, middle + 4, self.last_word, 11)


def row_of(lane: Lane) -> Row:
    name = f"{lane.word} {cut(lane.name, 26)}"
    return Row(name, cut(" ".join(lane.labels), 22), lane.last_word(), [lane])


GAP = 10  # the pixels between two that share a lane, at least: a mark is as wide


def shared_rows(frame: Frame, name: str, lanes: Sequence[Lane]) -> List[Row]:
    """As few rows as these need, in the order in which they begin."""
    begun = sorted(lanes, key=begin_of)
    rows: List[Row] = []
    for lane in begun:
        start = frame.x(begin_of(lane)) - GAP
        free = (row for row in rows if frame.x(row.lanes[-1].spans[-1].end) <= start)
        row = next(free, None)
        if row is None:
            row = Row("" if rows else name, "", "", [], True)
            rows.append(row)
        row.lanes.append(lane)
    return rows


def begin_of(lane: Lane) -> int:
    """Where a job asks for nodes, or a node is made."""
    return next((span.start for span in lane.spans if span.state != "new"), lane.spans[0].end)


@dataclass
class Section:
    """The lanes of the jobs, or those of the nodes, and what is said of those left out."""

    head: str
    rows: Sequence[Row]
    note: str

    def height(self) -> int:
        return HEAD + LANE * (len(self.rows) + (1 if self.note else 0))

    def add_bands(self, svg: Svg, frame: Frame, top: float) -> None:
        svg.text(12, top + 16, self.head, 13, font_weight="bold")
        for place in range(0, len(self.rows), 2):
            y, width = top + HEAD + LANE * place, frame.right - frame.left
            svg.add("rect", x=frame.left, y=y, width=width, height=LANE, fill=BAND)

    def add_lanes(self, svg: Svg, frame: Frame, top: float) -> None:
        for place, row in enumerate(self.rows):
            row.add(svg, frame, top + HEAD + LANE * (place + 0.5))
        if self.note:
            y = top + HEAD + LANE * (len(self.rows) + 0.5) + 4
            svg.text(12, y, self.note, font_style="italic")


OWN_LANES = 80  # the most jobs and nodes that have a lane each


def rows_of(frame: Frame, run: Run, chosen: Chosen) -> Tuple[List[Row], List[Row]]:
    """The rows of the jobs and of the nodes: one for each, or shared ones if they are many."""
    if len(chosen.jobs) + len(chosen.nodes) <= OWN_LANES:
        return [row_of(job) for job in chosen.jobs], [row_of(node) for node in chosen.nodes]
    jobs: List[Row] = []
    for word, name in run.requesters.items():
        own = [job for job in chosen.jobs if job.requester == word and len(job.spans) > 1]
        jobs += shared_rows(frame, f"{word} {cut(name, 26)}", own)
    nodes: List[Row] = []
    for word, pool in run.pools.items():
        made = [node for node in chosen.nodes if node.pool == word]
        nodes += shared_rows(frame, f"{word} {cut(pool.name, 26)}", made)
    return jobs, nodes


def sections_of(frame: Frame, run: Run, chosen: Chosen, lanes: int) -> Tuple[Section, Section]:
    """As many lanes as are allowed, half of them for each kind where both have more."""
    jobs, nodes = rows_of(frame, run, chosen)
    job_lanes = min(len(jobs), max(lanes // 2, lanes - len(nodes), 1))
    node_lanes = min(len(nodes), max(lanes - job_lanes, 1))
    return (
        Section("Jobs", jobs[:job_lanes], note_of(chosen.jobs, jobs[:job_lanes])),
        Section("Nodes", nodes[:node_lanes], note_of(chosen.nodes, nodes[:node_lanes])),
    )


def note_of(lanes: Sequence[Lane], rows: Sequence[Row]) -> str:
    """What is not drawn of these."""
    shown = {lane.word for row in rows for lane in row.lanes}
    rest = [lane for lane in lanes if lane.word not in shown]
    new = sum(1 for lane in rest if len(lane.spans) == 1 and lane.spans[0].state == "new")
    parts = [f"{len(rest) - new:,} more left out"] if len(rest) > new else []
    parts += [f"{new:,} that never asked for nodes"] if new else []
    return ", ".join(parts) if lanes else "none"


# ------------------------------------------------------------------------ what is used

USE_LANE = 34
USE_HEIGHT = 26
UNITS = {"servers": "servers", "cores": "cores", "ram": "MiB", "handles": "handles"}


@dataclass
class UseSection:
    """Lanes that show how much of something is used."""

    head: str
    uses: Sequence[Use]

    def height(self) -> int:
        return HEAD + USE_LANE * len(self.uses) if self.uses else 0

    def add(self, svg: Svg, frame: Frame, top: float) -> None:
        if self.uses:
            svg.text(12, top + 16, self.head, 13, font_weight="bold")
        for place, use in enumerate(self.uses):
            add_use(svg, frame, use, top + HEAD + USE_LANE * place)


def add_use(svg: Svg, frame: Frame, use: Use, top: float) -> None:
    """An area whose height is what was used, under a line at the limit."""
    bottom, peak = top + USE_HEIGHT, use.peak(frame.first, frame.last)
    height = max(peak if use.most is None else use.most, 1)
    limit = "" if use.most is None else f" of {use.most:,}"
    said = f"at most {peak:,}{limit} {UNITS[use.part]}"
    svg.text(12, bottom - 8, f"{use.word} {cut(use.name, 26)}")
    svg.text(frame.left - 10, bottom - 8, UNITS[use.part], 11, FAINT, text_anchor="end")
    svg.add("rect", x=frame.left, y=top, width=frame.right - frame.left, height=USE_HEIGHT, fill=BAND)
    path = use_path(frame, use, bottom, USE_HEIGHT / height)
    svg.add("path", title=f"{use.word} {use.name}: {said}", d=path, fill=SKY, stroke=BLUE, stroke_width=0.8)
    if use.most is not None:
        svg.line(frame.left, top, frame.right, top, stroke=VERMILION, stroke_width=0.8)
    svg.text(frame.right + 14, bottom - 8, said, 11)


def use_path(frame: Frame, use: Use, bottom: float, scale: float) -> str:
    """The outline of the area. Of several steps within a pixel it goes up to the greatest."""
    columns: Dict[int, int] = {}
    used = after = 0
    for at, after in use.between(frame.first, frame.last):
        column = int(frame.x(at))
        columns[column] = max(columns.get(column, used), after)
        columns[column + 1] = used = after
    path = f"M{plain(frame.left)} {plain(bottom)}"
    for column, height in columns.items():
        path += f"H{plain(max(float(column), frame.left))}V{plain(bottom - height * scale)}"
    return path + f"H{plain(frame.right)}V{plain(bottom)}Z"


# ------------------------------------------------------------------------ the picture


def frame_of(run: Run, chosen: Chosen, selection: Selection) -> Frame:
    """The entries stand between the lanes' names and their last words."""
    lanes: List[Lane] = [*chosen.jobs, *chosen.nodes]
    names, words = [110.0], [150.0]
    if len(lanes) <= OWN_LANES:
        rows = [row_of(lane) for lane in lanes]
        names += [width_of(row.name) + width_of(row.labels, 11) + 40 for row in rows]
        words += [width_of(row.last_word, 11) + 24 for row in rows]
    else:
        titles = [*run.requesters.values(), *(pool.name for pool in run.pools.values())]
        names += [width_of("p00 " + cut(title, 26)) + 40 for title in titles]
    for use in [*chosen.pools, *chosen.tenants, *chosen.semaphores]:
        names.append(width_of(f"{use.word} {cut(use.name, 26)}") + width_of(UNITS[use.part], 11) + 40)
        said = f"at most {use.peak(selection.first, selection.last):,} of {use.most or 0:,} handles"
        words.append(width_of(said, 11) + 24)
    left, margin = max(names), max(words)
    wanted = ENTRY_WIDTH * (selection.last + 1.0 - selection.first)
    right = left + max(480.0, min(wanted, WIDTH - left - margin))
    return Frame(left, right, round(right + margin), selection.first, selection.last)


def rows_of_marks(frame: Frame, losses: Sequence[Loss]) -> List[Optional[int]]:
    """For each mark the row of its text: below every text that its line would cross, if there is a row."""
    ends = [0.0] * MARK_ROWS
    rows: List[Optional[int]] = []
    for loss in losses:
        x = frame.x(loss.at)
        row = max((k + 1 for k in range(MARK_ROWS) if ends[k] > x - 4), default=0)
        rows.append(row if row < MARK_ROWS else None)
        if row < MARK_ROWS:
            ends[row] = x + width_of(str(loss), 11) + 8
    return rows


def add_loss(svg: Svg, loss: Loss, x: float, row: Optional[int], top: float, bottom: float) -> None:
    """A line with its text in this row; a line without a text is faint."""
    title = f"{loss}, entry {loss.at}"
    if row is None:
        svg.line(x, top, x, bottom, title, **LOSS_LINES[loss.event], stroke_opacity=0.25)
    else:
        svg.line(x, top + MARK_ROW * row, x, bottom, title, **LOSS_LINES[loss.event])
        svg.text(x + 4, top + MARK_ROW * row + 10, str(loss), 11)


def mark_rows(rows: Sequence[Optional[int]]) -> int:
    return max((row + 1 for row in rows if row is not None), default=0)


def add_ticks(
    svg: Svg, frame: Frame, ticks: Sequence[Tuple[int, int]], top: float, bottom: float
) -> None:
    """A light line for each tick of time, or for every so many, numbered where there is room."""
    if not ticks:
        return
    step = round_step(len(ticks) * 6 / (frame.right - frame.left))
    label = "time in ticks" if step == 1 else f"time, each {step:,} ticks"
    svg.text(frame.left - 10, top + 11, label, 11, FAINT, text_anchor="end")
    free_from = frame.left
    for tick, at in ticks:
        if tick % step == 0:
            x, half = frame.x(at), width_of(str(tick), 10) / 2 + 3
            svg.line(x, top + 14, x, bottom, stroke=GRID)
            if x - half >= free_from:
                svg.text(x, top + 11, str(tick), 10, FAINT, text_anchor="middle")
                free_from = x + half


def add_axis(svg: Svg, frame: Frame, y: float) -> None:
    svg.line(frame.left, y, frame.right, y, stroke=INK)
    step = round_step((frame.last + 1 - frame.first) * 50 / (frame.right - frame.left))
    for entry in range(-(-frame.first // step) * step, frame.last + 1, step):
        svg.line(frame.x(entry), y, frame.x(entry), y + 5, stroke=INK)
        svg.text(frame.x(entry), y + 17, f"{entry:,}", 11, text_anchor="middle")
    svg.text((frame.left + frame.right) / 2, y + 34, "entry of the journal", text_anchor="middle")


class Legend:
    """Rows of small samples with their words, broken where the picture ends."""

    def __init__(self, svg: Svg, y: float, width: float) -> None:
        self.svg, self.x, self.y, self.width = svg, 12.0, y, width

    def head(self, text: str) -> None:
        if self.x > 12:
            self.y += 22
        self.svg.text(12, self.y + 4, text, font_weight="bold")
        self.x = 70.0

    def place(self, word: str) -> Tuple[float, float]:
        """Adds the word, and gives the middle of the sample before it, which is 24 wide."""
        need = 32 + width_of(word) + 16
        if self.x + need > self.width:
            self.x, self.y = 70.0, self.y + 22
        self.svg.text(self.x + 32, self.y + 4, word)
        self.x += need
        return self.x - need + 12, self.y

    def bar(self, state: str, word: str, height: float = BAR_HEIGHT) -> None:
        x, y = self.place(word)
        add_bar(self.svg, state, x - 12, 24.0, y, height)


def add_legend(svg: Svg, y: float, width: float) -> float:
    legend = Legend(svg, y, width)
    legend.head("Jobs")
    legend.bar("new", "new", THIN)
    for state in JOB_STATES[1:]:
        legend.bar(state, "using its nodes" if state == "using" else state)
    for ending in ENDINGS:
        x, middle = legend.place(ending)
        add_ending(svg, ending, x, middle)
    legend.head("Nodes")
    for state in NODE_STATES:
        legend.bar(state, state)
        if state == "building":
            x, middle = legend.place("launch")
            add_bar(svg, "building", x - 12, 24.0, middle, BAR_HEIGHT)
            add_bar(svg, "launch", x - 12, 24.0, middle, THIN)
            x, middle = legend.place("launch failed")
            add_cross(svg, x, middle, 3.5, BLACK, 1.6)
    legend.bar("ready", "thin: given to no request", THIN)
    legend.head("Use")
    x, y = legend.place("what is used")
    svg.add("rect", x=x - 12, y=y - 4, width=24, height=11, fill=SKY, stroke=BLUE, stroke_width=0.8)
    x, y = legend.place("its limit")
    svg.line(x - 12, y, x + 12, y, stroke=VERMILION, stroke_width=0.8)
    legend.head("Marks")
    for event, word in (("expire", "session expired"), ("crash", "session crashed")):
        x, middle = legend.place(word)
        svg.line(x, middle - 8, x, middle + 8, **LOSS_LINES[event])
    x, middle = legend.place("tick of time")
    svg.line(x, middle - 8, x, middle + 8, stroke=GRID)
    return legend.y + 20


def heading_of(run: Run) -> str:
    sizes = (
        count_of(len(run.jobs), "job", "jobs"),
        count_of(len(run.nodes), "node", "nodes"),
        count_of(run.entries, "entry", "entries"),
        count_of(len(run.ticks), "tick", "ticks"),
    )
    return ", ".join(sizes)


def faint_note(rows: Sequence[Optional[int]]) -> str:
    hidden = rows.count(None)
    return f"; expiries and crashes drawn faintly, without names: {hidden:,}" if hidden else ""


def part_note(run: Run, frame: Frame) -> str:
    if (frame.first, frame.last) == (0, run.entries):
        return ""
    return f"; entries {frame.first:,} to {frame.last:,} of these"


def draw(run: Run, selection: Selection, lanes: int) -> str:
    """The SVG picture of what is selected of a run, with this many lanes at most."""
    chosen = chosen_of(run, selection)
    frame = frame_of(run, chosen, selection)
    sections = sections_of(frame, run, chosen, lanes)
    uses = (
        UseSection("Pools", chosen.pools),
        UseSection("Tenants", chosen.tenants),
        UseSection("Semaphores", chosen.semaphores),
    )
    losses = [loss for loss in run.losses if frame.has(loss.at)]
    ticks = [(tick, at) for tick, at in enumerate(run.ticks, 1) if frame.has(at)]
    rows = rows_of_marks(frame, losses)
    marks_top = 54.0
    ticks_top = marks_top + MARK_ROW * mark_rows(rows)
    tops = [ticks_top + (18 if ticks else 0)]
    for section in (*sections, *uses):
        tops.append(tops[-1] + (section.height() + 10 if section.height() else 0))
    bottom = tops[-1] - 4
    svg = Svg()
    add_patterns(svg)
    svg.add("rect", width="100%", height="100%", fill="#ffffff")
    svg.text(12, 24, "A run of poolsim", 16, font_weight="bold")
    svg.text(12, 42, heading_of(run) + part_note(run, frame) + faint_note(rows), 12, FAINT)
    for section, top in zip(sections, tops):
        section.add_bands(svg, frame, top)
    add_ticks(svg, frame, ticks, ticks_top, bottom)
    for section, top in zip(sections, tops):
        section.add_lanes(svg, frame, top)
    for use_section, top in zip(uses, tops[len(sections) :]):
        use_section.add(svg, frame, top)
    for loss, row in zip(losses, rows):
        add_loss(svg, loss, frame.x(loss.at), row, ticks_top if row is None else marks_top, bottom)
    add_axis(svg, frame, bottom)
    height = add_legend(svg, bottom + 60, frame.width)
    return svg.picture(frame.width, height, f"A run of poolsim: {heading_of(run)}")


# ---------------------------------------------------------------------- the command


class WrongOption(Exception):
    """What is wrong with an option."""


class Options(argparse.ArgumentParser):
    """A parser that says what is wrong in one line."""

    def error(self, message: str) -> NoReturn:
        raise WrongOption(message)


MOST_LANES = 10_000


def lanes_of(text: str) -> int:
    if not re.fullmatch("[0-9]{1,5}", text) or not 2 <= int(text) <= MOST_LANES:
        raise argparse.ArgumentTypeError(f"expected a number from 2 to {MOST_LANES:,}, found {text!r}")
    return int(text)


def entries_of(text: str) -> Tuple[int, Optional[int]]:
    """The entries `A-B`, or those from `A-` on."""
    match = re.fullmatch("([0-9]{1,9})-([0-9]{1,9})?", text)
    if not match or (match[2] and int(match[2]) < int(match[1])):
        raise argparse.ArgumentTypeError(f"expected A-B with A at most B, or A-, found {text!r}")
    return int(match[1]), int(match[2]) if match[2] else None


def options_of(words: Optional[Sequence[str]]) -> argparse.Namespace:
    parser = Options(description="Draw a run of poolsim as an SVG picture.")
    parser.add_argument("text", nargs="?", help="a file with what poolsim printed; standard input if absent")
    parser.add_argument("-o", "--output", help="the file for the picture; standard output if absent")
    for kind, example in (("job", "j0 or check/unit"), ("requester", "q0 or check"), ("pool", "p0 or cloud/main")):
        parser.add_argument(f"--{kind}", action="append", default=[], help=f"draw this {kind} alone: {example}")
    parser.add_argument("--entries", type=entries_of, default=(0, None), metavar="A-B", help="draw these entries alone")
    parser.add_argument("--lanes", type=lanes_of, default=200, help="the most lanes of jobs and nodes (200)")
    return parser.parse_args(words)


def named(kind: str, asked: Sequence[str], names: Dict[str, str]) -> Set[str]:
    """The words of what is named, by the words or by the names."""
    found = {text: {word for word, name in names.items() if text in (word, name)} for text in asked}
    for text, words in found.items():
        if not words:
            raise WrongOption(f"argument --{kind}: there is no {kind} {text!r}")
    return set().union(*found.values())


def selection_of(run: Run, options: argparse.Namespace) -> Selection:
    first, last = options.entries
    if max(first, last or 0) > run.entries:
        raise WrongOption(f"argument --entries: the journal has {count_of(run.entries, 'entry', 'entries')}")
    return Selection(
        named("job", options.job, {word: job.name for word, job in run.jobs.items()}),
        named("requester", options.requester, run.requesters),
        named("pool", options.pool, {word: pool.name for word, pool in run.pools.items()}),
        first,
        run.entries if last is None else last,
    )


def picture_of(options: argparse.Namespace) -> bytes:
    if options.text:
        with open(options.text, "rb") as source:
            raw = source.read()
    else:
        raw = sys.stdin.buffer.read()
    run = read_run(read_text(raw))
    return draw(run, selection_of(run, options), options.lanes).encode("utf-8")


def main(words: Optional[Sequence[str]] = None) -> int:
    try:
        options = options_of(words)
        picture = picture_of(options)
        if options.output:
            with open(options.output, "wb") as sink:
                sink.write(picture)
        else:
            sys.stdout.buffer.write(picture)
    except WrongOption as fault:
        print(f"timeline.py: {fault}", file=sys.stderr)
        return 2
    except (Fault, OSError) as fault:
        print(f"timeline.py: {fault}", file=sys.stderr)
        return 1
    return 0


if __name__ == "__main__":
    sys.exit(main())
