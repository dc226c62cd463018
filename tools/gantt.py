#!/usr/bin/env python3
"""Draws a schedule as an SVG picture.

    ./rcpsp schedule examples/e1.rcp --as csv | tools/gantt.py examples/e1.rcp > e1.svg

Standard input is the CSV of a schedule: a header, then activity, start and finish. With a Patterson instance
(`rcpsp convert FILE --to rcp` makes one of a PSPLIB file) there is the profile of each resource below the bars, under the
line of its capacity, and the activities on a longest chain of durations are marked. `--calendar FILE` gives the changes of
capacity that the schedule was made with. Python's standard library is all that is needed.
"""
import argparse
import csv
import sys
from xml.sax.saxutils import escape

BAR, GAP, LEFT, TOP, PROFILE = 14, 4, 48, 24, 60
WIDTH = 720
PLAIN, CRITICAL, USED, CAPACITY, GRID = "#7aa6c2", "#c2574a", "#b9c7a3", "#444444", "#dddddd"


class Instance:
    """The numbers of a Patterson file, with the changes of a calendar."""

    def __init__(self, text, calendar):
        numbers = iter([int(token) for token in text.split()])
        count, resources = next(numbers), next(numbers)
        self.capacities = [[(0, next(numbers))] for _ in range(resources)]
        self.durations, self.demands, self.successors = [], [], []
        for _ in range(count):
            self.durations.append(next(numbers))
            self.demands.append([next(numbers) for _ in range(resources)])
            self.successors.append([next(numbers) - 1 for _ in range(next(numbers))])
        changes = [int(token) for token in calendar.split()][1:]
        for at in range(0, len(changes), 3):
            resource, period, capacity = changes[at:at + 3]
            self.capacities[resource - 1].append((period, capacity))

    def chains(self, neighbours):
        """For each activity the longest chain of durations that goes from it over neighbours, its own included."""
        chains = [None] * len(self.durations)
        for first in range(len(chains)):
            waiting = [first]
            while waiting:
                activity = waiting[-1]
                open_ones = [it for it in neighbours[activity] if chains[it] is None]
                waiting += open_ones
                if not open_ones:
                    waiting.pop()
                    chains[activity] = self.durations[activity] + max([chains[it] for it in neighbours[activity]], default=0)
        return chains

    def critical(self):
        """The activities on a longest chain, counted from 0."""
        predecessors = [[] for _ in self.durations]
        for activity, later in enumerate(self.successors):
            for successor in later:
                predecessors[successor].append(activity)
        through = [to + on - own for to, on, own in
                   zip(self.chains(predecessors), self.chains(self.successors), self.durations)]
        return {activity for activity, length in enumerate(through) if length == max(through) > 0}

    def capacity(self, resource, period):
        """What there is of a resource in a period."""
        return [c for begin, c in self.capacities[resource] if begin <= period][-1]


def read_schedule(text):
    """The rows of a schedule: activity, start and finish."""
    rows = list(csv.reader(text.splitlines()))
    return [tuple(int(field) for field in row[:3]) for row in rows[1:]]


def ticks(makespan):
    """Some round periods up to the makespan."""
    step = next(s * 10 ** e for e in range(9) for s in (1, 2, 5) if makespan <= 20 * s * 10 ** e)
    return range(0, makespan + 1, step)


class Drawing:
    """The lines of an SVG picture whose horizontal axis are periods."""

    def __init__(self, makespan):
        self.scale = (WIDTH - LEFT - 12) / max(makespan, 1)
        self.lines = []

    def at(self, period):
        return round(LEFT + period * self.scale, 2)

    def box(self, begin, end, y, height, colour, told=""):
        title = f"<title>{escape(told)}</title>" if told else ""
        self.lines.append(f'<rect x="{self.at(begin)}" y="{y}" width="{round((end - begin) * self.scale, 2)}" '
                          f'height="{height}" fill="{colour}">{title}</rect>')

    def stroke(self, x, y, to_x, to_y, colour):
        self.lines.append(f'<line x1="{x}" y1="{y}" x2="{to_x}" y2="{to_y}" stroke="{colour}"/>')

    def word(self, x, y, text, anchor="end"):
        self.lines.append(f'<text x="{x}" y="{y}" text-anchor="{anchor}">{escape(str(text))}</text>')

    def text(self, height):
        head = (f'<svg xmlns="http://www.w3.org/2000/svg" width="{WIDTH}" height="{height}" '
                f'font-family="sans-serif" font-size="10">')
        return "\n".join([head, f'<rect width="{WIDTH}" height="{height}" fill="white"/>', *self.lines, "</svg>", ""])


def draw_bars(drawing, rows, critical):
    """A bar for each activity that takes time, a stroke for each other; answers where the next part begins."""
    for place, (activity, start, finish) in enumerate(rows):
        y = TOP + place * (BAR + GAP)
        drawing.word(LEFT - 6, y + BAR - 4, activity)
        colour = CRITICAL if activity - 1 in critical else PLAIN
        if start < finish:
            drawing.box(start, finish, y, BAR, colour, f"activity {activity}: {start} to {finish}")
        else:
            drawing.stroke(drawing.at(start), y, drawing.at(start), y + BAR, colour)
    return TOP + len(rows) * (BAR + GAP) + GAP


def draw_profile(drawing, instance, rows, makespan, resource, y):
    """What is used of a resource in each period, under the line of its capacity."""
    used = [0] * makespan
    for activity, start, finish in rows:
        for period in range(start, finish):
            used[period] += instance.demands[activity - 1][resource]
    most = max([1, *used, *(instance.capacity(resource, period) for period in range(makespan))])
    high = lambda amount: round((PROFILE - 8) * amount / most, 2)
    begin = 0
    for period in range(1, makespan + 1):
        if period == makespan or used[period] != used[begin]:
            if used[begin]:
                drawing.box(begin, period, y + PROFILE - high(used[begin]), high(used[begin]), USED,
                            f"resource {resource + 1}: {used[begin]} used")
            begin = period
    before = None
    for period in range(makespan):
        level = y + PROFILE - high(instance.capacity(resource, period))
        drawing.stroke(drawing.at(period), level, drawing.at(period + 1), level, CAPACITY)
        if before not in (None, level):
            drawing.stroke(drawing.at(period), before, drawing.at(period), level, CAPACITY)
        before = level
    drawing.word(LEFT - 6, y + PROFILE, f"R {resource + 1}")
    return y + PROFILE + 2 * GAP


def draw(rows, instance):
    """The whole picture of a schedule."""
    makespan = max((finish for _, _, finish in rows), default=0)
    drawing = Drawing(makespan)
    resources = len(instance.capacities) if instance else 0
    below = TOP + len(rows) * (BAR + GAP) + GAP + resources * (PROFILE + 2 * GAP)
    for period in ticks(makespan):
        drawing.stroke(drawing.at(period), TOP - 4, drawing.at(period), below, GRID)
        drawing.word(drawing.at(period), TOP - 8, period, "middle")
    y = draw_bars(drawing, rows, instance.critical() if instance else set())
    for resource in range(resources):
        y = draw_profile(drawing, instance, rows, makespan, resource, y)
    return drawing.text(y + GAP)


def main():
    parser = argparse.ArgumentParser(description="Draws the CSV of a schedule, on standard input, as an SVG picture.")
    parser.add_argument("instance", nargs="?", help="the Patterson file of its instance")
    parser.add_argument("--calendar", help="the changes of capacity that it was made with")
    words = parser.parse_args()
    read = lambda name: open(name, encoding="ascii").read() if name else ""
    instance = Instance(read(words.instance), read(words.calendar)) if words.instance else None
    sys.stdout.write(draw(read_schedule(sys.stdin.read()), instance))


if __name__ == "__main__":
    main()
