"""Measures the serial schedule of the list by number through a book, by one, two and four workers, against the scheme
on a line and against C++ of one thread (`benches/sample.cpp`, not proved, which books on a table of periods).

Prints tables. `counts`: the instructions of a schedule, of twice so many less so many, divided. A schedule through a
book by one worker, or on a fresh line, has its memory counted, and that of a book the line on which its starts are
found; C++ and the line hold on to theirs. `times`: the least of several runs by the clock, in microseconds, with the
threads that are started. `late`: of how many positions the search ahead
came too late, since the position was claimed before it ended; the others made their offer in time. `whole`:
one run of `rcpsp schedule`, from the words to the last byte written, against a run that reads and writes the same and
schedules on a line.

usage: python3 benches/book.py [TABLE..]       (builds the programs; needs valgrind and g++; `times`, `late` and `whole`
                                               need four free processors)
"""
import pathlib
import sys
import tempfile

from instances import instance
from measure import (bench, compiled, compiler, head, instructions, least, least_in_turns, machine, printed, rcpsp,
                     row)

RUNS = 5
WORKERS = (1, 2, 4)
# activities without source and sink, resources, and rounds to count
SIZES = ((28, 4, 50), (28, 16, 50), (118, 4, 20), (118, 16, 20), (998, 4, 3), (998, 16, 3))


def cases(path):
    """The instances of all sizes, each written to the file, with durations to 10 and to 120."""
    for longest in (10, 120):
        for activities, resources, rounds in SIZES:
            path.write_text(instance(activities, resources, longest))
            yield [f"{activities + 2:,}", str(resources), str(longest)], activities + 2, rounds


def ways(theirs, path, crews):
    """Each way to so many schedules, as a function of their number."""
    yield lambda rounds: [theirs, "line", rounds, path]
    for mode in ("line", "fresh"):
        yield lambda rounds, mode=mode: [program, mode, rounds, path]
    for workers in crews:
        yield lambda rounds, workers=workers: [program, "book", rounds, path, workers]


def of_all(measured, theirs, path, rounds, crews):
    """What each way takes for one schedule."""
    return [(measured(way(2 * rounds)) - measured(way(rounds))) / rounds for way in ways(theirs, path, crews)]


TITLES = ["activities", "resources", "durations to", "C++", "line", "fresh line"]


def counts_table(theirs, path):
    # More workers search ahead as far as they come, which is another number in each run.
    head(*TITLES, "book", "/ fresh line", "/ C++")
    for cells, _, rounds in cases(path):
        taken = of_all(instructions, theirs, path, rounds, WORKERS[:1])
        row(*cells, *(f"{figure:,.0f}" for figure in taken), f"{taken[3] / taken[2]:.2f}", f"{taken[3] / taken[0]:.2f}")


def times_table(theirs, path):
    head(*TITLES, *(f"book, {n}" for n in WORKERS), "four workers / one")
    for cells, _, rounds in cases(path):
        many = rounds * (100 if rounds > 10 else 20)
        taken = of_all(lambda words: 1e6 * least(RUNS, words)[0], theirs, path, many, WORKERS)
        row(*cells, *(f"{figure:,.1f}" for figure in taken), f"{taken[5] / taken[3]:.2f}")


def late_table(_, path):
    head("activities", "resources", "durations to", *(f"{n} workers: late" for n in WORKERS[1:]),
         *(f"{n} workers: in time" for n in WORKERS[1:]))
    for cells, positions, rounds in cases(path):
        rounds *= 20
        shares = [int(printed([program, "late", rounds, path, workers])) / (rounds * positions)
                  for workers in WORKERS[1:]]
        row(*cells, *(f"{100 * late:.1f} %" for late in shares), *(f"{100 * (1 - late):.1f} %" for late in shares))


def whole_table(_, path):
    ours = rcpsp()
    head("activities", "resources", "durations to", "on a line, thousand instructions", "`--workers 1`", "ratio",
         "on a line, milliseconds", *(f"`--workers {n}`" for n in WORKERS))
    for cells, _, _ in cases(path):
        line = [program, "table", 1, path]
        books = [[ours, "schedule", path, "--workers", workers] for workers in WORKERS]
        assert printed(line) == printed(books[0]) == printed(books[-1]), "the tables differ"
        count = [instructions(command) / 1000 for command in (line, books[0])]
        taken = [f"{1000 * time:.2f}" for time in least_in_turns(8 * RUNS, [line, *books])]
        row(*cells, *(f"{figure:,.0f}" for figure in count), f"{count[1] / count[0]:.2f}", *taken)


TABLES = {"counts": counts_table, "times": times_table, "late": late_table, "whole": whole_table}
with tempfile.TemporaryDirectory() as folder:
    program = bench("scheme_bench", "line", "1", "data/e1.rcp")
    theirs = compiled("sample.cpp", folder)
    print(f"{machine()}; {compiler()}")
    for table in sys.argv[1:] or TABLES:
        TABLES[table](theirs, pathlib.Path(folder) / "i.rcp")
