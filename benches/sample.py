"""Measures one sample (keys are drawn, the list by keys is chosen and booked) and its parts, against C++. Ours is
proved, `benches/sample.cpp` is written by hand for speed and is not. Both draw the same keys, and what they print is
compared.

Counts are of callgrind, and are of twice so many rounds less so many, divided; a time is the least processor time of
several runs. Prints tables: of a sample, by size and durations, with the ratio of each figure to that of C++; of its
parts in instructions; of our cost with all durations a hundred times as long, or as many times as the limits leave; of
one whole `rcpsp schedule`; of one sample of `rcpsp sample`, where samples that cannot be the best are given up, and
where each is valued; how many samples so many workers try in a second, by the clock and of one processor's time, with
what more workers and giving up bring; and what giving up brings on ten instances of each size, in instructions. Words
after the script's name choose tables: sample parts long whole command workers gives.

usage: python3 benches/sample.py [TABLE..]       (builds the programs; needs valgrind and g++)
"""
import pathlib
import sys
import tempfile

from instances import instance
from measure import (bench, branches, compiled, compiler, head, instructions, least, machine, printed, rcpsp, row,
                     seconds)

RUNS = 7
MAX_DURATION_SUM = 65_535
MAX_SAMPLES = 1_000_000
# activities without source and sink, resources, and rounds to count
SIZES = ((30, 4, 400), (60, 4, 200), (120, 4, 100), (998, 16, 10))


def counts(words, path, rounds):
    """Instructions and mispredicted branches of one round."""
    one, two = (branches([*words, rounds * times, path]) for times in (1, 2))
    return [(b - a) / rounds for a, b in zip(one, two)]


def microseconds(both, path, rounds):
    """The time of one round of each program: their runs take turns, so that both meet the same machine."""
    least_of = [[float("inf")] * 2 for _ in both]
    for _ in range(RUNS):
        for words, times in zip(both, least_of):
            for which in (0, 1):
                times[which] = min(times[which], seconds([*words, rounds * (which + 1), path])[1])
    return [1e6 * (two - one) / rounds for one, two in least_of]


def sample_table(theirs, path):
    head("activities", "resources", "durations to", "instructions", "/ C++", "mispredicted", "/ C++",
         "microseconds", "/ C++")
    both = [program, "sample"], [theirs, "sample"]
    for longest in (10, 120):
        for activities, resources, rounds in SIZES:
            path.write_text(instance(activities, resources, longest))
            assert printed([*both[0], 50, path]) == printed([*both[1], 50, path]), "the makespans differ"
            figures = [counts(words, path, rounds) for words in both]
            many = rounds * 60 if longest == 10 or activities < 200 else rounds * 6
            for figure, taken in zip(figures, microseconds(both, path, many)):
                figure.append(taken)
            cells = [f"{ours:,.{digits}f} | {ours / other:.2f}" for ours, other, digits in zip(*figures, (0, 0, 2))]
            row(f"{activities + 2:,}", str(resources), str(longest), *cells)


def parts_table(theirs, path):
    head("activities", "keys and list", "/ C++", "booking, list by number", "/ C++", "the same on a fresh line")
    for activities, resources, rounds in SIZES:
        path.write_text(instance(activities, resources, 10))
        cells = []
        for mode in ("list", "line"):
            ours, other = (counts([words, mode], path, rounds)[0] for words in (program, theirs))
            cells.append(f"{ours:,.0f} | {ours / other:.2f}")
        cells.append(f"{counts([program, 'fresh'], path, rounds)[0]:,.0f}")
        row(f"{activities + 2:,}", *cells)


def long_table(_, path):
    head("activities", "durations to", "instructions of a sample", "durations so many times", "instructions", "ratio")
    for longest in (10, 120):
        for activities, resources, rounds in SIZES:
            text = instance(activities, resources, longest)
            times = min(100, MAX_DURATION_SUM // sum(int(line.split()[0]) for line in text.splitlines()[2:]))
            taken = []
            for factor in (1, times):
                path.write_text(instance(activities, resources, longest, factor))
                taken.append(counts([program, "sample"], path, rounds)[0])
            cells = f"{taken[0]:,.0f} | {times} | {taken[1]:,.0f} | {taken[1] / taken[0]:.2f}"
            row(f"{activities + 2:,}", str(longest), cells)


def whole_table(_, path):
    ours = rcpsp()
    head("rcpsp schedule", "thousand instructions", "milliseconds")
    for activities, resources, _ in SIZES:
        path.write_text(instance(activities, resources, 120))
        command = [ours, "schedule", path]
        taken = least(4 * RUNS, command)[1]
        count = instructions(command) / 1000
        row(f"{activities + 2:,} activities, {resources} resources", f"{count:,.0f}", f"{1000 * taken:.1f}")


def command_table(theirs, path):
    ours = rcpsp()
    head("activities", "C++", "`sample --workers 1`", "/ C++", "all valued", "/ C++")
    for activities, resources, rounds in SIZES:
        path.write_text(instance(activities, resources, 10))
        taken = []
        for words in ([theirs, "sample", rounds, path], [theirs, "sample", 2 * rounds, path],
                      [ours, "sample", path, "--workers", 1, "--count", rounds],
                      [ours, "sample", path, "--workers", 1, "--count", 2 * rounds],
                      [program, "values", rounds, path], [program, "values", 2 * rounds, path]):
            taken.append(instructions(words))
        other, best, all_of = ((two - one) / rounds for one, two in zip(taken[::2], taken[1::2]))
        row(f"{activities + 2:,}", f"{other:,.0f}", *(f"{own:,.0f} | {own / other:.2f}" for own in (best, all_of)))


def workers_table(_, path):
    head("activities", "workers", "samples a second, with giving up", "/ one worker", "a processor",
         "all valued", "/ one worker", "a processor", "giving up brings")
    for activities, resources, rounds in SIZES:
        path.write_text(instance(activities, resources, 10))
        many = min(MAX_SAMPLES, rounds * 1000)
        first = []
        for workers in (1, 2, 4):
            cells, rates = [], []
            for words in ([program, "best", many, path, workers],
                          ["taskset", "-c", f"0-{workers - 1}", program, "values", many, path]):
                by_clock, used = (many / taken for taken in least(3, words))
                rates.append(by_clock)
                first = first if workers > 1 else rates
                cells.append(f"{by_clock:,.0f} | {by_clock / first[len(rates) - 1]:.2f} | {used:,.0f}")
            row(f"{activities + 2:,}", str(workers), *cells, f"{rates[0] / rates[1]:.2f}")


def gives_table(_, path):
    head("activities", "least", "mean", "most")
    for activities, resources, rounds in SIZES[:3]:
        brings = []
        for seed in range(1, 11):
            path.write_text(instance(activities, resources, 10, seed=seed))
            best, all_of = (instructions([program, mode, 100 * rounds, path, *more])
                            - instructions([program, mode, 50 * rounds, path, *more])
                            for mode, *more in (("best", 1), ("values",)))
            brings.append(all_of / best)
        row(f"{activities + 2:,}", *(f"{of:.2f}" for of in (min(brings), sum(brings) / len(brings), max(brings))))


TABLES = {"sample": sample_table, "parts": parts_table, "long": long_table, "whole": whole_table,
          "command": command_table, "workers": workers_table, "gives": gives_table}
with tempfile.TemporaryDirectory() as folder:
    program = bench("scheme_bench", "line", "1", "data/e1.rcp")
    theirs = compiled("sample.cpp", folder)
    print(f"{machine()}; {compiler()}")
    for table in sys.argv[1:] or TABLES:
        TABLES[table](theirs, pathlib.Path(folder) / "i.rcp")
