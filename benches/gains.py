"""Compares the ways to a short schedule on generated instances, as tables.

`gains`: by how many per cent the makespan of each way is above the greater of both lower bounds, in the mean over many
instances with 4 resources; by how many it is below that of the rule `lft`; and the instructions of a whole run, in
millions, in the mean over the first three. `rounds`: the instructions of a round of descent from the list by number,
against those of so many whole serial schedules on a line as there are activities, which is what it would take to try
each exchange by a schedule of its own. Where a descent ends by itself, its last round is one that finds nothing.

usage: python3 benches/gains.py [TABLE..] [COUNT]      (COUNT instances of each size, 20 if not given; builds the
                                                       programs; needs valgrind)
"""
import pathlib
import re
import sys
import tempfile

from instances import instance
from measure import bench, head, instructions, printed, rcpsp, row

SIZES = (30, 60, 120)
WAYS = (
    ("`schedule`", "schedule"),
    ("`schedule --rule lft`", "schedule --rule lft"),
    ("`parallel --rule lft`", "parallel --rule lft"),
    ("`schedule --rule lft --improve`", "schedule --rule lft --improve"),
    ("`schedule --rule lft --descend 100`", "schedule --rule lft --descend 100"),
    ("both `--descend 100` and `--improve`", "schedule --rule lft --descend 100 --improve"),
    ("`sample`, which tries 100", "sample"),
    ("`sample --improve`", "sample --improve"),
    ("`sample --count 10000`", "sample --count 10000"),
)
COUNTED = 3


def number(name, text):
    """The number after a word at the beginning of a line."""
    return int(re.search(rf"^{name} (\d+)$", text, re.M).group(1))


def command(words, path):
    """A run of one worker, so that its instructions are the same each time."""
    name, *options = words.split()
    workers = ["--workers", 1] if name != "parallel" else []
    return [program, name, path, *options, *workers]


def makespans(path, activities, count):
    """The lower bound of each instance, its makespan by each way, and the mean of the instructions of each way."""
    bounds, found, counted = [], [], []
    for seed in range(count):
        path.write_text(instance(activities, 4, 10, seed=seed))
        windows = printed([program, "windows", path])
        bounds.append(max(number("critical", windows), number("capacity", windows)))
        found.append([number("makespan", printed(command(words, path))) for _, words in WAYS])
        if seed < COUNTED:
            counted.append([instructions(command(words, path)) for _, words in WAYS])
    return bounds, found, [sum(column) / len(counted) for column in zip(*counted)]


def mean(numbers):
    numbers = list(numbers)
    return sum(numbers) / len(numbers)


def gains_table(path, count):
    sizes = [makespans(path, activities, count) for activities in SIZES]
    head("way", *(f"above the bound, {n}" for n in SIZES), *(f"below `lft`, {n}" for n in SIZES),
         *(f"million instructions, {n}" for n in SIZES))
    by_rule = [words for _, words in WAYS].index("schedule --rule lft")
    for which, (told, _) in enumerate(WAYS):
        above = [mean(100 * (of[which] - bound) / bound for bound, of in zip(bounds, found))
                 for bounds, found, _ in sizes]
        below = [mean(100 * (of[by_rule] - of[which]) / of[by_rule] for of in found) for _, found, _ in sizes]
        taken = [f"{counted[which] / 1e6:,.2f}" for _, _, counted in sizes]
        row(told, *(f"{share:.1f}" for share in above + below), *taken)


def rounds_of(bench_program, path, most):
    """How many rounds a descent takes, the last one included that finds nothing shorter."""
    def makespan(rounds):
        return int(printed([bench_program, "descend", rounds, path]))
    rounds, least = 0, makespan(most)
    while makespan(rounds) > least:
        rounds += 1
    return min(rounds + 1, most)


def rounds_table(path, _):
    bench_program = bench("scheme_bench", "line", "1", "data/e1.rcp")
    head("activities", "resources", "rounds", "thousand instructions of a round", "n serial schedules", "ratio")
    for activities, resources, most in ((30, 4, 100), (60, 4, 100), (120, 4, 100), (998, 16, 8)):
        path.write_text(instance(activities, resources, 10))
        rounds = rounds_of(bench_program, path, most)
        none, all_of = (instructions([bench_program, "descend", times, path]) for times in (0, rounds))
        one, two = (instructions([bench_program, "line", times, path]) for times in (1, 2))
        taken, whole = (all_of - none) / rounds, (activities + 2) * (two - one)
        row(f"{activities + 2:,}", str(resources), str(rounds), f"{taken / 1000:,.0f}", f"{whole / 1000:,.0f}",
            f"{taken / whole:.2f}")


TABLES = {"gains": gains_table, "rounds": rounds_table}
numbers = [int(word) for word in sys.argv[1:] if word.isdigit()]
program = rcpsp()
with tempfile.TemporaryDirectory() as folder:
    for table in [word for word in sys.argv[1:] if word in TABLES] or TABLES:
        TABLES[table](pathlib.Path(folder) / "i.rcp", (numbers or [20])[0])
