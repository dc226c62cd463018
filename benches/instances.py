"""Instances that the scripts of this folder generate: the same ones from the same numbers, on every machine."""
import random


def instance(activities, resources, longest, times=1, seed=1):
    """A Patterson text with a source and a sink: each activity has up to three successors of greater number."""
    draw = random.Random(seed)
    lines = [f"{activities + 2} {resources}", " ".join(str(draw.randint(12, 24)) for _ in range(resources))]
    followed = set()
    rows = []
    for a in range(2, activities + 2):
        later = range(a + 1, min(activities + 1, a + 25) + 1)
        successors = sorted(draw.sample(later, min(draw.randint(1, 3), len(later))))
        followed.update(successors)
        demands = [draw.randint(0, 10) if draw.random() < 0.75 else 0 for _ in range(resources)]
        rows.append([draw.randint(1, longest) * times, *demands, successors or [activities + 2]])
    first = [a for a in range(2, activities + 2) if a not in followed]
    for row in [[0] + [0] * resources + [first], *rows, [0] + [0] * resources + [[]]]:
        numbers = row[:-1] + [len(row[-1])] + row[-1]
        lines.append(" ".join(map(str, numbers)))
    return "\n".join(lines) + "\n"
