"""Times whole runs of the proved program on generated instances, and prints one line for each.

usage: python3 benches/speed.py        (builds the program)
"""
import pathlib
import random
import tempfile

from measure import least, rcpsp


def instance(activities, resources, longest, seed):
    """A Patterson text: each activity has up to three successors of greater number."""
    draw = random.Random(seed)
    lines = [f"{activities} {resources}", " ".join(str(draw.randint(10, 20)) for _ in range(resources))]
    for a in range(1, activities + 1):
        later = range(a + 1, min(activities, a + 40) + 1)
        successors = sorted(draw.sample(later, min(3, len(later))))
        numbers = [draw.randint(1, longest)] + [draw.randint(0, 10) for _ in range(resources)]
        lines.append(" ".join(map(str, numbers + [len(successors)] + successors)))
    return "\n".join(lines) + "\n"


def best(path, *words, status=0):
    """The least time of five runs, in milliseconds."""
    return 1000 * least(5, [program, "schedule", path, *words], status)[0]


def junk(size):
    """Texts of so many bytes that are no instance: their time must grow with their bytes alone."""
    head = b"jobs: 1000\n- renewable: 4\nPRECEDENCE RELATIONS:\n"
    return {
        "binary bytes": random.Random(1).randbytes(size),
        "one line of tokens": b"1 " * (size // 2),
        "one line of tokens in a section": head + b"1 " * ((size - len(head)) // 2),
        "rulers": b"*** **\n" * (size // 7),
        "lines with colons": b"jobs jobs: 1\n" * (size // 13),
    }


program = rcpsp()
with tempfile.TemporaryDirectory() as folder:
    for activities, resources, longest in [(30, 4, 10), (120, 4, 10), (120, 4, 120), (1000, 16, 10), (1000, 16, 120)]:
        path = pathlib.Path(folder) / "i.rcp"
        path.write_text(instance(activities, resources, longest, 1))
        for rule in ("number", "lft"):
            print(f"{activities:5} activities, {resources:2} resources, durations to {longest:3}, "
                  f"{rule:6}: {best(path, '--rule', rule):7.1f} ms")
    for size in (1, 2, 4):
        path = pathlib.Path(folder) / "long.rcp"
        path.write_text(instance(1000, 16, 10, 1) + " " * (size * 1_000_000))
        print(f"the same with {size} MB of white space after it: {best(path):7.1f} ms")
    for size in (1, 2, 4):
        for name, text in junk(size * 1_000_000).items():
            path = pathlib.Path(folder) / "junk.sm"
            path.write_bytes(text)
            print(f"{size} MB of {name}: {best(path, status=1):7.1f} ms")
