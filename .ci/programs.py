"""Runs the built programs on real files and streams, and compares what they write and how they end.

No clause speaks of `main`, of real files or of real streams. So this shows that the program gives the words,
standard input, the files and both outputs to the top call, and ends with the code of its status.
"""
import os
import pathlib
import re
import subprocess
import sys
import tempfile

TOP = pathlib.Path(__file__).resolve().parent.parent
PROGRAM = TOP / "crates" / "rcpsp" / "out" / "rcpsp"
MANY = TOP / "crates" / "rcpsp_many" / "out" / "rcpsp_many"
EXAMPLES = TOP / "examples"
MOST = 4_194_304

SIX = (EXAMPLES / "e1.rcp").read_bytes()
TABLE = b"""activity   start  finish
       1       0       0
       2       0       3
       3       3       5
       4       3       5
       5       5       6
       6       6       6
makespan 6
"""
ONE = b"activity   start  finish\n       1       0       5\nmakespan 5\n"
TRIAL = b"trial 42\nactivities 3\nresources 1\ncritical 8\ncapacity 3\nmakespan 8\nstarts 8\n"
NOT_UNDERSTOOD = b"rcpsp: words not understood\n"
SWAPPED = b"""activity   start  finish
       1       0       0
       2       0       1
       3       2       5
       4       0       2
       5       1       3
       6       5       5
makespan 5
"""


class Live:
    """What standard error has of so many looks: counts that never fall, and at last that all six are booked."""

    def __init__(self, looks):
        self.looks = looks

    def __eq__(self, note):
        counts = re.findall(rb"booked (\d) of 6\n", note)
        is_whole = note == b"".join(b"booked %s of 6\n" % count for count in counts)
        return is_whole and len(counts) == self.looks + 1 and counts == sorted(counts) and counts[-1] == b"6"

    def __repr__(self):
        return f"the lines of {self.looks} looks"


# Files that stand in the folder in which the program runs.
FILES = {
    "e1.rcp": SIX,
    "e1.sm": (EXAMPLES / "e1.sm").read_bytes(),
    "e2.rcp": (EXAMPLES / "e2.rcp").read_bytes(),
    "l2.txt": (EXAMPLES / "l2.txt").read_bytes(),
    "ben.csv": (EXAMPLES / "plans" / "ben.csv").read_bytes(),
    "ring.rcp": b"2 0 1 1 2 1 1 1",
    "misfit.rcp": b"1 1 2 1 5 0",
    "full.rcp": b"1 0 5 0".ljust(MOST),
    "long.rcp": b"1 0 5 0".ljust(MOST + 1),
    "junk.rcp": bytes(range(256)),
    "a name.rcp": SIX,
    "über.rcp": SIX,
}

# A row: the words, the status, standard output, standard error, and what stands on standard input.
ROWS = [
    # Files and standard input are read as they are.
    (["schedule", "e1.rcp"], 0, TABLE, b"", b""),
    (["schedule", "e1.sm"], 0, TABLE, b"", b""),
    (["schedule", "./e1.rcp"], 0, TABLE, b"", b""),
    (["schedule", "a name.rcp"], 0, TABLE, b"", b""),
    (["schedule", "über.rcp"], 0, TABLE, b"", b""),
    (["schedule", "-", "--format", "rcp"], 0, TABLE, b"", SIX),
    (["schedule", "e1.rcp", "--list=-"], 0, TABLE, b"", b"1 2 3 4 5 6"),
    (["convert", "-", "--format=sm", "--to", "rcp"], 0, SIX, b"", FILES["e1.sm"]),
    (["check", "e1.rcp", "-"], 0, b"ok makespan 6\n", b"", b"activity,start\n1,0\n2,0\n3,3\n4,3\n5,5\n6,6\n"),
    (["schedule", "full.rcp"], 0, ONE, b"", b""),
    (["schedule", "-", "--format", "rcp"], 0, ONE, b"", FILES["full.rcp"]),
    # Workers book the schedule, a list descends, and lines tell of it.
    (["schedule", "e1.rcp", "--workers", "1"], 0, TABLE, b"", b""),
    (["schedule", "e1.rcp", "--workers=2"], 0, TABLE, b"", b""),
    (["schedule", "--workers", "64", "e1.rcp"], 0, TABLE, b"", b""),
    (["schedule", "e2.rcp", "--list", "l2.txt", "--descend", "1"], 0, SWAPPED, b"", b""),
    (["schedule", "e1.rcp", "--live", "1"], 0, TABLE, Live(1), b""),
    (["schedule", "e1.rcp", "--live", "3", "--workers", "1"], 0, TABLE, Live(3), b""),
    (["schedule", "-", "--format", "rcp", "--live=1000", "--workers=64"], 0, TABLE, Live(1000), SIX),
    (["schedule", "e2.rcp", "--list", "l2.txt", "--descend=1", "--live=2", "--workers=2"], 0, SWAPPED, Live(2), b""),
    (["schedule", "misfit.rcp", "--live", "3"], 3, b"", b"rcpsp: activity 1 needs 5 of resource 1, capacity 2\n", b""),
    (["schedule", "e1.rcp", "--workers", "0"], 2, b"", NOT_UNDERSTOOD, b""),
    (["schedule", "e1.rcp", "--workers", "65"], 2, b"", NOT_UNDERSTOOD, b""),
    (["schedule", "e1.rcp", "--live", "1001"], 2, b"", NOT_UNDERSTOOD, b""),
    (["schedule", "e1.rcp", "--descend", "0"], 2, b"", NOT_UNDERSTOOD, b""),
    (["sample", "e1.rcp", "--seed", "42", "--from", "54", "--workers", "4"], 0, TABLE + b"sample 54\n", b"", b""),
    (["sample", "-", "--format", "rcp", "--all", "--count=2"], 0, b"sample,makespan\n0,6\n1,6\n", b"", SIX),
    (["trial", "--number", "42", "--activities", "3", "--resources", "1"], 0, TRIAL, b"", b""),
    # Each refusal has its line and its status.
    (["schedule", "-", "--format", "rcp"], 1, b"", b"rcpsp: -: text ends at 0\n", b""),
    (["schedule", "junk.rcp"], 1, b"", b"rcpsp: junk.rcp: not a number at 0\n", b""),
    (["schedule", "ring.rcp"], 1, b"", b"rcpsp: cycle 1 2 1\n", b""),
    (["schedule", "misfit.rcp"], 3, b"", b"rcpsp: activity 1 needs 5 of resource 1, capacity 2\n", b""),
    (["check", "e1.rcp", "ben.csv"], 4, b"violation: resource 1 is used 3 of 2 in period 2\n", b"", b""),
    (["schedule", "none.rcp"], 5, b"", b"rcpsp: cannot read none.rcp\n", b""),
    (["schedule", ".", "--format", "rcp"], 5, b"", b"rcpsp: cannot read .\n", b""),
    (["schedule", "e1.rcp", "--list", "none"], 5, b"", b"rcpsp: cannot read none\n", b""),
    (["schedule", "long.rcp"], 8, b"", b"rcpsp: long.rcp is larger than 4194304 bytes\n", b""),
    (["schedule", "-", "--format", "rcp"], 8, b"", b"rcpsp: - is larger than 4194304 bytes\n", FILES["long.rcp"]),
    # Words that are not understood, among them none, an empty one, and one that is no UTF-8.
    ([], 2, b"", NOT_UNDERSTOOD, b""),
    ([""], 2, b"", NOT_UNDERSTOOD, b""),
    (["schedule", ""], 2, b"", NOT_UNDERSTOOD, b""),
    (["schedule", "e1.rcp", ""], 2, b"", NOT_UNDERSTOOD, b""),
    (["schedule", b"e1\xff.rcp"], 2, b"", NOT_UNDERSTOOD, b""),
    (["schedule", "e1.rcp", "--list", b"\xc0\xaf"], 2, b"", NOT_UNDERSTOOD, b""),
]

# A row of the batch program: what is done to the streams, the words, the status, standard output and standard error.
BATCHES = [
    ("nothing", ["e1.rcp", "a name.rcp"], 0, b"== e1.rcp\n" + TABLE + b"== a name.rcp\n" + TABLE, b""),
    ("nothing", ["--workers=64", *["e1.rcp"] * 100], 0, (b"== e1.rcp\n" + TABLE) * 100, b""),
    ("nothing", ["e1.sm", "junk.rcp", "full.rcp"], 1,
     b"== e1.sm\n" + TABLE + b"== junk.rcp\nrcpsp: junk.rcp: not a number at 0\n== full.rcp\n" + ONE, b""),
    ("nothing", ["misfit.rcp", "ring.rcp"], 3, b"== misfit.rcp\nrcpsp: activity 1 needs 5 of resource 1, capacity 2\n"
     b"== ring.rcp\nrcpsp: cycle 1 2 1\n", b""),
    ("nothing", ["e1.rcp", "none.rcp"], 5, b"", b"rcpsp: cannot read none.rcp\n"),
    ("nothing", ["e1.rcp", "long.rcp"], 8, b"", b"rcpsp: long.rcp is larger than 4194304 bytes\n"),
    ("nothing", [], 2, b"", NOT_UNDERSTOOD),
    ("nothing", ["-"], 2, b"", NOT_UNDERSTOOD),
    ("nothing", ["e1.rcp"] * 101, 2, b"", NOT_UNDERSTOOD),
    ("nothing", [b"e1\xff.rcp"], 2, b"", NOT_UNDERSTOOD),
    ("full output", ["e1.rcp"], 6, b"", b"rcpsp: cannot write\n"),
    ("closed output", ["none.rcp"], 5, b"", b"rcpsp: cannot read none.rcp\n"),
    ("closed note", ["none.rcp"], 5, b"", b""),
]

# A row: what is done to the streams, the words, the status, standard output and standard error.
STREAMS = [
    ("nothing", ["schedule", "e1.rcp"], 0, TABLE, b""),
    ("full output", ["schedule", "e1.rcp"], 6, b"", b"rcpsp: cannot write\n"),
    ("closed output", ["schedule", "e1.rcp"], 6, b"", b"rcpsp: cannot write\n"),
    ("closed output", ["schedule", "ring.rcp"], 1, b"", b"rcpsp: cycle 1 2 1\n"),
    ("unread output", ["schedule", "e1.rcp"], 6, b"", b"rcpsp: cannot write\n"),
    ("closed note", ["schedule", "e1.rcp"], 0, TABLE, b""),
    ("closed note", ["schedule", "ring.rcp"], 1, b"", b""),
    ("full note", ["schedule", "ring.rcp"], 1, b"", b""),
    ("full note", ["schedule", "e1.rcp", "--live", "1"], 6, TABLE, b""),
    ("full note", ["schedule", "e1.rcp", "--live", "3", "--workers", "1"], 6, TABLE, b""),
    ("full note", ["sample", "e1.rcp", "--seed", "42", "--from", "54", "--live", "2"], 6, TABLE + b"sample 54\n", b""),
    ("closed note", ["schedule", "e1.rcp", "--live", "3"], 6, TABLE, b""),
    ("unread note", ["schedule", "e1.rcp", "--live", "3"], 6, TABLE, b""),
    ("unread note", ["schedule", "e1.rcp"], 0, TABLE, b""),
    ("full output", ["schedule", "e1.rcp", "--workers", "64"], 6, b"", b"rcpsp: cannot write\n"),
    ("closed input", ["schedule", "e1.rcp"], 0, TABLE, b""),
    ("closed input", ["schedule", "-", "--format", "rcp"], 5, b"", b"rcpsp: cannot read -\n"),
]


def run(program, folder, words, given, what):
    """The status and both outputs of one run whose streams are as `what` says."""
    output, note = subprocess.PIPE, subprocess.PIPE
    closed = {"closed input": 0, "closed output": 1, "closed note": 2}.get(what)
    if what == "full output":
        output = os.open("/dev/full", os.O_WRONLY)
    if what == "full note":
        note = os.open("/dev/full", os.O_WRONLY)
    if what == "unread output":
        reader, output = os.pipe()
        os.close(reader)
    if what == "unread note":
        reader, note = os.pipe()
        os.close(reader)
    ran = subprocess.run([program, *words], cwd=folder, input=given, stdout=output, stderr=note, timeout=60,
                         preexec_fn=None if closed is None else lambda: os.close(closed))
    for stream in (output, note):
        if stream != subprocess.PIPE:
            os.close(stream)
    return ran.returncode, ran.stdout or b"", ran.stderr or b""


def main():
    subprocess.run(["./rcpsp", "schedule", "examples/e1.rcp"], cwd=TOP, stdout=subprocess.DEVNULL, check=True)
    subprocess.run(["./rcpsp_many", "examples/e1.rcp"], cwd=TOP, stdout=subprocess.DEVNULL, check=True)
    rows = [(PROGRAM, "nothing", words, given, (status, out, note)) for words, status, out, note, given in ROWS]
    rows += [(PROGRAM, what, words, b"", (status, out, note)) for what, words, status, out, note in STREAMS]
    rows += [(MANY, what, words, b"", (status, out, note)) for what, words, status, out, note in BATCHES]
    failed = 0
    with tempfile.TemporaryDirectory() as folder:
        for name, text in FILES.items():
            (pathlib.Path(folder) / name).write_bytes(text)
        for program, what, words, given, wanted in rows:
            ended = run(program, folder, words, given, what)
            if wanted != ended:
                failed += 1
                print(f"{program.name} {words}, {what} done to the streams:\nwanted {wanted}\nended  {ended}")
    print(f"program: {len(rows) - failed} passed, {failed} failed")
    sys.exit(1 if failed else 0)


main()
