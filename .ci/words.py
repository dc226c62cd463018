"""Compares the options of each command in the table of the words with those of the man page and of the completion.

The table is the static list of `crates/rcpsp_words/src/table.rt`. In the man page each command has a part `.SS COMMAND ..`,
whose options stand at the beginning of a line `.B \\-\\-NAME` or `.BI \\-\\-NAME ..`. In the completion each command has a
line `COMMAND) options="--NAME .."`. The program itself refuses words for help, so these two must be right. The options of the
empty word are those of the batch program, which has a man page of its own and a function in the completion.
"""
import pathlib
import re
import sys

top = pathlib.Path(__file__).resolve().parent.parent
table = (top / "crates/rcpsp_words/src/table.rt").read_text()
manual = (top / "docs/rcpsp.1").read_text()
completion = (top / "docs/rcpsp.bash").read_text()

wanted = {}
for name, commands in re.findall(r'Entry \{\s*name: "([a-z]+)",.*?commands: &\[(.*?)\]', table, re.S):
    for command in re.findall(r'"([a-z]*)"', commands):
        wanted.setdefault(command, set()).add(name)

many = (top / "docs/rcpsp_many.1").read_text()
many_completion = completion.split("_rcpsp_many()")[1]

told = {"the man page": {}, "the completion": {}}
told["the man page"][""] = set(re.findall(r"^\.BI? \\-\\-([a-z]+)", many, re.M))
told["the completion"][""] = set(re.findall(r"--([a-z]+)", many_completion))
for part in re.split(r"^\.SS ", manual.split(".SH COMMANDS")[1].split("\n.SH ")[0], flags=re.M)[1:]:
    told["the man page"][part.split()[0]] = set(re.findall(r"^\.BI? \\-\\-([a-z]+)", part, re.M))
for command, options in re.findall(r'^ *([a-z]+)\) options="((?:--[a-z]+ ?)*)"', completion, re.M):
    told["the completion"][command] = set(re.findall(r"--([a-z]+)", options))

failed = 0
for where, found in told.items():
    for command in sorted({*wanted, *found}):
        lacking = wanted.get(command, set()) - found.get(command, set())
        extra = found.get(command, set()) - wanted.get(command, set())
        for name in sorted(lacking):
            print(f"{where} lacks --{name} of {command}")
        for name in sorted(extra):
            print(f"{where} has --{name} of {command}, which the table has not")
        failed += len(lacking) + len(extra)
first = re.search(r'compgen -W "([a-z ]+)" -- "\$word"\)\)\n    elif', completion)
if not first or {*first[1].split()} != {*wanted} - {""}:
    print("the completion has other commands than the table")
    failed += 1
print(f"words: {sum(map(len, wanted.values()))} options of {len(wanted) - 1} commands and the batch program, {failed} differences")
sys.exit(1 if failed else 0)
