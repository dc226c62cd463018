"""Writes the tables of a document anew. Below each line `<!-- SCRIPT TABLE -->` of it stands what that script of this
folder prints as that table. Words choose tables, by a script's or a table's name. The document is written after each.

usage: python3 benches/tables.py docs/SPEED.md [WORD..]
"""
import pathlib
import re
import sys

from measure import TOP, printed

MARK = re.compile(r"^<!-- (\w+) (\w+) -->\n\n((?:\|.*\n)*)", re.M)
document, chosen = pathlib.Path(sys.argv[1]), {*sys.argv[2:]}
for found in MARK.finditer(document.read_text()):
    script, table, old = found.groups()
    if chosen and not chosen & {script, table}:
        continue
    lines = printed([sys.executable, TOP / "benches" / f"{script}.py", table]).splitlines(keepends=True)
    print(script, table, *(line for line in lines[:1] if not line.startswith("|")), flush=True)
    new = "".join(line for line in lines if line.startswith("|"))
    text = document.read_text()
    head = f"<!-- {script} {table} -->\n\n"
    document.write_text(text.replace(head + old, head + new))
