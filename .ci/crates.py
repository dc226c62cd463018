"""Compares the graph of crates in a document with crates.txt, or writes it there.

    python3 .ci/crates.py docs/ARCHITECTURE.md
    python3 .ci/crates.py --write docs/ARCHITECTURE.md

The graph is the block that is fenced by ```crates. A crate stands in the first layer above all crates of
the repository that it stands on; beside it stand these, and in brackets the crates of the kit. Each
crate must also have a row of its own in the document's table of crates, and name each crate beside it
somewhere in its code, its definitions or its proofs.
"""
import difflib
import pathlib
import re
import sys
import textwrap

TOP = pathlib.Path(__file__).resolve().parent.parent
BLOCK = re.compile(r"^```crates\n(.*?)^```$", re.M | re.S)


def crates():
    """What each crate stands on, by its name, in the order of crates.txt."""
    graph = {}
    for line in (TOP / "crates.txt").read_text().splitlines():
        head, colon, below = line.partition("#")[0].partition(":")
        if colon:
            graph[head.split()[0]] = below.split()
    return graph


def layer(name, graph):
    return 1 + max((layer(below, graph) for below in graph[name] if below in graph), default=0)


def drawn(graph):
    """The graph as text: the layers from the lowest, and in each the crates in the order of crates.txt."""
    layers = {name: layer(name, graph) for name in graph}
    width = max(map(len, graph))
    lines = []
    for number in range(1, max(layers.values()) + 1):
        lines.append(f"layer {number}")
        for name in (name for name in graph if layers[name] == number):
            own = " ".join(below for below in graph[name] if below in graph)
            kit = " ".join(below for below in graph[name] if below not in graph)
            row = f"  {name:{width}}  {own}" + (f" [{kit}]" if kit else "")
            lines += textwrap.wrap(row.rstrip(), 100, subsequent_indent=" " * (width + 4), break_on_hyphens=False)
    return "".join(line + "\n" for line in lines)


def faults(graph, text):
    """What is wrong beside the graph: a crate without a row, and one that another names in vain."""
    for name, lower in graph.items():
        if not re.search(rf"^\| `{name}` \|", text, re.M):
            yield f"{name} has no row in the table of crates"
        files = [file for file in (TOP / "crates" / name).glob("[sp]*/**/*") if file.suffix in (".rt", ".antt")]
        words = set(re.findall(r"\w+", " ".join(file.read_text() for file in files)))
        for below in lower:
            if below not in words:
                yield f"{name} stands on {below}, and does not name it"


def main():
    write = sys.argv[1] == "--write"
    document = TOP / sys.argv[-1]
    text = document.read_text()
    graph = crates()
    wanted = drawn(graph)
    found = BLOCK.search(text)
    if not found:
        sys.exit(f"{document.name}: no block that is fenced by ```crates")
    if write:
        document.write_text(text[: found.start(1)] + wanted + text[found.end(1) :])
        return
    lines = [*faults(graph, text)]
    lines += difflib.unified_diff(found[1].splitlines(), wanted.splitlines(), document.name, "crates.txt", lineterm="")
    print("\n".join([*lines, f"crates: {len(graph)} compared, {'not ' if lines else ''}as drawn"]))
    sys.exit(1 if lines else 0)


main()
