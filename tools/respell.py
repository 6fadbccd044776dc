#!/usr/bin/env python3
"""respell.py: brings this repository's own definitions and lemmas to the spelling of today's Rattle.

tools/respell.tsv has a row for each name: how it was spelled, a tab, how it is spelled. A name that would fall together with another
(a lemma beside the definition that it speaks of) ends in _lem. It is run once, at the top, after the toolchain's port.py, and lays the files out anew: over specs/,
proofs/, src/ and must-fail/ of every crate, and over the pages, there only between backquotes. What has the new spelling stays as it is.
"""
import os
import re
import subprocess

NAME = r"[\w'-]"


def table():
    with open("tools/respell.tsv", encoding="utf-8") as rows:
        return dict(row.rstrip("\n").split("\t") for row in rows if row.strip())


def respelled(text, names):
    return re.sub(rf"(?<!{NAME}){NAME}+", lambda word: names.get(word.group(), word.group()), text)


def brought(text):
    """The names that a file brings in from the library: there they keep the library's spelling."""
    own = os.listdir("crates")
    lines = re.findall(r"\buse ([\w.]+)\.\{([^}]*)\}", text)
    return {name.strip() for path, inner in lines if path.split(".")[1:2] == [] or path.split(".")[1] not in own for name in inner.split(",")}


def crate(text, names):
    return respelled(text, {name: names[name] for name in names.keys() - brought(text)})


def pages(text, names):
    return re.sub(r"`[^`\n]+`", lambda code: respelled(code.group(), names), text)


def files(top, endings):
    for folder, inner, found in os.walk(top):
        inner[:] = sorted(name for name in inner if name != "out")
        yield from (os.path.join(folder, name) for name in sorted(found) if name.endswith(endings))


def rewrite(path, turn, names):
    with open(path, encoding="utf-8") as page:
        old = page.read()
    new = turn(old, names)
    if new != old:
        with open(path, "w", encoding="utf-8") as page:
            page.write(new)


def main():
    names = table()
    for path in files("crates", (".antt", ".rt", ".edit")):
        rewrite(path, crate, names)
    for name in sorted(os.listdir("crates")):
        subprocess.run(["rt", "fmt"], cwd=os.path.join("crates", name), check=True, stdout=subprocess.DEVNULL)
    for path in ["README.md", *files("docs", (".md",))]:
        rewrite(path, pages, names)


main()
