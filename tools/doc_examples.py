#!/usr/bin/env python3
"""Writes the examples of a page into a folder: of each the script, and what it prints by the page.

usage: doc_examples.py PAGE FOLDER

An example is a block of code that begins with `members`, and behind it either a block with all that it prints, or
a table with a column for each mode, whose rows are the last lines that it prints; `<mode>` in the script is then
the column's mode. NAME.iq is the script, NAME.out is what it prints, NAME.end the last lines of it.
"""

import re
import sys

EXAMPLE = re.compile(r"```\n(members[^`]*)```\n(.*?)(?=```\nmembers|\n## |\Z)", re.S)
OUTPUT = re.compile(r"```\n([^`]*)```", re.S)


def columns(text):
    """The columns of the first table whose cells are code, each a list of its cells."""
    rows = []
    for line in text.split("\n"):
        if line.startswith("| `"):
            rows.append([it.strip().strip("`") for it in line.strip().strip("|").split("|")])
        elif rows and not line.startswith("|"):
            break
    return list(zip(*rows))


def examples(page):
    """The examples, each a script, the kind of what is known of its output, and that."""
    for script, behind in EXAMPLE.findall(page):
        if "<mode>" in script:
            for mode, *lines in columns(behind):
                yield script.replace("<mode>", mode), "end", "\n".join(lines) + "\n"
        else:
            yield script, "out", OUTPUT.search(behind).group(1)


def main(words):
    if len(words) != 2:
        print("usage: doc_examples.py PAGE FOLDER", file=sys.stderr)
        return 1
    page, folder = words
    for at, (script, kind, lines) in enumerate(examples(open(page, encoding="utf-8").read())):
        name = f"{folder}/page_{at + 1:02}"
        open(f"{name}.iq", "w", encoding="utf-8").write(script)
        open(f"{name}.{kind}", "w", encoding="utf-8").write(lines)
    return 0


if __name__ == "__main__":
    sys.exit(main(sys.argv[1:]))
