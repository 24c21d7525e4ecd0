"""Reads a wrong body: a file of crates/NAME/must-fail or crates/NAME/wrong-bodies, as `rt must-fail` reads it.

In wrong-bodies alone a `file:` line may begin with `../OTHER/`: the edit then changes a definition of another crate, and a
law of NAME refuses that.
"""

import os
import re

PLACE = re.compile(r"(\.\./\w+/)?(src|specs|proofs)/.+")


def edited(file):
    """The texts of the files that the edit changes, by their paths from the top on; or why it can't be applied.

    One of the two is None. The reason begins with a colon, and with the number of the line that no longer stands.
    """
    if not file.endswith(".edit"):
        return None, ": its name doesn't end in .edit"
    crate, kind = "/".join(file.split("/")[:2]), file.split("/")[2]
    path, old, texts, before = None, None, {}, {}
    with open(file, encoding="utf-8") as edit:
        lines = edit.read().split("\n")
    for number, line in enumerate(lines, 1):
        if line.startswith("file: "):
            name, old = line[len("file: ") :].strip(), None
            place = PLACE.fullmatch(name)
            if not place or os.path.normpath(name) != name or (place[1] and kind != "wrong-bodies"):
                return None, f":{number}: names no file below src/, specs/ or proofs/ that it may change: {name}"
            path = os.path.normpath(f"{crate}/{name}")
            if not os.path.isfile(path):
                return None, f":{number}: there is no file {path}"
            with open(path, encoding="utf-8") as source:
                before[path] = source.read()
            texts.setdefault(path, before[path])
        elif line.startswith("old: "):
            old = line[len("old: ") :]
            count = texts.get(path, "").count(old)
            if count != 1:
                return None, f":{number}: stands {count} times in {path}, and not once: {old}"
        elif line.startswith("new:"):
            if not old:
                return None, f":{number}: has no `old:` line before it"
            texts[path] = texts[path].replace(old, line[len("new:") :].removeprefix(" "))
            old = None
    if old or texts == before:
        return None, ": changes nothing" if not old else ": has an `old:` line with no `new:` line"
    return texts, None


def is_of_another(file):
    """Whether it changes another crate."""
    with open(file, encoding="utf-8", errors="replace") as edit:
        return any(line.startswith("file: ../") for line in edit)
