"""The wrong bodies of a crate, as they are written.

Those that the gate tries are files of must-fail/, each with its name. Those that it does not try stand in one
file, wrong-bodies.txt: an edit a paragraph, with its name on top. An edit has lines `file: PATH`, `old: TEXT` and
`new: TEXT`, one line each: TEXT occurs once in that file, as the pairs before it leave it. A line `# clause: NAME ..` says which
clauses of the function's contract must refuse it, and other lines that begin with `#` are comments.
"""
import collections
import glob
import os

from toolchain import TOP

# A wrong body: its name, its pairs as (file, old text, new text), and the clauses that it names.
WrittenEdit = collections.namedtuple("WrittenEdit", "name pairs clauses")

CLAUSE = "# clause: "
WRONG_BODIES = "wrong-bodies.txt"


def written(name, lines):
    """A wrong body of a name, by its lines."""
    file, old, pairs, clauses = "", None, [], ()
    for line in lines:
        if line.startswith(CLAUSE):
            clauses = tuple(line[len(CLAUSE) :].split())
        elif line.startswith("file: "):
            file = line[len("file: ") :].strip()
        elif line.startswith("old: "):
            old = line[len("old: ") :]
        elif line.startswith("new:"):
            pairs.append((file, old, line[len("new:") :].removeprefix(" ")))
    return WrittenEdit(name, pairs, clauses)


def must_fail(crate, top=TOP):
    """The wrong bodies of a crate that the gate tries."""
    found = []
    for path in sorted(glob.glob(f"{top}/crates/{crate}/must-fail/*.edit")):
        with open(path, encoding="utf-8") as it:
            found.append(written(os.path.basename(path), it.read().split("\n")))
    return found


def wrong_bodies(crate, top=TOP):
    """The other wrong bodies of a crate."""
    path = f"{top}/crates/{crate}/{WRONG_BODIES}"
    if not os.path.exists(path):
        return []
    with open(path, encoding="utf-8") as it:
        paragraphs = [some.split("\n") for some in it.read().strip("\n").split("\n\n")]
    return [written(f"{name}.edit", lines) for name, *lines in paragraphs]


def misfit(edit, folder):
    """Why a wrong body does not fit the sources of a crate's folder, or an empty text."""
    texts = {}
    for file, old, new in edit.pairs:
        if not file or not old:
            return "a new text has no file or no old one"
        if file not in texts:
            if not os.path.isfile(f"{folder}/{file}"):
                return f"there is no file {file}"
            with open(f"{folder}/{file}", encoding="utf-8") as it:
                texts[file] = it.read()
        times = texts[file].count(old)
        if times != 1:
            return f"an old text occurs {times} times in {file}"
        texts[file] = texts[file].replace(old, new)
    return "" if edit.pairs else "it changes nothing"
