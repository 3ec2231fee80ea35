"""Copies of functions, each with one wrong body: so the edits of a crate are in one text, and each function beside its own.

A copy comes after its function under another name, with its contract and attributes, and so do copies of the proof files
that are the function's, with the new name for the old. Nothing calls it, and it calls what the function calls. An edit that
is made in place is in the same text, in a function that nothing calls which is proved there.
"""
import collections
import os
import re


def extent(text, start):
    """Where the attributes above a function begin, whose first line begins at a place, and where its last line ends."""
    above = start
    while above:
        before = text.rfind("\n", 0, above - 1) + 1
        if not re.match(r"\s*(#\[.*\]|///.*)\n", text[before:above]):
            break
        above = before
    indent = re.match(r"[ \t]*", text[start:])[0]
    return above, re.compile(rf"^{indent}\{{?\}}$", re.M).search(text, start).end()


class Copies:
    """What of a crate's functions can be copied, and how its edits are put into copies."""

    def __init__(self, folder, graph, blanked):
        self.graph, self.blanked, self.files, self.can = graph, blanked, {}, {}
        for part in ("specs", "proofs"):
            for at, _, names in os.walk(f"{folder}/{part}"):
                for name in names:
                    with open(f"{at}/{name}", encoding="utf-8") as it:
                        self.files[os.path.relpath(f"{at}/{name}", folder)] = it.read()

    def files_of(self, name):
        """The proof files of a function."""
        folder = f"proofs/{'/'.join(name.split('::')[1:])}/"
        return [it for it in self.files if it.startswith(folder)]

    def may_be_copied(self, name):
        """Whether a function implements no trait's and does not call itself, and no file but its own names its proof."""
        if name not in self.can:
            self.can[name] = self.stands_alone(self.graph.functions[name], name.split("::")[1:])
        return self.can[name]

    def stands_alone(self, function, path):
        # (what a trait declares has no type in its path)
        if function.stands_for or "" in path or path == ["main"]:
            return False
        text, own = self.graph.texts[function.file], path[-1]
        above, end = extent(text, function.start)
        body = self.blanked(text[function.start : end]).partition(f"fn {own}")[2]
        within = path[-2] if len(path) > 1 else "crate"
        before = rf"\b(self\.|Self::|{within}::)" if within[0].isupper() else rf"((?<![\w.:])|\b{within}::)"
        if "#[cycle" in text[above : function.start] or re.search(rf"{before}{own}(::<|\()", body):
            return False
        cited, its = f"proofs.{'.'.join(path)}", {*self.files_of(function.name)}
        return all((cited in it and bool(re.search(rf"\b{re.escape(cited)}\b", it))) == (file in its) for file, it in self.files.items())

    def in_place(self, edits, proved):
        """Those of a crate's edits that are made in place in the text that holds the copies of others: of what cannot be copied,
        and of what has proof files and no other edit, of which a copy needs one with no change beside it. What is proved
        beside an edit, by its name, calls nothing that this edit changes, directly or through others: it would rest on that."""
        number = collections.Counter(function for edit in edits for function in edit.functions)
        found = []
        for edit in edits:
            others = {it for other in edits if other is not edit for it in proved(other)}
            is_better = not self.bodies(edit) or any(map(self.files_of, edit.functions))
            may_be = all(number[it] == 1 and not re.search(r"\bconst fn\b", self.body(it)) for it in edit.functions if it)
            is_called = any(it in self.graph.reach.get(other, ()) for it in edit.functions for other in others)
            if is_better and may_be and not is_called and self.spots(edit):
                found.append(edit)
        return found

    def spots(self, edit):
        """Where an edit changes what: paths, each with the places of the old text, and the new; or none, where what it changes is
        no function and no constant of some, or pairs meet."""
        found = []
        for path, old, new in edit.pairs:
            text = self.graph.texts.get(path, "")
            if None in edit.functions or text.count(old) != 1:
                return []
            found.append((path, text.find(old), text.find(old) + len(old), new))
        meet = any(one[0] == two[0] and one[1] < two[2] and two[1] < one[2] for one in found for two in found if one is not two)
        return [] if meet else found

    def bodies(self, edit):
        """The functions that an edit changes, each with its text as it is then; or none, where one cannot be copied."""
        if None in edit.functions or not all(map(self.may_be_copied, edit.functions)):
            return {}
        found = {it: self.body(it) for it in edit.functions}
        for path, old, new in edit.pairs:
            having = [it for it, text in found.items() if self.graph.functions[it].file == path and text.count(old) == 1]
            if len(having) != 1:
                return {}
            found[having[0]] = found[having[0]].replace(old, new)
        return found

    def body(self, name):
        function = self.graph.functions[name]
        text = self.graph.texts[function.file]
        return text[function.start : extent(text, function.start)[1]]

    def beside(self, edits, in_place, unchanged):
        """The texts in which edits are, by their paths, in copies but for those that are made in place; each edit, as it
        is there; and where it is asked for, copies with no change of the functions that are copied and have proof files,
        each with the name of its function."""
        made, tried, number = Made(self), [], collections.Counter()
        for edit in edits:
            if edit in in_place:
                made.change(edit)
                tried.append(edit)
                continue
            bodies = self.bodies(edit)
            number.update(bodies.keys())
            copies = [made.copy(name, f"wrong_{number[name]}", body) for name, body in sorted(bodies.items())]
            tried.append(edit._replace(functions=frozenset(copies)))
        same = {made.copy(it, "as_it_is", self.body(it)): it for it in sorted(number) if unchanged and self.files_of(it)}
        return made.texts(), tried, same


def lacks_its_proof(line, texts):
    """Whether a refusal of a copy lacks what its proof files have, so that they were not read."""
    wanted = re.search(r"expected (.*?) in \./(\S+?\.antt)(.*)", line)
    if not wanted or wanted[2] not in texts:
        return False
    answered = {*re.findall(r"^(?:abbrev )?(?:pub )?(\S+) :", texts[wanted[2]], re.M)}
    return wanted[1] != "answers" or bool(answered & {*re.findall(r"`([^`]+)`", wanted[3])})


class Made:
    """Copies and edits that were made, and the texts that hold them."""

    def __init__(self, copies):
        self.copies, self.parts, self.proofs = copies, collections.defaultdict(list), {}

    def change(self, edit):
        """Makes an edit in place."""
        for path, start, end, new in self.copies.spots(edit):
            self.parts[path].append((start, end, new))

    def copy(self, name, end, body):
        """Puts a function with this body behind the function of a name, and gives the name of that copy."""
        function, path = self.copies.graph.functions[name], name.split("::")[1:]
        text = self.copies.graph.texts[function.file]
        above, last = extent(text, function.start)
        attributes = "".join(re.findall(r"^[ \t]*#\[.*\n", text[above : function.start], re.M))
        body = body.replace(f"fn {path[-1]}", f"fn {path[-1]}_{end}", 1)
        self.parts[function.file].append((last, last, f"\n\n{attributes}{body}"))
        for it in self.copies.files_of(name):
            folder = "/".join(["proofs", *path])
            cited = re.compile(rf"\bproofs\.{re.escape('.'.join(path))}\b")
            self.proofs[f"{folder}_{end}{it[len(folder):]}"] = cited.sub(f"proofs.{'.'.join(path)}_{end}", self.copies.files[it])
        return f"{name}_{end}"

    def texts(self):
        found = dict(self.proofs)
        for path, some in self.parts.items():
            text, at, parts = self.copies.graph.texts[path], 0, []
            for start, end, part in sorted(some, key=lambda it: it[:2]):
                parts += [text[at:start], part]
                at = end
            found[path] = "".join([*parts, text[at:]])
        return found
