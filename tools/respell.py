#!/usr/bin/env python3
"""Brings the repository's own definitions and lemmas to snake case: `rowOf-in` becomes `row_of_in`.

usage: python3 tools/respell.py        at the top, once, right after the kit's port.py

Types, facts and modules keep their camel case; functions of src/, exported names, strings, inputs and outputs
keep their names; so do the answers of a proof, which are named after its goals. Where a lemma would fall
together with a definition that its own file speaks of, it gets `_lem`.
"""

import collections
import os
import re

SIGNATURE = re.compile(r"^(\s*)((?:(?:abbrev|unfoldable|pub|record|data|instance) )*)([^\s(){}\[\];,.\":]+(?: [^\s(){}\[\];,.\":]+)*)\s+:\s")
TOKEN = re.compile(r"[^\s(){}\[\];,.\"`]+")
STRING = re.compile(r'b?"(?:[^"\\]|\\.)*"')
# lemmas that would fall together with a definition, in a file that speaks of both; slots_at: a lemma that port.py has respelled
LEMMAS = {
    "is-nan", "read-into", "new-output", "table-in", "outer-in", "edge-rows", "link-used", "is-used", "drawn-rings", "met-first",
    "polygon-count", "next-of", "rules-kept", "edge-number", "if-accepted", "state-in", "valid-cell", "free-slots",
}
RESPELLED = {"slots_at": "slots_at_lem"}
# (file, name) -> name: local names that a definition would fall together with
LOCAL = {
    ("scope/proofs/PolygonByPolygon.antt", "group_at"): "group_at_lem",
    ("scope/proofs/ByteRuns.antt", "row_count"): "row_count_lem",
}


def files(endings):
    for folder, folders, names in os.walk("crates"):
        folders[:] = sorted(f for f in folders if f != "out")
        for name in sorted(names):
            if name.endswith(endings):
                yield os.path.join(folder, name)


def read(path):
    with open(path, encoding="utf-8") as f:
        return f.read()


def snake(name):
    return re.sub(r"(?<=[a-z0-9])([A-Z])", lambda m: "_" + m.group(1).lower(), name.replace("-", "_"))


def own_names():
    """Each name that a file of specs/ or proofs/ declares, with the lines that declare it; and the names that come from the kit."""
    declared, foreign = collections.defaultdict(list), set()
    for path in files((".antt", ".rt")):
        text = read(path)
        for line in text.split("\n"):
            signature = path.endswith(".antt") and not line.strip().startswith("--") and SIGNATURE.match(line)
            if signature:
                for name in signature.group(3).split():
                    declared[name].append(line.strip())
        for use in re.finditer(r"^\s*(?:pub )?(?:ghost )?use ([\w.◌+\-'*]+?)\.\{([^}]*)\}", text, re.M):
            module = use.group(1).split(".")
            if module[0] != "Rattle" or not os.path.isdir(os.path.join("crates", module[1])):
                foreign.update(word for item in use.group(2).split(",") for word in item.split(" as "))
    return declared, {word.strip() for word in foreign}


def renamings():
    declared, foreign = own_names()
    names = dict(RESPELLED)
    for name, lines in declared.items():
        if not re.match("[a-z]", name) or name in foreign or any(re.search(r": (?:\([^)]*\) → )?tie\.", line) for line in lines):
            continue
        to = snake(name) + ("_lem" if name in LEMMAS else "")
        if to != name:
            names[name] = to
    return names


def respelled(text, names):
    return TOKEN.sub(lambda m: names.get(m.group(0), m.group(0)), text)


def outside_strings(text, names):
    parts, at = [], 0
    for string in STRING.finditer(text):
        parts += [respelled(text[at : string.start()], names), string.group(0)]
        at = string.end()
    return "".join(parts) + respelled(text[at:], names)


def main():
    names = renamings()
    declared = own_names()[0]
    for path in list(files((".antt", ".rt", ".edit"))):
        here = dict(names)
        if path.endswith(".edit"):  # port.py turns no edit: the names that it has respelled too
            here.update({word: snake(word) for word in TOKEN.findall(read(path)) if word not in declared and snake(word) in declared})
        for (end, name), to in LOCAL.items():
            if path.endswith(end):
                here[name] = to
        old = read(path)
        new = respelled(old, here) if path.endswith(".antt") else outside_strings(old, here)
        if new != old:
            with open(path, "w", encoding="utf-8") as f:
                f.write(new)
    print(f"respelled: {len(names)} names")


if __name__ == "__main__":
    main()
