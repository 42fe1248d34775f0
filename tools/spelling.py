#!/usr/bin/env python3
"""Brings the definitions and lemmas of this repository to the spelling of Rattle's own: words in snake case, a dash only between two names.

usage: tools/spelling.py [FOLDER]

Run it once, at the top, behind the kit's port.py. It goes by tools/spelling.tsv, a line 'old TAB new' for each name, with 'field' behind a record's field, and rewrites
the .rt, .antt and .edit files below crates/. A dashed name behind a dot that is no field is one that Rattle makes, and stays; so do comments,
but for names of more than one word in camel case.
"""

import os
import re
import sys

HERE = os.path.dirname(os.path.realpath(__file__))
# G, H, F and P of the paper, in the files that take them from the definition.
PAPER = {"G": "g_of", "H": "h_of", "F": "f_of", "P": "p_of", "gOf": "g_of", "hOf": "h_of"}
# Lemmas that would have the name of the definition that they are about, where both stand in one file: by crate.
LEMMAS = {
    "fields": {"field_end": "field_end_lem"},
    "places": {"front_bytes": "front_bytes_lem"},
    "decimal": {"is_digit": "is_digit_lem"},
    "lists": {"ended_by": "ended_by_lem"},
    "segments": {"handed_out": "handed_out_lem", "front_bytes": "front_bytes_lem"},
    "session": {"front_bytes": "front_bytes_lem"},
}
TOKEN = re.compile(r"[^\s(){}\[\];,.@\"«»:=→λ×≡⌜⌝`]+")
CAMEL = re.compile(r"^[a-z]\w*[A-Z]\w*$")


def table():
    with open(os.path.join(HERE, "spelling.tsv"), encoding="utf-8") as f:
        rows = [line.rstrip("\n").split("\t") for line in f]
    return {it[0]: it[1] for it in rows}, {it[0] for it in rows if it[2:] == ["field"]}


def from_outside(text, crates):
    """The names that the file takes from the library."""
    found = set()
    for module, words in re.findall(r"use ([\w.'◌-]+)\.\{([^}]*)\}", text):
        parts = module.split(".")
        if parts[0] != "Rattle" or parts[1] not in crates:
            found |= {it.strip().split(" as ")[0] for it in words.split(",")}
    return found


def takes_the_paper(path, text):
    if path.endswith("norx/specs/Norx.antt"):
        return True
    return bool(re.search(r"specs\.Norx\.\{[^}]*(?<![\w'])[GHFP](?![\w'])", text))


def respelled(line, names, fields, lemmas, paper, is_source, said):
    """The line with the new names. In a comment only camel case is turned."""
    mark = "//" if is_source else "--"
    cut = line.find(mark) if is_source else (line.find(mark) if re.match(r"^\s*--", line) else -1)
    code, comment = (line, "") if cut < 0 else (line[:cut], line[cut:])

    def turn(match):
        word, behind_dot = match[0], match.start() > 0 and match.string[match.start() - 1] == "."
        new = None
        if word in names and (CAMEL.match(word) or word in fields or not behind_dot):
            new = names[word]
        elif not is_source and not behind_dot and word in lemmas:
            new = lemmas[word]
        elif paper and not behind_dot and word in PAPER:
            new = PAPER[word]
        if new is None:
            return word
        said.setdefault(new, set()).add(word)
        return new

    code = TOKEN.sub(turn, code)
    code = re.sub(r"(?<![\w'])(\w+) as \1(?![\w'-])", r"\1", code)
    comment = TOKEN.sub(lambda m: names[m[0]] if m[0] in names and CAMEL.match(m[0]) else m[0], comment)
    return code + comment


def main(root):
    every, fields = table()
    crates = os.listdir(os.path.join(root, "crates"))
    for folder, folders, files in os.walk(os.path.join(root, "crates")):
        folders[:] = sorted(it for it in folders if it != "out")
        for file in sorted(files):
            if not file.endswith((".rt", ".antt", ".edit")):
                continue
            path = os.path.join(folder, file)
            with open(path, encoding="utf-8") as f:
                text = f.read()
            crate = os.path.relpath(path, root).split(os.sep)[1]
            said = {}
            outside = from_outside(text, crates)
            names = {old: new for old, new in every.items() if old not in outside}
            paper = takes_the_paper(path, text) or (file.endswith(".edit") and crate in ("norx", "permutation32", "permutation64"))
            lines = [respelled(it, names, fields, LEMMAS.get(crate, {}), paper, file.endswith(".rt"), said) for it in text.split("\n")]
            new = "\n".join(lines)
            for word, olds in said.items():
                if len(olds) > 1 and not olds <= set(PAPER):
                    print(f"look: {path}: {sorted(olds)} fall together as {word}")
                elif word in set(TOKEN.findall(re.sub(r"\.\w[\w'-]*", "", text))) and file.endswith(".antt"):
                    print(f"look: {path}: {sorted(olds)} becomes {word}, which stands there too")
            if new != text:
                with open(path, "w", encoding="utf-8") as f:
                    f.write(new)


if __name__ == "__main__":
    main(sys.argv[1] if len(sys.argv) > 1 else ".")
