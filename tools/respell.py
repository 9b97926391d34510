#!/usr/bin/env python3
"""Brings this repository's own names in specs/, proofs/, contracts and edits to today's spelling: words in snake case.

usage: python3 tools/respell.py          at the top of the repository, once, after the kit's port.py
       python3 tools/respell.py clashes  names that would fall together, a line each; writes nothing

A name that begins with a small letter and has a capital inside loses it (`faultOf` becomes `fault_of`). A dash stays only
where it joins the names of two definitions (`length-flatten`), and else becomes `_` (`fields-some`, `fields_some`).
Functions, types, exported names, strings, inputs and outputs keep theirs: of a source file only the contracts, the lines
`ghost use` and comments are read. In edits also the older forms of a path and a projection are turned.
"""
import collections
import os
import re
import sys

WORD = re.compile(r"(?<![\w'\-·.])[A-Za-z_][\w']*(?:-[\w'+*≤<]+)*|(?<=\.)[a-z][\w']*(?:-[\w'+*≤<]+)*")
DECL = re.compile(r"^\s*(?:abbrev |unfoldable |pub |data |record |ruleset )*([^\s():{}=,]+(?: [^\s():{}=,]+)*?) : ", re.M)
# Words of the library that stand beside a dash in names of lemmas.
LIBRARY = set("length take drop append set get_or replicate reverse map flatten sum slice min max suc zero cond not paste ltb eqb all fold".split())
# Names that would fall together with another, or that read better otherwise.
OWN = {
    "by-letter": "by_letter_lem",
    "end-in": "end_in_lem",
    "integer-bits": "integer_bits_lem",
    "is-scalar": "is_scalar_lem",
    "number-in": "number_in_lem",
    "played-by": "played_by_lem",
    "well-formed": "is_well_formed",
    "isNegative": "is_below_zero",
}


def snake(word):
    if not re.match(r"[a-z]", word) or not re.search(r"[a-z0-9'][A-Z]", word):
        return word
    word = re.sub(r"([A-Z])([A-Z][a-z])", r"\1_\2", word)
    return re.sub(r"([a-z0-9'])([A-Z])", r"\1_\2", word).lower()


def files(endings):
    for folder, dirs, names in os.walk("crates"):
        dirs[:] = sorted(d for d in dirs if d != "out")
        for name in sorted(names):
            if name.endswith(endings):
                yield os.path.join(folder, name)


def read(path):
    with open(path, encoding="utf-8") as f:
        return f.read()


def declared():
    found = set()
    for path in files(".antt"):
        if not path.endswith("/Proof.antt"):
            for m in DECL.finditer(read(path)):
                found.update(m.group(1).split())
    return found


class Speller:
    def __init__(self):
        self.own = declared()
        self.words = {snake(n) for n in self.own if "-" not in n} | LIBRARY

    def word(self, w):
        if w in OWN:
            return OWN[w]
        if "-" in w:
            if w not in self.own and not (w.endswith("-spec") and w.count("-") >= 1):
                return "-".join(snake(p) for p in w.split("-")) if w[0].islower() else w
            parts = [snake(p) for p in w.split("-")]
            out = parts[0]
            for part in parts[1:]:
                keep = (out.split("-")[-1] in self.words and part in self.words) or not re.match(r"[a-z]", part)
                out += ("-" if keep else "_") + part
            return out
        return snake(w)

    def text(self, t):
        return WORD.sub(lambda m: self.word(m.group(0)), t)


def clauses(text, turn):
    """Turns the lines `ghost use`, the braces behind requires, ensures and ghost, and comments of a source file."""
    out, i = [], 0
    head = re.compile(r"//[^\n]*|ghost use [^;]*;|\b(?:requires|ensures|invariant)\*?(?: \w+)? \{|\bghost \w+[:=] \{")
    while True:
        m = head.search(text, i)
        if not m:
            out.append(text[i:])
            return "".join(out)
        out.append(text[i:m.start()])
        if m.group(0).endswith("{"):
            j, depth = m.end(), 1
            while depth:
                depth += {"{": 1, "}": -1}.get(text[j], 0)
                j += 1
            out.append(m.group(0) + turn(text[m.end():j]))
            i = j
        else:
            out.append(turn(m.group(0)))
            i = m.end()


def edit(text, speller):
    """An edit of a definition, a contract or a proof; one of a function's body stays."""
    lines = []
    spec = False
    for line in text.split("\n"):
        if line.startswith("file: "):
            spec = line.endswith(".antt")
        elif line.startswith(("old: ", "new: ")) and (spec or re.search(r"ensures|requires|ghost use|≡", line)):
            body = line[5:].replace("′", "'")
            body = re.sub(r"«(\w+)»", r"\1", body)
            while True:
                turned = re.sub(r"\(([\w']+(?: \.[\w']+)+)\)(?=[\s)];}]|$)", lambda m: m.group(1).replace(" .", "."), body)
                turned = re.sub(r"(?<![\w'.])([A-Za-z][\w']*(?:\.[\w']+)*) \.([a-z_])", r"\1.\2", turned)
                if turned == body:
                    break
                body = turned
            body = body.replace("⌜ ", "").replace(" ⌝", "").replace("λ r. ", "")
            line = line[:5] + speller.text(body)
        lines.append(line)
    return "\n".join(lines)


def main():
    speller = Speller()
    if sys.argv[1:] == ["clashes"]:
        for path in files(".antt"):
            came = collections.defaultdict(set)
            for m in WORD.finditer(read(path)):
                came[speller.word(m.group(0))].add(m.group(0))
            for new, old in sorted(came.items()):
                if len(old) > 1:
                    print(path, new, *sorted(old))
        by_new = collections.defaultdict(set)
        for n in speller.own:
            by_new[speller.word(n)].add(n)
        for new, old in sorted(by_new.items()):
            if len(old) > 1:
                print("declared", new, *sorted(old))
        return
    n = 0
    for path in list(files((".antt", ".rt", ".edit"))):
        old = read(path)
        if path.endswith(".antt"):
            new = speller.text(old)
        elif path.endswith(".rt"):
            new = clauses(old, speller.text)
        else:
            new = edit(old, speller)
        if new != old:
            n += 1
            with open(path, "w", encoding="utf-8") as f:
                f.write(new)
    print(f"respell: {n} files")


if __name__ == "__main__":
    main()
