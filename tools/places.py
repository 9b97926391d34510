#!/usr/bin/env python3
"""Lists the places of src/ that docs/DESIGN-PASS.md counts, point by point.

usage: python3 tools/places.py [-l] [FOLDER]     at the top of a checkout, or with the path of one; -l prints each place
"""
import collections
import os
import re
import sys

ROWS = []


def row(name, places):
    ROWS.append((name, list(places)))


def sources(top):
    for folder, _, names in os.walk(f"{top}/crates"):
        if "/src" in folder and "/out" not in folder:
            for name in sorted(names):
                if name.endswith(".rt"):
                    path = f"{folder}/{name}"
                    with open(path, encoding="utf-8") as file:
                        yield path[len(top) + 8 :].replace("/src/", "/"), file.read()


def at(text, index):
    return text.count("\n", 0, index) + 1


FUNCTION = re.compile(r"^( *)(?:#\[[^\n]*\]\n *)*(?:pub(?:\(crate\))? )?(?:extern \"C\" )?fn (\w+)(?:<[^>(]*>)?\((.*?)\)(?: -> ([^\n{]+?))?(?=\n| \{)", re.M | re.S)


def functions(text):
    """Each function: its name, its parameters, its result, its contract, its body, its line."""
    found = list(FUNCTION.finditer(text))
    for it in found:
        end = re.compile(rf"^{it[1]}\}}", re.M).search(text, it.end())
        body = text[it.end() : end.end() if end else len(text)]
        cut = re.search(rf"^{it[1]}\{{$|\{{$", body, re.M)
        head, code = (body[: cut.start()], body[cut.start() :]) if cut else ("", body)
        yield it[2], it[3], (it[4] or "").strip(), head, code, at(text, it.start(2))


def bare(text):
    """The text without comments, contracts' ghost imports and strings' inner text."""
    text = re.sub(r"//[^\n]*", "", text)
    return re.sub(r"^ghost use [^\n]*", "", text, flags=re.M)


def enums(text):
    for it in re.finditer(r"enum (\w+)[^{;\n]* \{\n(.*?)^\}", text, re.M | re.S):
        body = re.sub(r"//[^\n]*", "", it[2])
        cases = re.findall(r"^    (\w+)([({ ,][^\n]*)?", body, re.M)
        yield it[1], [(a, (b or "").startswith(("(", " {"))) for a, b in cases], at(text, it.start())


def structs(text):
    for it in re.finditer(r"struct (\w+)[^{;\n]* \{\n(.*?)^\}", text, re.M | re.S):
        fields = re.findall(r"^    (?:pub )?(\w+): ([^\n]+),", it[2], re.M)
        yield it[1], dict(fields), at(text, it.start())


def measure(top):
    files = [(path, bare(text)) for path, text in sources(top)]
    shaped, flagged, numbers, sentinels, chosen = [], [], [], [], []
    twins, sized, loops, copies, conversions = collections.defaultdict(list), [], [], [], []
    beside, lent, packed, steps, known = [], collections.Counter(), [], [], collections.Counter()
    lent_at, known_at = collections.defaultdict(list), collections.defaultdict(list)
    for path, text in files:
        for name, cases, line in enums(text):
            full = [a for a, b in cases if b]
            empty = [a for a, b in cases if not b]
            if name == "Answer" or len(full) == 1 and len(empty) == 1 or empty and re.search(r"None$|^No[A-Z]|Other|Nothing|Bad", empty[-1] + " " + empty[0]) and full:
                shaped.append(f"{path}:{line} enum {name}")
        for name, fields, line in structs(text):
            flags = [f for f, t in fields.items() if t == "Answer" or f in ("answer", "first", "second") or t == "bool" and f.startswith("is_") and len(fields) > 1 and name not in ("FormattingFlags", "Integer", "Parts")]
            if flags:
                flagged.append(f"{path}:{line} struct {name} ({', '.join(flags)})")
            lengths = [f for f, t in fields.items() if f in ("len", "start", "depth", "words", "text", "printed") and t in ("usize", "u64")]
            if lengths and (any(t.startswith("[") for t in fields.values()) or name in ("Parsed", "Run", "Stream", "Head")):
                beside.append(f"{path}:{line} struct {name} ({', '.join(lengths)})")
        for name, fields, line in structs(text):
            stem = re.sub(r"\d+$", "_", name)
            if stem != name:
                twins[f"{path.split('/')[0]} {stem}"].append(f"{path}:{line} struct {name}")
        for name, parameters, result, head, code, line in functions(text):
            where = f"{path}:{line} {name}"
            exported = "extern" in text[max(0, text.find(f"fn {name}(") - 30) : text.find(f"fn {name}(")]
            answers = re.search(r"\bAnswer::\w+(?:\(\))?\.number\(\)|: fault,|\.number\(\)", code)
            if result == "u8" and (answers or re.search(r"_fault|held|judge|past|first\b", name)):
                numbers.append(where + (" (exported)" if exported else ""))
            if re.search(r"\b(?:kind|word|k|t|o|form|n): (?:usize|u64|u32)\b", parameters) and len(re.findall(r"\b(?:kind|word|k|t|o|form|n) (?:==|<|<=) \d+|^\s*\d+ => ", code, re.M)) > 1:
                chosen.append(where)
            if re.search(r"\b(?:kind|word|k): (?:usize|u64)\b", parameters) and len(re.findall(r"\b(?:kind|word|k) (?:==|<) [A-Z0-9]+\b", code)) > 1:
                steps.append(where)
            if result == "usize" and re.search(r"return 0;|== 0 \{\n\s*return|^\s*0\n", code, re.M) and not exported and re.search(r"\b(?:put_|case|call|answer|written|place_of|index_of)", name):
                sentinels.append(where)
            elif name in ("index_of", "place_of"):
                sentinels.append(where)
            stem = re.sub(r"(?<![a-z])[ui](?:8|16|32|64)(?![0-9])|_\d+$", "_", name)
            if stem != name:
                twins[f"{path.split('/')[0]} {stem}"].append(where + (" (exported)" if exported else ""))
            for it in re.finditer(r"^\s*(?:let \w+ = )?(?:while |loop \{)", code, re.M):
                loops.append(f"{path}:{line + head.count(chr(10)) + at(code, it.start())} {name}")
            fields = re.findall(r"^\s+(\w+): (\w+)\.(\w+),|let (\w+) = (\w+)\.(\w+);", code, re.M)
            sources_ = collections.Counter((b or e) for a, b, c, d, e, f in fields if (a or d) == (c or f))
            if any(n > 1 for n in sources_.values()):
                copies.append(where)
            if re.search(r"^(?:same|min_usize|bit|unsigned_abs_\w+|bits_\w+|\w+_number|num_fmt_of|hex_fmt_of|kind_of|held_of|width_at|to_integer_\w+|is_done|number|flags_of)$", name):
                conversions.append(where)
            names = [re.sub(r"\s+", " ", p.strip()) for p in parameters.replace("&mut self", "").split(",") if ":" in p]
            groups = [("buf: &mut [u8], at: usize", ("buf: &mut [u8]", "at: usize")), ("out: &mut [u8], at: usize", ("out: &mut [u8]", "at: usize")), ("out: &mut [u8; 8192], at: usize", ("out: &mut [u8; 8192]", "at: usize")), ("h: Head, stack, buf", ("h: Head", "stack: &mut [u32; 64]")), ("h: Head, stack, buf", ("h: Head", "stack: &[u32; 64]")), ("counted, written, buf", ("counted: &mut [u32; 64]", "written: &mut [u32; 64]")), ("settings, calls, text", ("settings: Settings", "calls: &[u64]")), ("flags, calls, text", ("flags: u64", "calls: &[u64]")), ("m: WriterBackend, buf", ("m: WriterBackend", "buf: &mut [u8]")), ("out, end", ("out: &mut [u8]", "end: usize"))]
            for label, wanted in groups:
                if all(w in names for w in wanted):
                    lent[label] += 1
                    lent_at[label].append(where)
            for clause in re.findall(r"requires \{ (.*) \}", head):
                for fact in re.split(r" × ", clause.strip("()")):
                    fact = re.sub(r"[()]", "", fact).strip()
                    known[fact] += 1
                    known_at[fact].append(where)
        for it in re.finditer(r"\[u32; 64\]", text):
            packed.append(f"{path}:{at(text, it.start())}")
    row("1a enums of the shape of Option or Result", shaped)
    row("1b structs with an answer or a flag beside a value", flagged)
    row("1c functions that give an answer as a number", numbers)
    row("1d numbers for kinds, chosen by comparison", chosen)
    row("1e a place or length that stands for 'none'", sentinels)
    many = {k: v for k, v in twins.items() if len(v) > 1}
    row("2 functions and types that differ in a width or a constant, by name", [x for v in many.values() for x in v])
    row("2 of these, not exported", [x for v in many.values() for x in v if not x.endswith("(exported)")])
    row("3 while and loop", loops)
    row("4a conversions, equality and order by hand", conversions)
    row("4b values copied field by field", copies)
    row("5a parameters that travel together (three functions or more)", [x for k, v in lent_at.items() if lent[k] > 2 for x in v])
    row("5b facts in the requires of three functions or more", [f"{x} ({k})" for k, v in known_at.items() if known[k] > 2 for x in v])
    row("6a a length or place beside the array that it is of", beside)
    row("6b open entries packed into numbers", packed)
    row("7 a switch by number on what to run", steps)
    answers, lemmas = [], []
    for folder, _, names in os.walk(f"{top}/crates"):
        if "/proofs" in folder and "/out" not in folder:
            for name in names:
                if name.endswith(".antt"):
                    with open(f"{folder}/{name}", encoding="utf-8") as file:
                        text = file.read()
                    if name == "Answers.antt":
                        answers += re.findall(r"^pub (\S+) : goal\.", text, re.M)
                    elif name not in ("Invariants.antt", "Lib.antt"):
                        lemmas += re.findall(r"^(?:abbrev |unfoldable |pub )*(\S+) : ", text, re.M)
    row("8a answers", answers)
    row("8b lemmas of the repository's own", lemmas)


def main():
    words = [w for w in sys.argv[1:] if w != "-l"]
    measure(words[0].rstrip("/") if words else ".")
    for name, places in ROWS:
        print(f"{len(places):5}  {name}")
        if "-l" in sys.argv and not name.startswith("8"):
            for place in places:
                print(f"         {place}")


main()
