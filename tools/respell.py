#!/usr/bin/env python3
"""Spells the repository's own names as today's Rattle does, in antt files and in the clauses and ghost items of the sources.

usage: python3 tools/respell.py [--check] [ROOT]

Functions, lemmas, fields and constructors get snake case ('listFault', 'going-fault': 'list_fault', 'going_fault'), types get camel case without dashes
('Demand-3', 'Six-tags': 'Demand3', 'SixTags'). A name that a file takes from a library, one that Rattle makes, and one that would meet another name stay.
It is run once, after port.py, on files that no one has edited by hand since.
"""
import os
import re
import sys

# Lemmas that have the name of a definition, each in its files.
LEMMAS = {
    "bytes_of": ("fields/proofs/Sorted.antt", "plates/proofs/SoundBytes.antt"),
    "part_of": ("texts/proofs/PrintLaws.antt",),
    "run_of": ("fields/proofs/Runs.antt",),
    "word_at": ("texts/proofs/",),
    "word_of": ("texts/proofs/EntryRead.antt",),
    "all_there": ("fields/proofs/", "plates/proofs/", "texts/proofs/"),
    "front_of": ("texts/proofs/Called.antt",),
    "go_on": ("replaying/proofs/Forms.antt",),
    "join_one": ("maps/proofs/", "embedding/proofs/"),
    "laid_in": ("embedding/proofs/",),
    "long_ok": ("fields/proofs/OneField.antt",),
    "number_ok": ("texts/proofs/EntryFront.antt",),
}

WORD = r"[^\s(){}.;,@\"«»\[\]|:λ]+"
TOKEN = re.compile(WORD)
DECLARED = re.compile(r"(?m)^ *(?:(?:pub|abbrev|unfoldable|pattern|private) +)*([^\s(){}.;,@\"«»]+)(?: \{[^{}\n]*\})* :(?= )")
TYPE = re.compile(r"(?m)^ *(?:(?:pub|abbrev) +)*(?:record|data) +([^\s(){}.;,@\"«»]+)")
USE = re.compile(r"(?m)^ *(?:pub +)?(ghost +)?use +([^\s;{]+?)\.?(?:\{([^}]*)\})?(?: as [^\s;]+)?;?$")
SOURCE = re.compile(r"\b(?:fn|struct|enum|const|static|mod) +(\w+)")
FIELD = re.compile(r"(?m)^ +(?:pub +)?(\w+):")
GHOST = re.compile(r"ghost use[^;]*;|\b(?:requires|ensures)\b *\w* *\{|\bghost\b[^;{}]*\{")


def files(root):
    for folder, dirs, names in os.walk(os.path.join(root, "crates")):
        dirs[:] = sorted(d for d in dirs if d not in ("out", "target"))
        for n in sorted(names):
            if n.endswith((".rt", ".antt")):
                yield os.path.join(folder, n)


def without_comments(path, text):
    return re.sub(r"--[^\n]*" if path.endswith(".antt") else r"//[^\n]*", "", text)


def snake(name):
    name = re.sub(r"(?<=[a-z0-9])([A-Z])(?=[a-z0-9]|$|-)", lambda m: "_" + m.group(1).lower(), name)
    return name.replace("-", "_")


def camel(name):
    return "".join(p[:1].upper() + p[1:] for p in name.split("-"))


def table(root):
    """Old name to the name of today."""
    declared, types, lent, source, made, words = set(), set(), set(), set(), set(), set()
    own = {c for c in os.listdir(os.path.join(root, "crates"))}
    for p in files(root):
        with open(p, encoding="utf-8") as f:
            text = without_comments(p, f.read())
        if p.endswith(".antt"):
            words.update(TOKEN.findall(re.sub(r"\.[^\s(){}.;,@\"«»]+", " ", text)))
        for ghost, path, items in USE.findall(text):
            steps = path.split(".")
            if p.endswith(".rt") and not ghost:
                continue
            if steps[0] == "Rattle" and len(steps) > 1 and steps[1] in own:
                continue
            for it in (items or "").split(","):
                lent.add(it.split(" as ")[0].strip())
        if p.endswith(".rt"):
            source.update(SOURCE.findall(text))
            source.update(FIELD.findall(text))
            continue
        if p.endswith("/Proof.antt"):
            made.update(re.findall(r"\btie\.(" + WORD + ")", text))
            made.update(re.findall(r"\.(\w+-[\w'-]+)", text))
            continue
        types.update(TYPE.findall(text))
        types.update(re.findall(r"(?m)^ *(?:(?:pub|abbrev) +)*([A-Z][^\s(){}.;,@\"«»]*) :[^\n]*→ Type 0$", text))
        declared.update(DECLARED.findall(text))
        for block in re.findall(r"(?m)^ *(?:pub +)?use [^\n]*\{[^}\n]*\}", text):
            for a, b in re.findall(r"([^\s{},]+) as ([^\s{},]+)", block):
                declared.add(b)
    rows = {}
    for name in declared | types:
        if name in lent:
            continue
        is_type = name in types or re.match(r"[A-Z][a-z]+(-\w+)+$", name)
        if name[:1].isupper() and not is_type:
            continue
        if is_type and re.match(r"[A-Z]\w*(-[\w']+)+$", name) and name not in made:
            rows[name] = camel(name)
        elif not is_type and re.match(r"[a-z][\w'≤<+*≡≢ℕℤ-]*$", name):
            new = snake(name)
            if new != name:
                rows[name] = new
    # where two would meet, the definition gets the name and the lemma keeps its dash
    met = {}
    for old, new in sorted(rows.items()):
        met.setdefault(new, []).append(old)
    stays = {}
    for new, olds in met.items():
        plain = [o for o in olds if "-" not in o]
        keep = plain[0] if len(plain) == 1 else olds[0] if len(olds) == 1 else None
        if olds[0] in types or re.match(r"[A-Z][a-z]+(-\w+)+$", olds[0]):
            keep = olds[0] if len(olds) == 1 and new not in types else None
        elif new in words - set(LEMMAS) or new in lent:
            keep = None
        for o in olds:
            if o != keep:
                stays[o] = new
    for o in list(rows):
        if o in stays:
            del rows[o]
    for o in [o for o in rows if "-" in o and snake(o) in source and o in made]:
        # a label that Rattle makes of a function
        stays[o] = "made"
        del rows[o]
    return rows, stays


def turn_words(text, rows):
    return TOKEN.sub(lambda m: rows.get(m.group(), m.group()), text)


def turn_spans(text, rows):
    return re.sub(r"`([^`\n]*)`", lambda m: "`" + turn_words(m.group(1), rows) + "`", text)


def turn_antt(text, rows):
    out = []
    for line in text.split("\n"):
        code, dash, note = line.partition("--")
        if line.lstrip().startswith("--") or dash and (code.endswith(" ") or not code):
            note = turn_spans(note, rows)
            note = re.sub(WORD, lambda m: rows.get(m.group(), m.group()) if re.search("[a-z][A-Z]", m.group()) else m.group(), note)
            out.append(turn_words(code, rows) + dash + note)
        else:
            out.append(turn_words(line, rows))
    return "\n".join(out)


def closing(text, i):
    depth = 0
    while i < len(text):
        depth += {"{": 1, "}": -1}.get(text[i], 0)
        i += 1
        if depth == 0:
            return i
    return i


def turn_rt(text, rows):
    out, at = [], 0
    for m in GHOST.finditer(text):
        if m.start() < at:
            continue
        end = m.end() if text[m.end() - 1] == ";" else closing(text, m.end() - 1)
        out += [text[at:m.start()], turn_words(text[m.start():end], rows)]
        at = end
    turned = "".join(out) + text[at:]
    return re.sub(r"//[^\n]*", lambda m: turn_spans(m.group(), rows), turned)


def main(argv):
    check = "--check" in argv
    rest = [a for a in argv if a != "--check"]
    root = rest[0] if rest else "."
    rows, stays = table(root)
    for o, n in sorted(stays.items()):
        print(f"stays: {o} ({n})")
    print(f"{len(rows)} names")
    if check:
        for o, n in sorted(rows.items()):
            print(f"{o}\t{n}")
        return
    for p in list(files(root)):
        with open(p, encoding="utf-8") as f:
            text = f.read()
        here = dict(rows)
        if p.endswith(".antt"):
            here.update({w: w + "_lem" for w, places in LEMMAS.items() if any("crates/" + x in p for x in places)})
        new = turn_rt(text, here) if p.endswith(".rt") else turn_antt(text, here)
        if new != text:
            with open(p, "w", encoding="utf-8") as f:
                f.write(new)


main(sys.argv[1:])
