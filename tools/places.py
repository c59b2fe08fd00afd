#!/usr/bin/env python3
"""Counts the places that docs/DESIGN-PASS.md speaks of, in crates/*/src (and, for point 8, in crates/*/proofs).
   places.py [-v] [TREE]      -v lists the places too. TREE is a checkout; this one where none is given."""
import collections, pathlib, re, sys

verbose = "-v" in sys.argv[1:]
rest = [a for a in sys.argv[1:] if a != "-v"]
tree = pathlib.Path(rest[0]) if rest else pathlib.Path(__file__).resolve().parent.parent
sources = {p: p.read_text() for p in sorted(tree.glob("crates/*/src/**/*.rt"))}

def line(text, at):
    return text.count("\n", 0, at) + 1

def where(path, text, at):
    return f"{path.relative_to(tree)}:{line(text, at)}"

def matches(pattern, flags=re.M):
    return [(where(p, t, m.start(1 if m.groups() else 0)), m) for p, t in sources.items() for m in re.finditer(pattern, t, flags)]

# functions: name, parameters (name, type), result, contract and body
Function = collections.namedtuple("Function", "place name params result contract body")

def split_params(text):
    parts, depth, now = [], 0, ""
    for c in text.replace("->", ""):
        depth += c in "([{<"
        depth -= c in ")]}>"
        if c == "," and depth == 0:
            parts.append(now); now = ""
        else:
            now += c
    parts.append(now)
    return [tuple(x.strip() for x in p.split(":", 1)) for p in parts if ":" in p]

def functions():
    found = []
    for p, t in sources.items():
        for m in re.finditer(r"^[ ]*(?:pub(?:\(crate\))? )?(?:extern \"C\" )?fn (\w+)(<)?", t, re.M):
            depth, i = len(m.group(2) or ""), m.end()
            while depth:
                depth += {"<": 1, ">": t[i - 1] != "-" and -1}.get(t[i], 0); i += 1
            depth, i = 1, t.index("(", i) + 1
            begin = i
            while depth:
                depth += {"(": 1, ")": -1}.get(t[i], 0); i += 1
            params = split_params(t[begin:i - 1])
            indent = re.match(r"[ ]*", t[m.start():]).group()
            stop = re.search(rf"^{indent}\}}", t[i:], re.M)
            whole = t[i:i + stop.start()] if stop else ""
            own = re.search(rf"^{indent}\{{$", whole, re.M)
            start = own.end() if own else whole.find("{\n") + 1
            before, body = whole[:start], whole[start:]
            result = re.match(r"\s*->\s*([^{\n]+)", before)
            found.append(Function(where(p, t, m.start(1)), m.group(1), params, result.group(1).strip() if result else "", before, body))
    return found

fns = functions()

def report(title, places):
    print(f"   {len(places):4} {title}")
    if verbose:
        for p in places:
            print(f"          {p}")

print("1. Option, Result, enums")
enums = matches(r"^[ ]*(?:pub )?enum (\w+) \{(.*?)\n\}", re.M | re.S)
report("enums with a variant for none or for a refusal", [f"{w} {m.group(1)}" for w, m in enums if m.group(1) != "Refusal" and re.search(r"\b(Fault|Refused|Absent|No[A-Z]\w*|Stopped|Through)\b", m.group(2))])
report("fields that say whether the others count: number, ok, found, mixed, fits", [f"{w} {m.group().strip()}" for w, m in matches(r"^    pub ((?:number: u8|(?:ok|found|mixed|fits): bool)),|^    (ok: bool),")])
report("functions that answer a refusal's number", [f"{f.place} {f.name}" for f in fns if f.result == "u8" and not f.place.startswith("crates/stripplates") and f.name != "number" and re.search(r"fault|judge|^answer$|entries_number", f.name)])
report("functions that change lent memory and answer a bool for whether it went well", [f"{f.place} {f.name}" for f in fns if f.result == "bool" and any("&mut" in t for _, t in f.params)])
report("uses of a number that stands for none: NO_NODE", [w for w, m in matches(r"(NO_NODE)\b(?!:)") if True])

print("2. Twins")
words = re.compile(r"\w+|[^\s\w]")
def shape(f):
    text = re.sub(r"//[^\n]*", "", f.body)
    kept = {"if", "else", "while", "loop", "for", "in", "return", "match", "let", "mut", "as", "true", "false", "self", "Ok", "Err", "Some", "None"}
    return " ".join("N" if x[0].isdigit() else x if x in kept or not re.match(r"\w", x) else "I" for x in words.findall(text))
groups = collections.defaultdict(list)
for f in fns:
    if len(shape(f).split()) >= 8 and not re.match(r"crates/(samples|walks|books|bests|readings)/", f.place):
        groups[shape(f)].append(f)
twins = [g for g in groups.values() if len(g) > 1]
report("functions whose bodies have the shape of another's, but for names and numbers", [f"{f.place} {f.name} ({i})" for i, g in enumerate(twins) for f in g])
names = collections.defaultdict(set)
for f in fns:
    names[f.name].add(f.place.split("/")[1])
report("functions of one name in several crates", sorted(f"{n}: {', '.join(sorted(c))}" for n, c in names.items() if len(c) > 1 and n not in ("main", "show", "run", "number", "fmt")))

print("3. Loops")
loops = [(w, m) for w, m in matches(r"^[ ]+(while|loop)\b")]
counted = []
for f in fns:
    for m in re.finditer(r"\bwhile ([^\n]*)\{\n", f.body):
        if any(re.search(rf"\b{v} [+-]= \d|\b{v} = (?:{v}|next)\b", f.body[m.start():]) for v in re.findall(r"\b[a-z]\w*\b", m.group(1))):
            counted.append(f"{f.place} {f.name}")
report("while and loop", [w for w, m in loops])
report("of these, an index counted by hand", counted)

print("4. Equality, order, copying, conversion, printing")
report("functions that are a cast, a comparison of slices or of bools, a copy, a minimum or a choice between bools", [f"{f.place} {f.name}" for f in fns if re.fullmatch(r"wide|is_same|copy|copy_at|copy_ends|row_of|append\w*|bytes_of|first_sizes|least_of|fewer_of|minus|both|either|is_both|word_at|byte_at|cap|capped|lesser", f.name)])
report("casts with as", [w for w, m in matches(r"\b(as) (?:u8|u16|u32|u64|usize)\b")])

print("5. Facts and parameters that travel together")
clauses = collections.Counter(c.strip() for f in fns for c in re.findall(r"requires(?: \w+)? \{ (.*) \}", f.contract))
report("requires of one wording in three or more contracts", [f"{n} times: {c}" for c, n in clauses.most_common() if n >= 3])
binders = [f"{f.place} {f.name}" for f in fns if "Stands" in f.contract and "→" in f.contract]
report("contracts that bind a plate and ask that it stands", binders)
pairs = collections.Counter()
for f in fns:
    ps = sorted({f"{n.replace('mut ', '')}" for n, t in f.params if n not in ("rt", "self")})
    pairs.update((a, b) for i, a in enumerate(ps) for b in ps[i + 1:])
together = {p for p, n in pairs.items() if n >= 3}
report("functions with six or more parameters", [f"{f.place} {f.name} {len(f.params)}" for f in fns if len(f.params) >= 6 and not f.place.startswith("crates/stripplates")])
report("pairs of parameters that stand together in three or more functions", [f"{pairs[p]} times: {p[0]}, {p[1]}" for p in sorted(together, key=lambda p: -pairs[p])])

print("6. Buffers with a length beside, parallel arrays")
report("arrays in structs", [f"{w} {m.group(1)}" for w, m in matches(r"^    (?:pub )?(\w+: \[[^\n]*; \d+\]),")])
report("functions with three or more slices or arrays as parameters", [f"{f.place} {f.name}" for f in fns if sum("[" in t for _, t in f.params) >= 3 and not f.place.startswith("crates/stripplates")])

print("7. Switches")
report("functions with a bool among their parameters", [f"{f.place} {f.name}" for f in fns if any(t == "bool" for _, t in f.params)])

print("8. Proofs")
answers = sorted(tree.glob("crates/*/proofs/**/Answers.antt"))
texts = [a.read_text() for a in answers]
print(f"   {len(answers):4} files of answers, {sum(len(re.findall(r'^pub ', t, re.M)) for t in texts)} answers, {sum(t.count(chr(10)) for t in texts)} lines")
lemmas = [p for p in tree.glob("crates/*/proofs/**/*.antt") if p.name not in ("Answers.antt", "Invariants.antt")]
print(f"   {len(lemmas):4} files of lemmas, {sum(p.read_text().count(chr(10)) for p in lemmas)} lines")
