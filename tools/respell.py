#!/usr/bin/env python3
"""Spells the names that this repository's .antt files declare as today's Rattle does: words in snake case, ′ as '.

usage: tools/respell.py [--dry]      at the top of the repository, once, behind /opt/rattle/port/port.py

A name is a definition, a lemma, a constructor or a field that specs/ or proofs/*.antt declare. It is spelled anew in every .antt file, in the clauses and
`ghost use` lines of .rt files and in tools/ that name it. A name that begins like a type (A, then a small letter) stays: there a dash joins the type
to a word. A file that imports the name from a library keeps it there. Where the new name would meet another one, FALLS says what it becomes.
Functions, fields, constants and parameters of src/, exported names, strings, comments' prose, inputs and outputs stay.
"""
import collections, os, re, sys

NAME = r"[^\s(){}.;,@\"«»\[\]\\]+"
# Old name: new name, where the plain spelling is taken.
FALLS = {
    "all-below": "all_below_lem",
    "backs-from": "backs_from_lem",
    "before-item": "before_item_lem",
    "before-operand": "before_operand_lem",
    "before-part": "before_part_lem",
    "before-type": "before_type_lem",
    "bits-of": "bits_of_lem",
    "fault-at": "fault_at_lem",
    "from-address": "from_address_lem",
    "from-amount": "from_amount_lem",
    "from-point": "from_point_lem",
    "from-quad": "from_quad_lem",
    "from-size": "from_size_lem",
    "level-of": "level_of_lem",
    "literal-of": "literal_of_lem",
    "many-ranges": "many_ranges_lem",
    "nan-bits": "nan_bits_lem",
    "number-at": "number_at_lem",
    "one-signs": "one_signs_lem",
    "or-to": "or_to_lem",
    "over-row": "over_row_lem",
    "pair-at": "pair_at_lem",
    "past-close": "past_close_lem",
    "past-code": "past_code_lem",
    "past-escape": "past_escape_lem",
    "past-item": "past_item_lem",
    "row-at": "row_at_lem",
    "rowsIn": "rows_within",
    "stored-rows": "stored_rows_lem",
    "to-bits": "to_bits_lem",
    "token-size": "token_size_lem",
    "two-signs": "two_signs_lem",
    "value-from": "value_from_lem",
    "word-in": "word_in_lem",
    "word-of": "word_of_lem",
}
# Lemmas that port.py spelled as a definition is spelled now, with the files that speak of them: they get `_lem`.
FALLS_IN = {
    "codes_at": "constants/proofs/Whole.antt",
    "goes_on": "keeping/proofs/Fence.antt tokens/proofs/Fits.antt tokens/proofs/Rules.antt tokens/proofs/three_dotted/Proof.antt tokens/proofs/ipv4/Proof.antt",
    "of_one": "constants/proofs/Typed.antt",
    "of_two": "constants/proofs/Typed.antt",
    "past_open": "texts/proofs/Counted.antt",
    "ran_to": "constants/proofs/Finished.antt constants/proofs/run/Proof.antt",
    "same_row": "sheets/proofs/Noted.antt sheets/proofs/Differences.antt",
}
DECLARED = re.compile(rf"^( *)((?:abbrev |unfoldable |pub |data |record |ruleset |package )*)({NAME})((?: \{{[^{{}}]*\}})*)(?: (?:\([^()]*\)|\{{[^{{}}]*\}}))* :(?= |$)")
USE = re.compile(r"^ *(?:ghost |pub )*use ([^\s;{]+?)(?:\.?\{([^}]*)\})?(?: as ([^\s;]+))?;?$", re.M)

def snake(n):
    if re.match(r"[A-Z][a-z]", n) or n.startswith("'"):
        return n.replace("′", "'")
    w = n.replace("′", "'")
    if re.match(r"[a-z]", w):
        w = re.sub(r"(?<=[a-z0-9])([A-Z])(?=[a-z]|$|[^A-Za-z])", lambda m: "_" + m.group(1).lower(), w)
    return w.replace("-", "_")

def files(root):
    for top, dirs, names in os.walk(os.path.join(root, "crates")):
        dirs[:] = sorted(d for d in dirs if d not in ("out", "data"))
        for f in sorted(names):
            if f.endswith((".antt", ".rt")):
                yield os.path.join(top, f)

def plain(path, text):
    """The names of a file that stand behind no dot; of a .rt file those that a name of a clause could meet: no function's."""
    text = code_of(text)
    if path.endswith(".antt"):
        text = re.sub(r"(?m)^ *(?:pub )?use [^\s{]+", "", text)
        return [m.group(0) for m in re.finditer(NAME, text) if not text[: m.start()].endswith((".", ".«"))]
    kept, clauses = [], []
    rust(text, lambda m: clauses.append(m.group(0)) or m.group(0), kept)
    text = re.sub(r"(?m)^ *(?:pub )?use [^;]*;|\b(?:mod|fn) \w+", "", "".join(kept))
    return clauses + [m.group(0) for m in re.finditer(r"(?<![\w.:])\w+(?!\w|\(|::)", text)]

def code_of(text):
    """The text without comments, for counting."""
    return re.sub(r"--[^\n]*|//[^\n]*", "", text)

def main():
    root, changed = ".", set()
    texts = {p: open(p, encoding="utf-8").read() for p in files(root)}
    for n, where in FALLS_IN.items():
        for f in where.split():
            p = "./crates/" + f
            if p in texts:
                texts[p] = re.sub(rf"(?<![^\s(){{}};,@\"«»]){n}(?![^\s(){{}}.;,@\"«»])", n + "_lem", texts[p])
                changed.add(p)
    declared = collections.Counter()
    for p, t in texts.items():
        if not p.endswith(".antt"): continue
        parts = p.split("/")
        walks = "proofs" in parts and len(parts) - parts.index("proofs") > 2
        if walks: continue
        for line in t.split("\n"):
            m = DECLARED.match(line)
            if m: declared[m.group(3)] += 1
        for m in re.finditer(rf"^( *)(?:pub )?({NAME}(?: {NAME})+) :(?= )", t, re.M):
            for n in m.group(2).split(): declared[n] += 1
    new = {n: FALLS.get(n, snake(n)) for n in declared if FALLS.get(n, snake(n)) != n}
    # in which files a token stands
    tokens = {p: collections.Counter(plain(p, t)) for p, t in texts.items()}
    bad = collections.defaultdict(set)
    for p, ts in tokens.items():
        for o in ts:
            if o in new and new[o] in ts:
                bad[o].add(p)
        seen = collections.defaultdict(set)
        for o in ts:
            if o in new: seen[new[o]].add(o)
        for k, v in seen.items():
            if len(v) > 1:
                for o in v: bad[o].add(p)
    if "--dry" in sys.argv:
        print(len(new), "names anew;", len(bad), "meet another")
        for o in sorted(bad):
            print(o, "->", new[o], len(bad[o]), sorted(bad[o])[:3])
        return
    for p, t in texts.items():
        foreign = set()
        for m in USE.finditer(t):
            mod, names = m.group(1), m.group(2)
            own = re.match(r"Rattle\.(\w+)\.(specs|proofs)\b", mod) and not re.match(r"Rattle\.(core|std\w*|io|libc|os)\.", mod)
            if not own and names:
                foreign |= {x.strip().split(" as ")[0] for x in names.split(",")}
        def word(m):
            n = m.group(0)
            if n in new and n not in foreign: return new[n]
            return n
        if p.endswith(".antt"):
            out = []
            for line in t.split("\n"):
                i = line.find("--")
                k = re.search(r"(^| )--( |$)", line)
                code, rest = (line, "") if not k else (line[:k.start()], line[k.start():])
                rest = re.sub(r"`([^`]*)`", lambda q: "`" + re.sub(NAME, word, q.group(1)) + "`", rest)
                out.append(re.sub(NAME, word, code) + rest)
            u = "\n".join(out)
        else:
            u = rust(t, word)
        if u != t or p in changed:
            open(p, "w", encoding="utf-8").write(u)
    edits(root, new)

def edits(root, new):
    """The lines of edits of definitions and proofs."""
    for top, dirs, names in os.walk(os.path.join(root, "crates")):
        if os.path.basename(top) != "must-fail": continue
        for f in sorted(names):
            p = os.path.join(top, f)
            t = open(p, encoding="utf-8").read()
            u, antt = [], False
            for line in t.split("\n"):
                if line.startswith("file:"): antt = line.rstrip().endswith(".antt")
                if antt and re.match("(old|new): ", line):
                    line = line[:5] + re.sub(NAME, lambda m: new.get(m.group(0), m.group(0)), line[5:])
                u.append(line)
            if "\n".join(u) != t: open(p, "w", encoding="utf-8").write("\n".join(u))

def rust(t, word, kept=None):
    """Clauses and ghost use lines of a .rt file."""
    out, i = [], 0
    for m in re.finditer(r"^ *ghost use [^;]*;|(?<![\w])(?:requires\*?|ensures\*?|ghost)(?: +\w+)? *:? *\{", t, re.M):
        if m.start() < i: continue
        out.append(t[i:m.start()])
        if kept is not None: kept.append(t[i:m.start()])
        if "ghost use" in m.group(0):
            out.append(re.sub(NAME, word, m.group(0))); i = m.end(); continue
        depth, j = 1, m.end()
        while depth:
            depth += {"{": 1, "}": -1}.get(t[j], 0); j += 1
        out.append(m.group(0) + re.sub(NAME, word, t[m.end():j])); i = j
    out.append(t[i:])
    if kept is not None: kept.append(t[i:])
    return "".join(out)

main()
