#!/usr/bin/env python3
"""Prints specs/Hints.antt from specs/Words.antt, specs/Kinds.antt and specs/Table.antt.

Hints say what may begin a kind of phrase and stand behind it, and the like. Nothing trusts them: the checks of
proofs/Checks.antt test each, and fail if a hint is wrong or missing. Run it after a change of the table:
    python3 hints/hints.py > specs/Hints.antt
"""
import os
import re
import sys

SPECS = os.path.join(os.path.dirname(os.path.abspath(__file__)), "..", "specs")
NAME = re.compile(r"[^\s(){}.;,@\"«»]+|[()]")


def read(module):
    with open(os.path.join(SPECS, module + ".antt"), encoding="utf-8") as f:
        return "\n".join(line for line in f.read().split("\n") if not line.strip().startswith("--"))


def tree(tokens):
    """The list structure of a term: applications and `∷` chains as nested lists."""
    out = []
    while tokens and tokens[0] != ")":
        t = tokens.pop(0)
        if t == "(":
            out.append(tree(tokens))
            tokens.pop(0)
        else:
            out.append(t)
    return out


def split(items):
    """The elements of `x ∷ y ∷ []`, each a list of names."""
    parts, now = [], []
    for x in items:
        if x == "∷":
            parts.append(now)
            now = []
        else:
            now.append(x)
    return parts, now


WORDS, GROUPS = {}, {}
for n, v in re.findall(r"^(\S+) = (\d+)$", read("Words"), re.M):
    WORDS[n] = int(v)
for n, v in re.findall(r"^(\S+) = (\S+ ∷ .*\[\])$", read("Words"), re.M):
    GROUPS[n] = [WORDS[w] for w in v.split(" ∷ ")[:-1]]
KINDS = {}
for n, b, v in re.findall(r"^(\S+)( true| false)? = (\d+)$", read("Kinds"), re.M):
    KINDS[(n, b.strip())] = int(v)


def kind(x, flag):
    """The number of a kind: a name, or a name and whether records may stand."""
    if isinstance(x, str):
        return KINDS[(x, "")]
    return KINDS[(x[0], {"r": flag, "records": "true", "no_records": "false"}[x[1]])]


def words(x):
    if isinstance(x, str):
        return GROUPS[x] if x in GROUPS else [WORDS[x]]
    return [WORDS[p[0]] for p in split(x)[0]]


def symbol(item, flag):
    f, args = item[0], item[1:]
    if f in ("word", "one", "opens", "closes", "prefix", "head", "literal"):
        return ("token", words(args[0]))
    if f == "token":
        return ("token", words(args[1]))
    if f in ("a", "behind"):
        return ("phrase", kind(args[0], flag))
    if f == "unless":
        return ("unless", words(args[0]))
    if f in ("row", "part"):
        return ("note", 1 if f == "row" else 0)
    if f == "left_side":
        return ("side", kind(args[0], flag), kind(args[1], flag))
    if f == "text":
        return ("text", kind(args[0], flag))
    raise SystemExit("hints.py: unknown symbol " + str(item))


def alternative(items, flag):
    return [symbol(p[0] if isinstance(p[0], list) else p, flag) for p in split(items)[0]]


RULES, ORDER = {}, []


def add(k, flag, alternatives):
    n = kind(k, flag)
    RULES[n] = [[] if x == "nothing" else alternative(x, flag) for x in alternatives]
    ORDER.append(n)


def rule(items, flag):
    """`KIND ⟶ alternative ∣ alternative ∣ alternative when condition`, where `tests` is taken as true."""
    at = items.index("⟶")
    name = items[0] if at == 1 else items[:at]
    out, rest = [], ["∣"] + items[at + 1:]
    while rest:
        x, rest = rest[1], rest[2:]
        taken = True
        if rest and rest[0] == "when":
            taken = {"tests": True, "r": flag == "true"}[rest[1] if isinstance(rest[1], str) else rest[1][1]] == isinstance(rest[1], str)
            rest = rest[2:]
        if taken:
            out.append(x)
    add(name, flag, out)


TABLE = read("Table")
for item, items, more in re.findall(r"list_of (\([^)]*\)|\S+) (\S+) (\S+?)(?: \+\+|\))", re.search(r"^lists = (.*)$", TABLE, re.M).group(1)):
    each = item.strip("()").split() if item[0] == "(" else item
    add(items, "", ["nothing", [["a", each], "∷", ["a", more], "∷", "[]"]])
    add(more, "", ["nothing", [["word", "comma"], "∷", ["a", items], "∷", "[]"]])
for name, body in re.findall(r"^(\w+)(?: \w+)? =\n((?:    .*\n)+)", TABLE, re.M):
    for flag in (["true", "false"] if name == "exprs" else [""]):
        for each in split(tree(NAME.findall(body)))[0] if name != "rest_kinds" else []:
            rule(each, flag)
if sorted(ORDER) != sorted(KINDS.values()):
    raise SystemExit("hints.py: the kinds and the rules differ")

PAIRED, COLON, END = {WORDS["name"], WORDS["underscore"]}, WORDS["':'"], WORDS["the_end"]
firsts = {k: set() for k in ORDER}
follows = {k: set() for k in ORDER}
for start in (("TREE", ""), ("EXPR", "true")):
    follows[KINDS[start]].add(("one", END))


def first(s, f):
    if not s:
        return set(f)
    t = s[0]
    if t[0] == "token":
        out = set()
        for c in t[1]:
            if c in PAIRED:
                out |= {("pair" if v[1] == COLON else "one", c) for v in first(s[1:], f)}
            else:
                out.add(("one", c))
        return out
    if t[0] in ("phrase", "side"):
        return set(firsts[t[1]])
    if t[0] == "unless":
        return {v for v in first(s[1:], f) if v[1] not in t[1]}
    if t[0] == "note":
        return first(s[1:], f)
    return set()


def grow():
    changed = False

    def add(table, k, new):
        nonlocal changed
        if not new <= table[k]:
            table[k] |= new
            changed = True

    for k in ORDER:
        for s in RULES[k]:
            add(firsts, k, first(s, follows[k]))
            for i, t in enumerate(s):
                rest = first(s[i + 1:], follows[k])
                if t[0] in ("phrase", "text"):
                    add(follows, t[1], rest)
                if t[0] == "side":
                    add(follows, t[1], firsts[t[2]] | rest)
                    add(follows, t[2], rest)
    return changed


while grow():
    pass
for k in ORDER:
    begins = [first(s, follows[k]) for s in RULES[k]]
    for i, x in enumerate(begins):
        for y in begins[:i]:
            if x & y:
                print("hints.py: two alternatives of kind", k, "begin with", x & y, file=sys.stderr)

# Whether each text of a kind has a token: the largest answer that fits.
full = {k: True for k in ORDER}


def has_token(s):
    return any(t[0] in ("token", "text") or t[0] in ("phrase", "side") and full[t[1]] for t in s)


while any(full[k] and not all(map(has_token, RULES[k])) for k in ORDER):
    for k in ORDER:
        full[k] = full[k] and all(map(has_token, RULES[k]))

# The alternative with the shortest text, and how deep it is.
FAR = 10 ** 6
depth, shortest = {k: FAR for k in ORDER}, {k: 0 for k in ORDER}


def cost(s):
    return 1 + sum(1 if t[0] in ("token", "note", "text") else FAR if t[0] == "unless" else 1 + sum(depth[n] for n in t[1:]) for t in s)


again = True
while again:
    again = False
    for k in ORDER:
        for i, s in enumerate(RULES[k]):
            if s[:1] != [("token", [WORDS["'test'"]])] and cost(s) < depth[k]:
                depth[k], shortest[k], again = cost(s), i, True

# By how much twice the rows of a kind may exceed three times its tokens.
excess = {k: -FAR for k in ORDER}


def over(s):
    total = 0
    for t in s:
        total += {"token": -3, "unless": 0, "note": 2 * t[1] if t[0] == "note" else 0}.get(t[0], 0)
        if t[0] == "phrase":
            total += excess[t[1]]
        if t[0] == "side":
            total += excess[t[1]] + max(0, excess[t[2]])
        if t[0] == "text":
            total += max(0, excess[t[1]])
    return max(total, -FAR)


for _ in range(200):
    for k in ORDER:
        excess[k] = max(map(over, RULES[k]))


# How many steps there are at most before a token is taken: no kind begins with itself.
rank = {k: 0 for k in ORDER}


def front(s):
    total = 0
    for t in s:
        if t[0] == "token":
            return total
        total += 1
        if t[0] in ("phrase", "side", "text"):
            total += rank[t[1]]
            if t[0] != "text" and full[t[1]]:
                return total
        if t[0] == "side":
            total += 1 + rank[t[2]]
        if t[0] == "text":
            total += 1
    return total


for _ in range(200):
    for k in ORDER:
        rank[k] = min(FAR, 1 + max(map(front, RULES[k])))


def views(vs):
    pairs = "".join("pair %d ∷ " % c for s, c in sorted(vs) if s == "pair")
    return pairs + "ones (" + "".join("%d ∷ " % c for s, c in sorted(vs) if s == "one") + "[])"


print("""-- Hints for the table, printed by hints/hints.py. Nothing trusts them: proofs/Checks.antt tests each.
use Rattle.std.specs.Prelude.{List, [], ◌∷◌, Bool, true, false}
use Rattle.grammar.specs.Grammar.{Hint, one, pair}
use Rattle.grammar.specs.Choice.{ones}

unfoldable pub hints : List Hint
hints =""")
for k in sorted(ORDER):
    print("    record { kind = %d; firsts = %s; follows = %s; full = %s; shortest = %d; more = %d; less = %d; rank = %d } ∷" % (
        k, views(firsts[k]), views(follows[k]), str(full[k]).lower(), shortest[k], max(0, excess[k]), max(0, -excess[k]), rank[k]))
print("    []")
