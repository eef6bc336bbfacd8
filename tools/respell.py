#!/usr/bin/env python3
"""Brings the repository's own definitions, lemmas and constructors to snake case, and its types to upper camel case, after port.py.

usage: tools/respell.py            rewrites crates/*/{src,specs,proofs} in place
       tools/respell.py --list     prints each old name with its new one, and what falls together
A name of the kit, of the code or of Rattle's own making keeps its spelling: only what specs/ and proofs/ declare is turned.
"""
import collections
import os
import re
import sys

# What would fall together with another name of its own, or be hidden by a variable, gets the name that stands here.
BY_HAND = {
    "at-end": "at_the_end",
    "is-choice": "is_chosen",
    "inSegments": "is_in_segments",
    "isDone": "told_done",
    "isTag": "is_tag_of",
}
# Names that are declared with others on a line, as modules, or by a `use`.
MORE = """of-value open-ended of-table in-turn each-once Value-of not-in-nil codeBy in-none none-p refused-at isInfinite done-with in-v insideSize
Around-rest nextPart Choice-found in-cons firstBegins lines-right cases-read cases-told firstEither behind-part one-item here-is codedAs noTag k-few
reckonings-right tagBegins last-segment conversions-right range-cases second-cases octet-cases century-cases k-some""".split()
# A field of a record that would fall together with the definition that it speaks of.
FIELDS = {("coding", "in-range"): "ranged", ("link", "in-range"): "ranged"}
# Names that stay alike, since no file has both.
APART = {"no-time", "noTime", "no-tag", "noTag", "in-turn", "in_turn", "sequence-of", "sequenceOf", "set-of", "setOf"}
DECLARED = re.compile(r"^(\s*)(?:(?:pub|abbrev|unfoldable|instance)\s+)*([^\s:(){}λ.,;=]+) : ")
HEADED = re.compile(r"^\s*(?:(?:pub|unfoldable|abbrev)\s+)*(?:data|record|ruleset)\s+([^\s:(){}]+)")
USE = re.compile(r"^\s*(?:pub )?(?:ghost )?use ([^\s{]+)\.\{([^}]*)\}", re.M)
BOUND = re.compile(r"\blet ([a-z][\w']*-[\w'-]*)(?= )|\bas ([a-z][\w']*-[\w'-]*)$", re.M)
ALIAS = re.compile(r"^use (Rattle\.[^\s{]+) as (\S+)$", re.M)
TOKEN = re.compile(r"(\.?)([^\s(){}\[\],;.\"`⌜⌝]+)")


def files(root):
    for d, ds, fs in os.walk(os.path.join(root, "crates")):
        ds[:] = sorted(x for x in ds if x not in ("out", "must-fail"))
        for f in sorted(fs):
            if f.endswith((".antt", ".rt")):
                yield os.path.join(d, f)


def is_walk(path):
    return os.path.basename(path) in ("Proof.antt", "Answers.antt", "Invariants.antt")


def turned(name):
    if name in BY_HAND:
        return BY_HAND[name]
    if name[0].isupper():
        if "-" not in name and "·" not in name:
            return name
        head, *rest = re.split(r"[-·]", name)
        return head + "_" + "_".join(rest) if "·" in name else head + "".join(r[:1].upper() + r[1:] for r in rest)
    if name.startswith("get_d_"):
        name = "get_or_" + name[len("get_d_"):]
    name = name.replace("-", "_").replace("·", "_")
    name = re.sub(r"(?<=[a-z0-9₀-₉'])([A-Z])", lambda m: "_" + m.group(1), name)
    return "_".join(w if not w or w[0] in "≢" else (w[0].lower() + w[1:]) for w in name.split("_"))


def settle(declared):
    """Where names fall together, a definition has the name, and a lemma gets _lem."""
    back = collections.defaultdict(set)
    for n in declared:
        back[turned(n)].add(n)
    for new, olds in back.items():
        if len(olds) == 1 or olds <= APART or olds & set(BY_HAND):
            continue
        first = sorted(olds, key=lambda n: (not re.search(r"[a-z][A-Z]", n), "-" in n, n))[0]
        for n in olds - {first}:
            BY_HAND[n] = new + "_lem"


def own(crate_names, text):
    """The names that a file imports from the repository's crates, and those that it imports from elsewhere."""
    ours, theirs = set(), set()
    for module, names in USE.findall(text):
        parts = module.split(".")
        mine = parts[0] == "Rattle" and len(parts) > 1 and parts[1] in crate_names and "declared" not in parts and "contracts" not in parts
        for n in names.split(","):
            n = n.strip()
            if " as " in n:
                a, b = n.split(" as ")
                (ours if mine else theirs).add(a.strip())
                ours.add(b.strip())
            elif n:
                (ours if mine else theirs).add(n)
    return ours, theirs


def names(root):
    crate_names = set(os.listdir(os.path.join(root, "crates")))
    declared, fields = collections.defaultdict(set), set()
    for p in files(root):
        if p.endswith(".rt") or is_walk(p):
            continue
        record = False
        for l in open(p, encoding="utf-8"):
            m = HEADED.match(l)
            if m:
                declared[m.group(1)].add(p)
                record = " record " in " " + l
                continue
            m = DECLARED.match(l)
            if m and re.search(r"\w", m.group(2)) and "◌" not in m.group(2):
                declared[m.group(2)].add(p)
                if record and m.group(1):
                    fields.add(m.group(2))
            if l.strip() and not l[0].isspace():
                record = False
    for n in MORE:
        declared[n].add("by hand")
    return crate_names, declared, fields


def rewrite(text, path, crate_names, declared, fields):
    ours, theirs = own(crate_names, text)
    local = {m.group(2) for l in text.splitlines() if (m := DECLARED.match(l))} if path.endswith(".antt") else set()
    if is_walk(path):
        local = set()
    bound = {a or b for a, b in BOUND.findall(text)} - set(declared) if path.endswith(".antt") else set()

    crate = os.path.relpath(path, "crates").split(os.sep)[0]

    def one(m):
        dot, name = m.groups()
        if (crate, name) in FIELDS and name in declared:
            return dot + FIELDS[crate, name]
        if not dot and name in bound:
            return turned(name)
        if name not in declared:
            return m.group(0)
        if dot:
            return "." + turned(name) if name in fields else m.group(0)
        if name in theirs and name not in ours and name not in local:
            return m.group(0)
        return turned(name)

    text = TOKEN.sub(one, text)
    for module, alias in ALIAS.findall(text):
        if module.split(".")[1] in crate_names and not re.search(r"\.(Tie|Lts|Reads|Kinds|Statement)(-|$)", module):
            text = re.sub(rf"(?<![\w.'-]){re.escape(alias)}\.([a-z][^\s(){{}}\[\],;.]*)", lambda m: alias + "." + turned(m.group(1)), text)
    return text


def main(root="."):
    crate_names, declared, fields = names(root)
    settle(declared)
    if "--list" in sys.argv:
        back = collections.defaultdict(set)
        for n in declared:
            back[turned(n)].add(n)
        for new, olds in sorted(back.items()):
            if len(olds) > 1:
                print("together:", new, sorted((o, sorted(declared[o])) for o in olds))
        moved = {n for n in declared if turned(n) != n}
        for p in files(root):
            text = open(p, encoding="utf-8").read()
            bare = re.sub(r"(?m)^\s*(--|//).*$", "", text)
            here = collections.Counter(m.group(2) for m in TOKEN.finditer(bare) if not m.group(1))
            for n in sorted(moved & set(here)):
                if turned(n) in here and turned(n) not in declared:
                    print("hidden:", p, n, turned(n), here[turned(n)])
        print(len(declared), len(moved))
        return
    for p in files(root):
        text = open(p, encoding="utf-8").read()
        new = rewrite(text, p, crate_names, declared, fields)
        if new != text:
            with open(p, "w", encoding="utf-8") as f:
                f.write(new)


if __name__ == "__main__":
    main()
