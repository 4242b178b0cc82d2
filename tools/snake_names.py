#!/usr/bin/env python3
"""Brings the names of definitions and lemmas to one spelling: words in snake case, and a prime is an apostrophe.

usage: tools/snake_names.py            at the top of the repository: rewrites crates/*/{specs,proofs,src} and the clauses there
       tools/snake_names.py --look     only prints the names and what would fall together

A name is renamed if an .antt file of this repository declares it (a definition, a lemma, a field, a constructor, an
alias of a module). Types and modules keep their capital. Names that come from src/ keep their spelling, and so do the
names that the check makes (`c.loop-x`, `goal.returns`).
"""
import collections
import os
import re
import sys

WORD = r"[^\s(){}\[\];,.:λ`\"|]+"
DECLARES = re.compile(r"^(\s*)(?:(?:pattern|unfoldable|abbrev|axiom)\s+)*(?:pub\s+)?(" + WORD + r")(?:\s+\{[^{}:]*\})?\s*((?:\{[^}]*\}|\([^)]*\)|\s)*):\s(.*)$")
ALIAS = re.compile(r"^\s*use .* as (" + WORD + r")$")
MADE = re.compile(r"use \S*\.(?:Goals|Given|Contract)(?:\.\S*)?\.\{([^}]*)\}")
OF_PROOFS = ("Answers.antt", "Invariants.antt", "Choices.antt")

# Names that would fall together: a lemma named as the function that it is about ends in _lem, and of two others one gets a name of its own.
OTHERS = {
    "blockIn": "block_at_point",
    "closedTaken": "closed_taken_world",
    "opIn": "operation_in",
    "regionSlots": "slots_of_regions",
    "rewriteBatch": "rewritten_batch",
    "first-due": "first_due_lem",
    "insert-after": "insert_after_lem",
    "insert-before": "insert_before_lem",
    "is-op": "is_op_lem",
    "is-queued": "is_queued_lem",
    "is-region": "is_region_lem",
    "is-unmarked": "is_unmarked_lem",
    "lay-new": "lay_new_lem",
    "on-front": "on_front_lem",
    "on-type": "on_type_lem",
    "read-graph": "read_graph_lem",
    "unlink-at": "unlink_at_lem",
}
# and the same for names that are in snake case already, in the .antt files of one crate
IN_CRATE = {"model": {"same_op": "same_op_lem", "is_block": "is_block_lem"}, "calls": {"same_op": "same_op_lem"}}


def files(root):
    for folder, dirs, names in os.walk(os.path.join(root, "crates")):
        dirs[:] = sorted(d for d in dirs if d != "out")
        for n in sorted(names):
            if n.endswith((".antt", ".rt")):
                yield os.path.join(folder, n)


def snake(name):
    def part(p):
        return re.sub(r"(?<=[a-z0-9])([A-Z])", lambda m: "_" + m.group(1).lower(), p)

    return "_".join(part(p) for p in name.replace("′", "'").split("-"))


def wants(name):
    return not name[0].isupper() and bool(re.search(r"[A-Za-z0-9']-[A-Za-z0-9]|[a-z0-9][A-Z]", name)) and not any(ch in name for ch in "◌≡∷→×∙")


def collect(root):
    declared = collections.defaultdict(set)
    for p in files(root):
        if not p.endswith(".antt"):
            continue
        with open(p, encoding="utf-8") as f:
            for line in f:
                if line.lstrip().startswith("--"):
                    continue
                m = DECLARES.match(line)
                if m and not (os.path.basename(p) in OF_PROOFS and "goal." in m.group(4)) and " let " not in line.split(":")[0]:
                    declared[m.group(2)].add(p)
                m = ALIAS.match(line)
                if m:
                    declared[m.group(1)].add(p)
    return declared


def turn(text, path, map_):
    text = text.replace("′", "'") if path.endswith(".antt") or path.endswith(".rt") else text
    made = set()
    for m in MADE.finditer(text):
        made |= {w.strip() for w in m.group(1).split(",")}
    proof = os.path.basename(path) in OF_PROOFS

    def token(m):
        w = m.group(0)
        if w not in map_ or w in made:
            return w
        before = text[max(0, m.start() - 40) : m.start()]
        if before.endswith("."):
            head = re.search(r"([^\s(){}\[\];,:λ]+)\.$", before)
            if head and head.group(1) in ("c", "l", "g", "t", "goal", "Goals", "Given", "a"):
                # a name that the check made
                return w if "-" in w else map_[w]
        return map_[w]

    tokens = re.compile(WORD)
    if path.endswith(".antt"):
        return tokens.sub(token, text)
    # in a source file hyphens are names only in imports and clauses; a camel name stands nowhere else
    out = []
    for line in text.splitlines(keepends=True):
        out.append(line)
    joined = "".join(out)

    def in_source(m):
        w = m.group(0)
        return map_.get(w, w)

    return tokens.sub(in_source, joined)


def main(argv):
    root = "."
    declared = collect(root)
    map_ = {n.replace("′", "'"): OTHERS.get(n, snake(n)) for n in declared if wants(n.replace("′", "'"))}
    others = {n for n in declared if n not in map_}
    backward = collections.defaultdict(set)
    for n, v in map_.items():
        backward[v].add(n)
    for v, ns in sorted(backward.items()):
        if len(ns) > 1 or v in others:
            where = sorted({p for n in ns | ({v} if v in others else set()) for p in declared.get(n, ())})
            print(f"falls together: {v}: {', '.join(sorted(ns))}{' and ' + v if v in others else ''}: {' '.join(where)}")
    if "--look" in argv:
        print(len(map_), "names")
    for p in files(root):
        with open(p, encoding="utf-8") as f:
            old = f.read()
        crate = os.path.relpath(p, os.path.join(root, "crates")).split(os.sep)[0]
        new = turn(old, p, map_ | (IN_CRATE.get(crate, {}) if p.endswith(".antt") else {}))
        brought = collections.defaultdict(set)
        for m in re.finditer(r"use (\S+)\.\{([^}]*)\}", new):
            for w in m.group(2).split(","):
                brought[w.strip().split(" as ")[-1]].add(m.group(1))
        for line in new.splitlines():
            m = DECLARES.match(line)
            if m and p.endswith(".antt") and line[:1] not in " -" and os.path.basename(p) not in OF_PROOFS:
                brought[m.group(2)].add("here")
        for w, ms in sorted(brought.items()):
            if len(ms) > 1:
                print(f"brought twice: {p}: {w}: {' '.join(sorted(ms))}")
        if "--look" in argv:
            continue
        if new != old:
            with open(p, "w", encoding="utf-8") as f:
                f.write(new)
    return 0


if __name__ == "__main__":
    raise SystemExit(main(sys.argv[1:]))
