#!/usr/bin/env python3
"""Brings the names of the repository's own definitions and lemmas to one spelling: snake case, where types, facts and modules keep
upper camel case. It was run once, over the tree that the kit's port.py had left, and renames whole words only:

- what specs/*.antt and proofs/*.antt declare (definitions, lemmas, fields, constructors), wherever it is cited in crates/, in the
  must-fail edits and, where it is written in camel case, in the documents and in .ci/seams;
- no function, constant, field or parameter of src/, no name of the library, and no name that the prover makes (f-requires,
  loop-x-preserved and the like), which only proofs of functions have.

It stops before it writes where two names fall together, and says which.

usage: python3 tools/respell.py    at the top of the repository, with everything committed
"""

import collections
import glob
import re
import sys

CHAR = r"[\w'-]"
WORD = re.compile(r"(?<![\w'-])[A-Za-z_]" + CHAR + r"*")
HEAD = re.compile(r"^(?:(?:abbrev|unfoldable|pub|data|record)\s+)*([A-Za-z_][\w'-]*)(?:\s|$)")
FIELD = re.compile(r"^\s+(?:(?:abbrev|unfoldable|pub)\s+)*([A-Za-z_][\w'-]*(?:\s+[A-Za-z_][\w'-]*)*)\s+:\s")
# names that would fall together with another, and what they are called
APART = {
    "arrive-verdict": "arrive_verdict_lem",
    "at-end": "at_end_lem",
    "board-choices": "board_choices_lem",
    "board-count": "board_count_within",
    "choice-in": "choice_in_lem",
    "columns-in": "columns_in_lem",
    "count-valid": "count_valid_lem",
    "countAt": "count_of_flow",
    "counts-at": "counts_at_lem",
    "file-length": "file_length_lem",
    "flow-valid": "flow_valid_lem",
    "flows-valid": "flows_valid_lem",
    "frame-in": "frame_in_lem",
    "has-room": "has_room_lem",
    "has-row": "has_row_lem",
    "head-after": "head_after_lem",
    "head-count": "head_count_within",
    "head-room": "head_room_lem",
    "load-verdict": "load_verdict_lem",
    "lower-slots": "lower_slots_lem",
    "no-queue": "no_queue_lem",
    "none-waits": "none_waits_lem",
    "one-output": "one_output_lem",
    "plan-valid": "plan_valid_lem",
    "port-valid": "port_valid_lem",
    "ports-in": "ports_in_lem",
    "ports-valid": "ports_valid_lem",
    "printout-room": "printout_room_lem",
    "same-ports": "ports_agree",
    "scope-file": "scope_file_lem",
    "step-verdict": "step_verdict_lem",
    "store-fits": "store_fits_lem",
    "takes-over": "takes_over_lem",
    "upper-slots": "upper_slots_lem",
}
KEYWORDS = {"use", "unfolding", "pub", "mod", "where", "abbrev", "unfoldable", "record", "data", "let", "in", "module", "open"}


def spelled(name):
    """snake case of a name that begins with a small letter"""
    name = re.sub(r"(?<=[a-z0-9])([A-Z])", lambda m: "_" + m.group(1).lower(), name)
    return re.sub(r"(?<=\w)-(?=\w)", "_", name)


def declared(path):
    """what a file declares: at its margin, in a module within it, or as a field"""
    for line in open(path, encoding="utf-8"):
        if line.startswith(("--", "use ", "pub mod", "mod ")) or not line.strip():
            continue
        m = HEAD.match(line)
        if m and m.group(1) not in KEYWORDS:
            yield m.group(1)
            continue
        m = FIELD.match(line)
        if m:
            yield from (n for n in m.group(1).split() if n not in KEYWORDS)


def imported_from_the_library(text):
    """the names that a file imports from no crate of its own"""
    own = {line.split("/")[1] for line in glob.glob("crates/*")}
    for m in re.finditer(r"^(?:ghost )?use ([\w.'-]+)(?:\.\{([^}]*)\})?(?: as (\S+))?", text, re.M):
        path = m.group(1).split(".")
        if path[0] == "Rattle" and path[1] in own:
            continue
        names = m.group(2).split(",") if m.group(2) else [path[-1]]
        for n in names:
            yield from (w for w in re.split(r"\s+as\s+", n.strip()) if w)


def main():
    laws = sorted(glob.glob("crates/*/specs/*.antt") + glob.glob("crates/*/proofs/*.antt"))
    antt = sorted(glob.glob("crates/**/*.antt", recursive=True))
    sources = sorted(glob.glob("crates/*/src/*.rt"))
    edits = sorted(glob.glob("crates/*/must-fail/*.edit"))
    pages = ["README.md", "docs/ARCHITECTURE.md", "docs/DECISIONS.md", "docs/PERFORMANCE.md", "docs/PROOF.md", ".ci/seams"]
    text = {p: open(p, encoding="utf-8").read() for p in antt + sources + edits + pages}

    found = collections.defaultdict(set)
    for p in laws:
        for n in declared(p):
            if (n[0].islower() or n[0] == "_") and spelled(n) != n:
                found[n].add(p)
    # what a program's source spells otherwise keeps its spelling
    words = {n: spelled(n) for n in found}
    words.update(APART)
    # a function of src/ and the definition that its contract cites may share a name, as in the library; no other two may
    functions = {n for p in sources for n in re.findall(r"\bfn (\w+)", text[p])}
    there = collections.defaultdict(set)
    for p in laws:
        for w in WORD.findall(re.sub(r"--.*", "", text[p])):
            there[w].add(p)
    for p in sources:
        for w in re.findall(r"[(,]\s*(?:mut )?(\w+):|\b(?:const|static) (\w+)|^\s+pub (\w+):", text[p], re.M):
            there["".join(w)].add(p)
    together = collections.defaultdict(set)
    for old, new in words.items():
        together[new].add(old)
        if there[old] & there[new] and new not in functions:
            together[new].add(new)
    clash = {new: olds for new, olds in together.items() if len(olds) > 1}
    for new, olds in sorted(clash.items()):
        where = sorted(set.union(*(there[o] for o in olds)))
        print("fall together: " + new + ": " + ", ".join(sorted(olds)) + ": " + " ".join(where)[:200], file=sys.stderr)
    if clash:
        raise SystemExit(1)

    new_names = {n for p in laws for n in declared(p)} | set(words.values())
    for p in antt + sources + edits + pages:
        code = p.endswith((".antt", ".rt"))
        kept = set(imported_from_the_library(text[p])) if code else set()

        def turned(m):
            w = m.group(0)
            if w in words and w not in kept:
                return words[w]
            # the names that port.py turned in crates/ alone
            if not code and w[0].islower() and w not in there and spelled(w) in new_names:
                return spelled(w)
            return w

        def named(w):
            return words.get(w) or (spelled(w) if spelled(w) in new_names else w)

        def turned_in_prose(m):
            return m.group(0) if "-" in m.group(0) else turned(m)

        def turned_line(line):
            if p in pages:
                line = re.sub(r"`([\w'-]+)`", lambda m: "`" + named(m.group(1)) + "`", line)
                return WORD.sub(turned_in_prose, line)
            mark = re.search(r"(^|\s)(--|//|#)(\s|$)" if p in edits or code else r"$^", line)
            if not mark:
                return WORD.sub(turned, line)
            return WORD.sub(turned, line[: mark.start()]) + WORD.sub(turned_in_prose, line[mark.start() :])

        new = "".join(turned_line(line) for line in text[p].splitlines(keepends=True))
        if new != text[p]:
            open(p, "w", encoding="utf-8").write(new)


if __name__ == "__main__":
    main()
