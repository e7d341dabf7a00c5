#!/usr/bin/env python3
"""Brings the names of this repository's own definitions, lemmas, fields and constructors to today's spelling: words joined by `_`.

usage: python3 tools/respell.py     at the top, once, on a tree that the toolchain's port.py has turned

A name that a file of specs/ or proofs/ defines, or brings in by `as`, with a dash gets `_` in each place where it stands as a whole word, in every crate's src/, specs/,
proofs/ and must-fail/. Names of goals, invariants and measures, which the check makes from the source, keep theirs. So do functions of src/,
strings, inputs and outputs: no name of those has a dash. It prints each new name that was in use already, and each name that it turned.
"""

import glob
import re

# a whole word of antt: letters, digits, _, ', -, and the few signs that stand inside names here
WORD = re.compile(r"[\w'⊥+≡≢≤][\w'⊥+≡≢≤-]*")
DEFINES = re.compile(r"^\s*(?:(?:abbrev|unfoldable|pub|data|record)\s+)*([^\s:(){}λ.,;=]+)\s*(?:[({][^=]*[)}])?\s*:(?:\s|$)")
ALIAS = re.compile(r" as ([\w'-]+-[\w'-]+)")
GOAL = re.compile(r":\s*goal\.")

# a ghost member whose two words stood joined, and lemmas that would have the name of the function of src/ that they prove
OTHERS = {
    "arclimit": "arc_limit",
    "example-meets-rules": "example_meets_rules_lem",
    "no-cycle-where-rising": "no_cycle_where_rising_lem",
    "one-trace-answer": "one_trace_answer_lem",
    "one-under-answer": "one_under_answer_lem",
    "rivals-decide-no-more": "rivals_decide_no_more_lem",
    "rules-compute": "rules_compute_lem",
    "trace-where-path": "trace_where_path_lem",
}


def read(path):
    with open(path, encoding="utf-8") as f:
        return f.read()


def paths():
    for pattern in ("specs/**/*.antt", "proofs/**/*.antt", "src/**/*.rt", "must-fail/*.edit"):
        yield from sorted(glob.glob("crates/*/" + pattern, recursive=True))


def defined():
    """The dashed names that a file of specs/ or proofs/ defines, goals aside, and those that a `use` line gives by `as`."""
    names = set()
    for path in paths():
        for line in read(path).splitlines():
            if "use Rattle" in line:
                names.update(ALIAS.findall(line))
            if not path.endswith(".antt"):
                continue
            found = DEFINES.match(line)
            if found and "-" in found.group(1) and not GOAL.search(line):
                names.add(found.group(1))
    return names


def main():
    turned = {name: name.replace("-", "_") for name in defined()}
    turned.update(OTHERS)
    known = set()
    for path in paths():
        known.update(WORD.findall(read(path)))
    for name in sorted(turned):
        if turned[name] in known:
            print("falls together:", name, "->", turned[name])
    for path in paths():
        text = read(path)
        new = WORD.sub(lambda m: turned.get(m.group(0), m.group(0)), text)
        if new != text:
            with open(path, "w", encoding="utf-8") as f:
                f.write(new)
    for name in sorted(turned):
        print(name, "->", turned[name])


main()
