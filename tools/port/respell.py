#!/usr/bin/env python3
"""Brings the repository's own names to the spelling of today's Rattle, once, right behind the kit's port.py.

usage: tools/port/respell.py [FOLDER]     FOLDER is a checkout; without it, this one

1. names.txt has a line `old new` for each definition, field, constructor and lemma whose name changes, under the first crate that declares it:
   `at-or-below` is `at_or_below`.
   Names are in snake case; a dash stays in a lemma's name where it joins two names, as in `length-each`. Whole words are turned in specs/, proofs/,
   src/ and must-fail/ of every crate; no Rust name and no string has a dash that stands there. A prime sign becomes an apostrophe.
2. Labels that port.py made up for clauses and that mislead get others (LABELS: label and the clause's beginning or end, new label).
3. The old and new texts of must-fail edits that no longer stand in their file are brought to its spelling (edits.py).
It is for a tree as port.py leaves it: the proofs of today have names of the check with a dash too.
"""
import os
import re
import subprocess
import sys

HERE = os.path.dirname(os.path.abspath(__file__))
ROOT = os.path.abspath(sys.argv[1]) if len(sys.argv) > 1 else os.path.dirname(os.path.dirname(HERE))
STOP = r"\s(){}.;,@\"«»`"
ROOM = r"[^{}]*≤ length out\.old"
LABELS = [
    (r"\w+_in_bounds", ROOM, "has_room"),
    (r"fine_value", r"first \d \(rule[-_]violation .*", "earlier_rules_hold"),
    (r"framed", r"Framed a\.now", "a_framed"),
    (r"framed_2", r"Framed b\.now", "b_framed"),
    (r"accepted", r"Accepted a\.now", "a_accepted"),
    (r"accepted_2", r"Accepted b\.now", "b_accepted"),
    (r"partition_2", r"Partition fine\.now", "fine_partition"),
    (r"laid_behind_2", r"LaidBehind .*", "distances_laid"),
    (r"b_value", r"too_short b\.now ≡ false", "long_enough"),
    (r"b_value_2", r"wrong_length b\.now ≡ false", "length_right"),
    (r"b_value_3", r"out_of_range b\.now ≡ false", "in_range"),
    (r"b_value", r"rejection b\.now ≡ none", "accepted"),
    (r"b_value", r"misnumbered b\.now ≡ false", "numbered"),
    (r"a_value", r"verdict a\.now ≡ pass", "a_passes"),
    (r"b_value", r"verdict b\.now ≡ pass", "b_passes"),
    (r"listed_bound", r"\(result\.listed ≤ 255\) .*", "below_256"),
    (r"i_bound", r"\(i ≤ .*", "places_bound"),
    (r"event_bound", r"\(case\.event < .*", "case_bound"),
    (r"s_bound", r"\(s < .*", "states_bound"),
    (r"s_in_bounds", r"\(s < .*", "states_bound"),
    (r"i_value", r"\(i ≡ .*", "places"),
    (r"le_n", r"\(1 ≤ n\) ×.*", "in_range"),
    (r"le_n", r"1 ≤ n", "n_positive"),
]


def files(root):
    for folder, dirs, names in os.walk(os.path.join(root, "crates")):
        dirs[:] = sorted(d for d in dirs if d != "out")
        for n in sorted(names):
            if n.endswith((".antt", ".rt", ".edit")):
                yield os.path.join(folder, n)


def labelled(line):
    m = re.match(r"(\s*(?:requires|ensures) )(\w+)( \{ )(.*)( \}\s*)$", line)
    if m:
        for label, body, new in LABELS:
            if re.fullmatch(label, m.group(2)) and re.fullmatch(body, m.group(4)):
                return m.group(1) + new + "".join(m.groups()[2:])
    return line


def main():
    names = dict(line.split() for line in open(os.path.join(HERE, "names.txt"), encoding="utf-8") if line.strip() and not line.startswith("#"))
    words = "|".join(re.escape(w) for w in sorted(names, key=len, reverse=True))
    whole = re.compile(rf"(?<![^{STOP}])({words})(?![^{STOP}])")
    changed = 0
    for path in files(ROOT):
        old = open(path, encoding="utf-8").read()
        new = whole.sub(lambda m: names[m.group(1)], old)
        if path.endswith(".antt"):
            new = new.replace("\u2032", "'")
        if path.endswith(".rt"):
            new = "\n".join(labelled(line) for line in new.split("\n"))
        if new != old:
            open(path, "w", encoding="utf-8").write(new)
            changed += 1
    print(f"{changed} files respelled")
    return subprocess.run([sys.executable, os.path.join(HERE, "edits.py"), ROOT, "--write"], check=False).returncode


sys.exit(main())
