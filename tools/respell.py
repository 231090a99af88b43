#!/usr/bin/env python3
"""Brings the names of this repository's own definitions and lemmas to one spelling, once, after the kit's port.py.

usage: python3 tools/respell.py          at the top: rewrites crates/*/specs, proofs, src (ghost text and comments), must-fail and docs
       python3 tools/respell.py --list   prints each name with its new spelling, and changes nothing

A fact or a type is in upper camel case, everything else in snake case. Functions of src/, goals and other names that the check makes,
strings, inputs and outputs keep their names.
"""
import glob
import re
import sys

# a name in antt: letters, digits, marks, and dashes inside it
NAME = r"[^\s(){}\[\];,.:\"]+"
HEAD = re.compile(r"^(\s*)((?:(?:abbrev|unfoldable|opaque|pub|record|data|ruleset)\s+)*)(" + NAME + r")((?:\s*(?:\([^()]*\)|\{[^{}]*\}))*)\s*:\s+(.*)$")
# what port.py itself turned in specs/ and proofs/: the edits and pages follow here
TURNED = """
    aim-same all-alike all-read all-told andThen at-both at-least at-left at-most at-place at-split bit-high bit-not bit-past bitAt blockOf both-ok
    bytes-cut bytes-of bytes-same bytesOf count-same counted-of digit-at digit-not drop-min each-from entry-past few-bytes firstWord fits-after
    follows-same found-at free-step from-in from-named going-more in-bounds in-left in-right kept-same key-back length-cut lengthOf less-zero let-go
    list-same low-below map-same missing-at mod-same names-same never-both next-place no-digit no-gaps noMore none-allowed none-left not-end
    one-follows one-left one-more only-same only-zero pairAt part-of part-small partOf past-top pieces-more pieces-none pieces-step place-same
    places-same put-some read-all read-back run-step same-some set-at size-ok sizeOf slot-same some-left some-of spotOf stands-at step-kept stored-at
    stored-other stored-there sumOf take-min takenOf told-more too-large took-more turn-is two-runs under-top upto-all upto-skip walked-all
    walked-end walked-more walked-none whole-by word-of word-same write-bytes
""".split()
# by hand: a fact in small letters, and lemmas that would have their definition's name
BY_HAND = {"lentTo": "LentTo", "in-second": "in_second_lem", "when-none": "when_none_lem"}
WORDS = {"use", "let", "where", "--", "λ", "elim", "mod", "in"}


def antt_files():
    return sorted(f for part in ("specs", "proofs") for f in glob.glob("crates/*/" + part + "/**/*.antt", recursive=True))


def snake(name):
    name = re.sub(r"([a-z0-9])([A-Z])", r"\1_\2", name).replace("-", "_")
    return name.lower()


def camel(name):
    return "".join(part[:1].upper() + part[1:] for part in re.split(r"[-_]", name))


def declared():
    """Returns the new spelling of each name that the repository declares and that changes, and which names are fields."""
    found = {}
    fields = set()
    for f in antt_files():
        for line in open(f, encoding="utf-8"):
            m = HEAD.match(line)
            if not m:
                continue
            indent, marks, name, _, rest = m.groups()
            if name in WORDS or rest.startswith("goal."):
                continue
            if not ("-" in name.strip("-") or re.search(r"[a-z0-9][A-Z]", name)):
                continue
            fact = "record" in marks.split() or "data" in marks.split() or re.search(r"Type \d+( where)?\s*$", rest) is not None
            if name[0].isupper() and not fact and "-" not in name:
                continue
            if name[0].islower() and fact:
                print("a fact with a small first letter:", name, f, file=sys.stderr)
            if indent and "pub" in marks.split():
                fields.add(name)
            new = BY_HAND.get(name) or (camel(name) if name[0].isupper() else snake(name))
            if new != name:
                found[name] = new
    return found, fields


def respell(text, names, fields, where):
    token = re.compile(r"(?<![\w'·-])(" + "|".join(re.escape(n) for n in sorted(names, key=len, reverse=True)) + r")(?![\w'·-])")

    def one(m):
        name = m.group(1)
        if m.start() and text[m.start() - 1] == "." and name not in fields:
            before = text[max(0, m.start() - 60):m.start()].split()[-1]
            if re.search(r"(^|[^\w.])(c|w|l|g|goal)(\.[^\s()]*)*\.$", before):
                print("kept after a dot:", where, before + name, file=sys.stderr)
                return name
        return names[name]

    return token.sub(one, text)


def main():
    names, fields = declared()
    if "--list" in sys.argv:
        for n in sorted(names):
            print(n, names[n])
        return
    # names that fall together
    seen = {}
    everything = {}
    for f in antt_files():
        everything[f] = open(f, encoding="utf-8").read()
    for n, new in sorted(names.items()):
        if new in seen:
            print("fall together:", n, seen[new], "as", new, file=sys.stderr)
        seen[new] = n
        for f, t in everything.items():
            if re.search(r"(?<![\w'·-])" + re.escape(new) + r"(?![\w'·-])", t):
                print("there already:", new, "in", f, "(from " + n + ")", file=sys.stderr)
    for f, t in everything.items():
        r = respell(t, names, fields, f)
        if r != t:
            open(f, "w", encoding="utf-8").write(r)
    turned = dict(names, **{n: snake(n) for n in TURNED})
    for f in sorted(glob.glob("crates/*/src/**/*.rt", recursive=True) + glob.glob("crates/*/must-fail/*.edit")
                    + glob.glob("docs/**/*.md", recursive=True) + ["README.md"]):
        t = open(f, encoding="utf-8").read()
        out = []
        for line in t.split("\n"):
            r = respell(line, names if f.endswith(".rt") else turned, fields, f)
            if r != line:
                out.append(r)
                if f.endswith(".md") or not re.match(r"^\s*(ghost|requires|ensures|//)", line):
                    print("look:", f, r.strip(), file=sys.stderr)
            else:
                out.append(line)
        if "\n".join(out) != t:
            open(f, "w", encoding="utf-8").write("\n".join(out))


main()
