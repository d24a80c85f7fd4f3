#!/usr/bin/env python3
"""Brings the definitions and lemmas of this repository to today's spelling: words in snake case, no dash, no capital inside.

usage: python3 tools/respell.py   at the top, once, after the kit's own script for older repositories

It collects the names that specs/ and the lemma files of proofs/ define (definitions, lemmas, constructors, record fields), spells
those anew that have a dash or a capital inside, and replaces them as whole words in every .antt file, and in the .rt files, where only
clauses and ghost items name them. It stops before it writes where two names would fall together.
"""
import collections
import glob
import re

WORD = r"[^\s(){}:.,;λ«»\"]+"
SIGNATURE = re.compile(r"\s*(?:unfoldable |abbrev )?(?:pub )?(?:abbrev |record |data )?(" + WORD + r")(?:\s+[({].*)?\s*:\s")
ALIAS = re.compile(r" as ([a-z]\w*[A-Z]\w*)")
TOKEN = re.compile(r"(?<![\w'·?≡≢<≤+*∷◌×⊎→-])([A-Za-z_][\w'?·-]*)")
# a name that another already has, or whose plain respelling would be one
CHOSEN = {
    "leadingZero?": "leading_zero",
    "digit?": "is_decimal",
    "lacks?": "lacks_byte",
    "none?": "is_zero",
    "fits?": "access_fits",
    "Object?": "ObjectOrNone",
    **{f"{word}?": f"{word}_in_range" for word in "level mark entity session item set access right".split()},
    "all-proper": "each_proper",
    "bit-and": "bit_of_and",
    "bit-or": "bit_of_or",
    "no-session": "holds_no_session",
    "refusalOf": "refusal_for",
    "stands-in": "stands_within",
    "topicOf": "topic_numbered",
    "isObject": "object_at",
    "isContainer": "container_at",
    "isOrdinary": "ordinary_at",
    "isStrong": "strong_mode",
}
# a function of another crate has the name, and no clause or proof sees both
APART = {"of_sort", "answer_line", "by_program", "give_up", "one_outcome"}


def files(*kinds):
    return sorted(p for kind in kinds for p in glob.glob("crates/*/" + kind, recursive=True) if "/out/" not in p)


def is_old(name):
    return "-" in name or "?" in name or (name[0].islower() and re.search("[A-Z]", name))


def respelled(name):
    return CHOSEN.get(name) or re.sub(r"(?<=[a-z0-9])([A-Z])", lambda m: "_" + m.group(1).lower(), name).replace("-", "_")


def main():
    defined = set()
    for path in files("specs/*.antt", "proofs/*.antt"):
        for line in open(path, encoding="utf-8"):
            m = SIGNATURE.match(line)
            if m and re.match(r"[A-Za-z]", m.group(1)):
                defined.add(m.group(1))
    for path in files("src/**/*.rt"):
        defined.update(name for line in open(path, encoding="utf-8") if line.startswith("ghost use") for name in ALIAS.findall(line))
    table = {name: respelled(name) for name in defined if is_old(name)}
    texts = {p: open(p, encoding="utf-8").read() for p in files("specs/**/*.antt", "proofs/**/*.antt", "src/**/*.rt")}
    used = collections.Counter(t for text in texts.values() for t in TOKEN.findall(text))
    together = [f"{old} and {new}" for old, new in sorted(table.items()) if used[new] and new not in APART or list(table.values()).count(new) > 1]
    if together:
        raise SystemExit("these would fall together: " + ", ".join(together))
    for path, text in texts.items():
        turned = TOKEN.sub(lambda m: table.get(m.group(1), m.group(1)), text)
        if turned != text:
            open(path, "w", encoding="utf-8").write(turned)
    print(f"{len(table)} names are spelled anew")


main()
