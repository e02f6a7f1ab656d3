#!/usr/bin/env python3
"""Brings this repository's own definitions and lemmas to today's spelling: words in snake case, facts in camel case, a prime
as an apostrophe.

usage: python3 tools/respell.py        at the top of a checkout in which the kit's port.py has run

It reads which names the .antt files of specs/ and proofs/ declare, and respells those in every .antt and .rt file. A dash
before an operator stays, since it joins two names (`words-++`). The .rt text outside clauses has no such names.
"""

import glob
import re
import sys

WORD = r"[^\s(){}\[\],;.:λ]+"
DECLARES = re.compile(rf"^\s*(?:abbrev pub |unfoldable pub |pub |abbrev |unfoldable )?(?:data |record |ruleset |module )?((?:{WORD} )*{WORD})(?: \([^)]*\)| \{{[^}}]*\}})* :(?: |$)")
WORDS_OF_ANTT = {"let", "in", "as", "elim", "use", "unfolding", "where", "open"}


def files(*patterns):
    return sorted(f for p in patterns for f in glob.glob(p, recursive=True) if "/out/" not in f)


def declared():
    """The names that specs/ and the shared files of proofs/ declare, fields and constructors too."""
    names = set()
    for path in files("crates/*/specs/*.antt", "crates/*/proofs/*.antt"):
        for line in open(path, encoding="utf-8"):
            found = DECLARES.match(line)
            if found and not line.lstrip().startswith("--"):
                words = found.group(1).split()
                if not WORDS_OF_ANTT & set(words):
                    names |= set(words)
    return names


def respelled(name):
    if name.endswith("-++"):
        return respelled(name[:-3]) + "-++"
    name = name.replace("′", "'")
    if name[0].isupper():
        first, *rest = name.split("-")
        return first + "".join(part[0].upper() + part[1:] for part in rest)
    return name.replace("-", "_")


def main():
    names = declared()
    turned = {n: respelled(n) for n in sorted(names) if n[0].isalpha() and respelled(n) != n}
    for old, new in turned.items():
        if new in names or list(turned.values()).count(new) > 1:
            sys.exit(f"respell: {old} would fall together with another {new}")
    token = re.compile(r"(?<![\w'′+*·-])(" + "|".join(re.escape(n) for n in sorted(turned, key=len, reverse=True)) + r")(?![\w'′+*·-])")
    changed = 0
    for path in files("crates/**/*.antt", "crates/**/*.rt"):
        text = open(path, encoding="utf-8").read()
        new = token.sub(lambda found: turned[found.group(1)], text)
        if new != text:
            open(path, "w", encoding="utf-8").write(new)
            changed += 1
    for old, new in turned.items():
        print(f"{old} -> {new}")
    print(f"respell: {len(turned)} names, {changed} files")


if __name__ == "__main__":
    main()
