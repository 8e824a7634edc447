#!/usr/bin/env python3
"""Respells the repository's own definitions and lemmas in snake case, and its types in camel case.

usage: python3 tools/respell.py          at the top: writes the files, and prints each name with its new spelling
       python3 tools/respell.py --list   prints only

A name is one that a signature of specs/ or proofs/ declares, a definition, a lemma, a field or a constructor, or one
that an import gives it. The names that Rattle makes for goals, in proofs/ below a function's folder, are left. What is
renamed is every word that is such a name: in the .antt files, in the .rt files outside of string literals, and in the
pages between backticks.
"""

import glob
import re
import sys

SIGNATURE = re.compile(r"^\s*(?:pub )?(?:abbrev |unfoldable )?(?:pub )?([^\s:(){},.;|\"]+) : (.*)$")
ALIAS = re.compile(r"\S+ as ([^\s,}]+)(?=[,}])")
WORD = re.compile(r"[^\s(){},.;:|\"`\[\]]+")
STRING = re.compile(r'b?"(?:[^"\\]|\\.)*"')

# Spelled by hand: where two names would become one, or would become a word that is taken.
BY_HAND = {"after-put": "entry_after_put", "is-zero": "is_zero_lem", "one-at": "one_at_lem"}


def is_fact_or_type(name):
    return name[0].isupper() and "-" not in name


def snake(name):
    name = name.replace("-", "_")
    name = re.sub(r"([a-z0-9])([A-Z])", r"\1_\2", name)
    name = re.sub(r"([A-Z])([A-Z][a-z])", r"\1_\2", name)
    return name.lower()


def files(*patterns):
    return sorted(f for p in patterns for f in glob.glob(p, recursive=True) if "/out/" not in f)


def declared():
    found = {}
    for path in files("crates/*/specs/**/*.antt", "crates/*/proofs/**/*.antt"):
        for line in open(path, encoding="utf-8"):
            for alias in ALIAS.findall(line):
                found.setdefault(alias, path)
            m = SIGNATURE.match(line)
            if not m:
                continue
            name, of = m.groups()
            if name in ("let", "where", "module", "λ", "∙", "use") or of.startswith("goal."):
                continue
            found.setdefault(name, path)
    for path in files("crates/*/src/**/*.rt"):
        for line in open(path, encoding="utf-8"):
            if line.startswith("ghost use "):
                for alias in ALIAS.findall(line):
                    found.setdefault(alias, path)
    return found


def respelled():
    turned = {}
    for name, path in declared().items():
        new = BY_HAND.get(name, name if is_fact_or_type(name) else snake(name))
        if new != name:
            turned[name] = new
    return turned


def turn(text, turned):
    return WORD.sub(lambda m: turned.get(m.group(), m.group()), text)


def turn_source(text, turned):
    """The words outside of string literals."""
    at, made = 0, []
    for m in STRING.finditer(text):
        made += [turn(text[at : m.start()], turned), m.group()]
        at = m.end()
    return "".join(made + [turn(text[at:], turned)])


def turn_page(text, turned):
    """The words between backticks."""
    return re.sub(r"`[^`\n]+`", lambda m: turn(m.group(), turned), text)


def main():
    turned = respelled()
    for name in sorted(turned):
        print(name, turned[name])
    if "--list" in sys.argv:
        return
    for path in files("crates/*/specs/**/*.antt", "crates/*/proofs/**/*.antt", "crates/*/src/**/*.rt", "README.md", "docs/*.md"):
        with open(path, encoding="utf-8") as f:
            text = f.read()
        new = {"antt": turn, "rt": turn_source, "md": turn_page}[path.rsplit(".", 1)[1]](text, turned)
        if new != text:
            with open(path, "w", encoding="utf-8") as f:
                f.write(new)


main()
