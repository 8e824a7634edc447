#!/usr/bin/env python3
"""Checks that what each call of a tray does is what it was when the law of trays first landed.

usage: python3 tools/as_landed.py LANDED     at the top; LANDED is a checkout of the commit in the first line of
                                             docs/PORT.md, turned by the kit's port.py and by tools/respell.py

The definitions of the landed crates/tray/specs/Effects.antt that take a calculus K are put into a copy of `traylaw`,
beside today's, and the prover is asked that each of them is today's by computation alone (`refl`). Of the others
there, of Calculus.antt, Runs.antt and Law.antt, and of the signatures of the landed proofs, the words are compared:
`K.degree` may stand where `K` stood. Nothing of the repository is changed.
"""

import os
import re
import shutil
import subprocess
import sys
import tempfile

DEFINED = re.compile(r"^  (?:abbrev|unfoldable) pub (\w+) : (.*)$", re.M)
SHARED = "use Rattle.traylaw.specs.Effects.{Phase, Phase.Open, Phase.Closed, Phase.Burnt, After}\n"
MOVED = {
    "Rattle.steps.specs.Asked.{inversion_steps}": "Rattle.divstep.specs.ReadOff.{inversion_steps}",
    "Rattle.tray.specs.Calculus": "Rattle.traylaw.specs.Calculus",
}
IMPORTS = """use Rattle.std.proofs.Common.{◌≡◌, ℕ, List, Bool, Option, refl}
use Rattle.refusal.specs.declared.Refusal.{Refusal}
use Rattle.traylaw.specs.Calculus.{Calculus}
use Rattle.traylaw.specs.Effects.{After}
"""


def read(path):
    with open(path, encoding="utf-8") as f:
        return f.read()


def write(path, text, how="w"):
    with open(path, how, encoding="utf-8") as f:
        f.write(text)


def landed_effects(landed):
    """The landed definitions, over the phases and the answers of today, whose words are the same."""
    text = read(f"{landed}/crates/tray/specs/Effects.antt")
    begin, end = text.index("-- an open tray is filled"), text.index("-- the new value if the call is accepted")
    text = text[:begin] + text[end:]
    for old, new in MOVED.items():
        text = text.replace(old, new)
    return text.replace("use Rattle.refusal", SHARED + "use Rattle.refusal", 1)


def place(name, sheets, effects):
    """The module of a definition of today, and the word between it and its arguments."""
    if re.search(rf"(abbrev|unfoldable) pub {name} :", sheets):
        return "Sheets", " K.degree"
    found = re.search(rf"^( *)(?:abbrev|unfoldable) pub {name} :", effects, re.M)
    if not found.group(1):
        return "Effects", ""
    return "Effects", " K" if found.start() > effects.index("module _ (K : Calculus)") else " K.degree"


def equalities(text, specs):
    sheets, effects = read(f"{specs}/Sheets.antt"), read(f"{specs}/Effects.antt")
    found = [(name, of, *place(name, sheets, effects)) for name, of in DEFINED.findall(text)]
    opened = [n for n, *_ in found if re.search(rf"unfoldable pub {n} :", text)]
    made = [IMPORTS, "use Rattle.traylaw.specs.Landed.{" + ", ".join(f"{n} as old_{n}" for n, *_ in found) + "}\n"]
    for module in ("Sheets", "Effects"):
        names = ", ".join(f"{n} as new_{n}" for n, _, m, _ in found if m == module)
        made.append(f"use Rattle.traylaw.specs.{module}.{{{names}}}\n")
    for n, of, _, at in found:
        made.append(f"\npub same_{n} : (K : Calculus) → ◌≡◌ {{A = {of}}} (old_{n} K) (new_{n}{at})\n")
        made.append("unfolding " + " ".join(f"old_{o} new_{o}" for o in opened) + f"\nsame_{n} K = refl\n")
    return len(found), "".join(made)


def words(text):
    """A text's words, without imports and comments, with `K.degree` read as `K`."""
    lines = [it for it in text.splitlines() if not it.lstrip().startswith(("use ", "--"))]
    return " ".join("\n".join(lines).replace("(K.degree)", "K").replace("K.degree", "K").split())


def outside(text):
    """The definitions that stand in no module, each by its words."""
    found = [words(it) for it in re.split(r"\n\s*\n", text) if not it.startswith((" ", "module"))]
    return {it for it in found if it}


def signatures(folder):
    """The signatures of the lemma files of a folder, each by its words."""
    found = set()
    for name in sorted(os.listdir(folder)):
        if not name.endswith(".antt"):
            continue
        lines = read(f"{folder}/{name}").splitlines()
        for i, line in enumerate(lines):
            m = re.match(r"^(\s*)(?:abbrev |unfoldable )?(?:pub )?([^\s:(){},.;|]+) : (.*)$", line)
            if not m or line.lstrip().startswith(("let ", "--", "use ")):
                continue
            text = [m[2] + " : " + m[3]]
            for more in lines[i + 1 :]:
                deeper = len(more) - len(more.lstrip()) > len(m[1])
                if not more.strip() or not deeper or re.match(rf"\s*(unfolding|{re.escape(m[2])})\b", more):
                    break
                text.append(more)
            found.add(words("\n".join(text)))
    return found


def compare(landed):
    """Compares the words of what the prover is not asked about."""
    law = "crates/traylaw"
    for name in ("Calculus", "Runs", "Law"):
        if words(read(f"{landed}/crates/tray/specs/{name}.antt")) != words(read(f"{law}/specs/{name}.antt")):
            sys.exit(f"as_landed: FAILED: {name}.antt says something else")
        print(f"as_landed: {name}.antt: the same words")
    old = outside(read(f"{landed}/crates/tray/specs/Effects.antt"))
    new = outside(read(f"{law}/specs/Effects.antt")) | outside(read(f"{law}/specs/Sheets.antt"))
    if old - new:
        sys.exit("as_landed: FAILED: Effects.antt: " + "; ".join(old - new))
    print(f"as_landed: Effects.antt: {len(old)} definitions that take no K: the same words")
    old, new = signatures(f"{landed}/crates/tray/proofs"), signatures(f"{law}/proofs")
    if old - new:
        sys.exit("as_landed: FAILED: proofs/: " + "; ".join(old - new))
    print(f"as_landed: proofs/: {len(old)} signatures: the same words")


def main():
    if len(sys.argv) != 2:
        sys.exit(__doc__)
    landed = sys.argv[1]
    compare(landed)
    with tempfile.TemporaryDirectory() as room:
        shutil.copy("crates.txt", room)
        shutil.copytree("crates", f"{room}/crates", ignore=shutil.ignore_patterns("out"))
        subprocess.run(["git", "init", "-q", room], check=True)
        law = f"{room}/crates/traylaw"
        text = landed_effects(landed)
        count, asked = equalities(text, f"{law}/specs")
        write(f"{law}/specs/Landed.antt", text)
        write(f"{law}/specs/Lib.antt", "pub mod Landed\n", "a")
        write(f"{law}/proofs/AsLanded.antt", asked)
        write(f"{law}/proofs/Lib.antt", "pub mod AsLanded\n", "a")
        ran = subprocess.run(["rt", "check"], cwd=law, stdout=subprocess.PIPE, stderr=subprocess.STDOUT, text=True)
    if ran.returncode or not re.search(r"(?m)^logic=proved", ran.stdout):
        sys.exit(ran.stdout + "as_landed: FAILED")
    print(f"as_landed: Effects.antt: {count} definitions that take K are today's by computation alone")


main()
