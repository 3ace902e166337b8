#!/usr/bin/env python3
"""Respells the project's own definitions and lemmas from camel case to snake case, as Rattle now spells them.

usage: python3 tools/respell.py      at the top, once, after the kit's own script has turned the sources

WORDS lists every such name. A word is changed where it stands alone or as a part of a dashed lemma name, in .antt and .rt
files and in must-fail edits; functions of src/, strings, inputs and outputs have none of them and keep their names.
CLASHES are lemmas that a new spelling would fall together with.
"""

import pathlib
import re

WORDS = """
activationOf allAsked allSpins atLeast badCoupling bondAt bondOf bwdAt bwdTable callFrom classesOk coinsOf coordAt decisionIn
drawOf eachFrom extentsOf flagOf fourOf fwdAt fwdTable generatorOf getD headsOf howMany inDomain isActive isCoupling isEntry
isSpin lengthsOk lensAsked lensOk lentWith marksOf minusOneF needEach observedBy ofSize oneF planeOf refusalAt refusedAs
replyOf restsFor rootIn rootOf shapeFor sizesOf spinAt spinIn startLists stateAt tabFrom thresholdOf thresholdsOk topFrom
turnedAt twoAxes upFrom valuesAsked verdictIn visitOf windingOf zeroF
""".split()

CLASHES = {"crates/claims": {"root_in": "roots_in"}}


def snake(word):
    if word == "getD":
        return "get_or"
    return re.sub(r"(?<=[a-z0-9])([A-Z])", lambda m: "_" + m[1].lower(), word)


def respelled(text, clashes):
    token = r"(?<![\w'₀-₉])(%s)(?![\w'₀-₉])"
    for old, new in clashes.items():
        text = re.sub(token % old, new, text)
    return re.sub(token % "|".join(WORDS), lambda m: snake(m[1]), text)


def main():
    for path in sorted(pathlib.Path("crates").rglob("*")):
        if path.suffix not in (".antt", ".rt", ".edit") or "out" in path.parts:
            continue
        clashes = CLASHES.get("/".join(path.parts[:2]), {})
        text = path.read_text(encoding="utf-8")
        new = respelled(text, clashes)
        if new != text:
            path.write_text(new, encoding="utf-8")


if __name__ == "__main__":
    main()
