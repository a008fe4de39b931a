#!/usr/bin/env python3
"""Brings this repository's own definitions and lemmas to the spelling of today's Rattle: words in snake case.

usage: tools/respell.py            at the top of the repository, once, after the kit's port.py

The kit's script turns the names that its libraries know. These are the others: each name below that begins with a
small letter and has a capital in it is written in snake case, alone or as a part of a lemma's name
(spelt-bigEndian is spelt-big_endian), in specs/, proofs/, the clauses of src/, the edits and the pages.
A dash in a lemma's name stays: it joins a name and what is said of it. Types, modules and the rules of the paper's
figure 4 (JUMP, SUBSTITUTE, ..) keep their capitals, functions of src/ and exported names are not touched.
The edits and pages also get the names that port.py turned in the sources alone (PORTED).
It ends with the names that fall together with one that is there already: labels_at, read_image and same_types are
functions of src/ too, which answer just these definitions.
"""

import glob
import re
import sys

OURS = """
aJump aLet aNew aStatement aSubstitute aSwitch anExtern anInteger anInvoke bareAnswer bigEndian bodiesBytes bodyStarts
bothExit bothGo byArguments byExit byFuel byImage byRoom byRun byTable clauseCount clausePlaces clausesBytes entryFrom
entryType firstFault fuelSpent headBytes headerOf inBodies inClauses inRegion inStatement integerAt isEnded isNamed
isUnknown kindByte labelsAt labelsBytes largestImage largestTable lastWord letFails letGoes litExits literalBytes
mostLabels mostParameters mostSignatures mostSymbols newBad newFails newGoes newOn noClauses noStep numberByte
ofArguments ofCheck ofExit ofFuel ofHead ofKinds ofRoom ofSignature ofTable onwardFails onwardGoes operationByte
operationBytes operationIs operationNot parametersBytes passedClause readHeader readImage roomSpent runTerms runTrees
sameConsumer sameInteger sameProducer sameType sameTypes signatureBytes signaturesBytes statementBytes storedBy
substituteFails substituteGoes switchFails switchGoes symbolCount
""".split()
# The fields of a record, which have no dash.
FIELDS = "signatures-few signatures-known labels-few labels-known bodies-typed".split()
PORTED = {
    "getD": "get_or",
    "getElem?": "get_elem?",
    "flatMap": "flat_map",
    "typeBytes": "type_bytes",
    "numberOf": "number_of",
    "valueOf": "value_of",
    "answerOf": "answer_of",
    "kindOf": "kind_of",
    "stepOf": "step_of",
    "let′": "let'",
}
WORD = re.compile(r"[^\s(){}.;,@\"«»`/:|\[\]]+")


def snake(name):
    return re.sub(r"(?<=[a-z0-9])[A-Z]", lambda m: "_" + m[0].lower(), name)


def turned(table, text):
    def word(m):
        if m[0] in table:
            return table[m[0]]
        return "-".join(table.get(part, part) for part in m[0].split("-"))

    return WORD.sub(word, text)


def files(*ends):
    return sorted(f for end in ends for f in glob.glob(end, recursive=True))


def main():
    ours = {name: snake(name) for name in OURS} | {name: name.replace("-", "_") for name in FIELDS} | {"flatMap": "flat_map"}
    sources = files("crates/**/*.antt", "crates/**/*.rt")
    texts = {f: open(f, encoding="utf-8").read() for f in sources}
    there = {w for t in texts.values() for w in WORD.findall(t)}
    together = sorted(f"{old} -> {new}" for old, new in ours.items() if old != "flatMap" and new in there)
    for f in sources:
        write(f, texts[f], turned(ours, texts[f]))
    for f in files("crates/**/*.edit", "README.md", "docs/**/*.md"):
        text = open(f, encoding="utf-8").read()
        new = turned(PORTED | ours, text)
        if f.endswith(".edit"):
            # projections are written tight, and a prime is an apostrophe
            new = re.sub(r"\((\w+) \.(\w+)\)", r"\1.\2", new).replace("′", "'")
        write(f, text, new)
    print("respell: fall together with a name that is there:", ", ".join(together) or "none")
    return 0


def write(path, before, after):
    if after != before:
        with open(path, "w", encoding="utf-8") as f:
            f.write(after)


if __name__ == "__main__":
    sys.exit(main())
