#!/usr/bin/env python3
"""Brings the repository's own definitions and lemmas to today's spelling: words in snake case, a dash only between the parts of a lemma's name.

usage: python3 tools/respell.py [FOLDER]     after port.py, once, at the top of the repository (or of FOLDER)

Functions of src/, exported names, strings, inputs and outputs keep their names: the script knows only the names below, whole tokens, in
.antt files, in the clauses and ghost items of .rt files, and in the pages. No must-fail edit has one of them.
"""
import glob
import os
import re
import sys

CAMEL = """
addWords allOnes askOf badCapacity badSliceSize badState bitStep bytesBound corruptOne counterFull crcOf creatorType dataAt defaultCap
digestOf digestRight emptyReader exponentOf feedDigest fileDescType finishDigest finishOf firstData foundExponents foundIn freeFrom
freshDigest freshReader hashedOf ifscType keepOne lengthBytes limitOf listByArrival listByExponent listShort listingRefusal longPacket
magicOf mainType mixF mixG mixH mixI mixOf newReader noBound ourSet paddingBits readToEnd readVolume readerAfter recoveryType rowLimit
rowsBound seenOne setBudget setOf slotData stepWith storeShort tailEnd takeIn usableLength volumeRefusal wantedPacket withCap
withLimit withMaxVolumeBytes bitAnd bitOr bitXor blockOf stepOf stepsOf wordAt wordBytes
""".split()
# Names that the rule does not make, or that would fall together with a definition's.
OWN = {
    "all-below": "all_below",
    "in-range": "in_range",
    "whole-packet": "whole_packet",
    "open-rules": "open_rules",
    "takeAll": "take_in_all",
    "takeAll-append": "take_in_all-append",
    "getD-firsts": "get_or-firsts",
    "getD-sums": "get_or-sums",
    "get_d_rows": "get_or-rows",
    "map_steps": "map-steps",
    "length_rest": "length-rest",
    "word-at": "get_or-words",
    "mix-f": "mix_f_lem",
    "mix-g": "mix_g_lem",
    "mix-h": "mix_h_lem",
    "mix-i": "mix_i_lem",
}
# Lemmas of one file whose names a definition of the same crate now has.
IN_FILE = {"crates/rules/proofs/Keep.antt": {"take_in": "inv-take_in", "take_all": "inv-take_in_all"}}
TOKEN = re.compile(r"[^\s(){}\[\].,;:`«»⌜⌝]+")


def snake(name):
    return re.sub(r"(?<=[a-z0-9])([A-Z])", lambda m: "_" + m.group(1).lower(), name)


NAMES = {n: snake(n) for n in CAMEL} | OWN


def turn(text, names):
    return TOKEN.sub(lambda m: names.get(m.group(0), m.group(0)), text)


def turn_code(text):
    """Of a .rt file: the ghost items and the clauses, which are one line each."""
    return "".join(turn(l, NAMES) if re.match(r"\s*(ghost use|requires|ensures|//)", l) else l for l in text.splitlines(True))


def main(top):
    files = sorted(f for k in ("crates/**/*.antt", "crates/**/*.rt", "crates/*/README.md", "docs/*.md", "README.md") for f in glob.glob(os.path.join(top, k), recursive=True) if "/out/" not in f)
    for f in files:
        with open(f, encoding="utf-8") as h:
            old = h.read()
        new = turn(old, IN_FILE.get(os.path.relpath(f, top), {}))
        if f.endswith(".rt"):
            new = turn_code(new)
        else:
            new = turn(new, NAMES)
        if new != old:
            with open(f, "w", encoding="utf-8") as h:
                h.write(new)
            print(os.path.relpath(f, top))


main(sys.argv[1] if len(sys.argv) > 1 else ".")
