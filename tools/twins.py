#!/usr/bin/env python3
"""twins.py [FOLDER]: pairs of functions below FOLDER (crates/) that are alike but for names and numbers, with how alike (1: the same).

Comments, clauses and ghost lines do not count. A pair is a place to look: whether it says one thing twice, a reader decides.
"""
import difflib, pathlib, re, sys

LEAST = 0.85
WORDS = {"fn", "let", "mut", "if", "else", "for", "in", "while", "return", "as", "u8", "u16", "u32", "u64", "usize", "impl", "self", "Self"}
top = pathlib.Path(sys.argv[1] if len(sys.argv) > 1 else "crates")


def functions(text):
    """name and tokens of each function, its names and numbers blanked"""
    text = re.sub(r"//.*|^ *ghost .*", "", text, flags=re.M)
    text = re.sub(r"^ *(requires|ensures)\b.*?(;?)$", r"\2", text, flags=re.M)
    for m in re.finditer(r"\bfn (\w+)", text):
        start = text.find("{", m.start())
        head, inner = text[m.start():start], 1
        while inner:
            head, inner = re.subn(r"\[[^\[\]]*\]", "", head)
        if start < 0 or ";" in head:
            continue  # a method that a trait only names
        depth, end = 0, start
        for end in range(start, len(text)):
            depth += {"{": 1, "}": -1}.get(text[end], 0)
            if depth == 0:
                break
        tokens = re.findall(r"\w+|[^\w\s]", text[m.start():end + 1])
        yield m.group(1), [t if t in WORDS or not t[0].isalnum() else "0" if t[0].isdigit() else "x" for t in tokens]


found = [(f"{p.relative_to(top)}: {n}", t) for p in sorted(top.glob("*/src/**/*.rt")) for n, t in functions(p.read_text())]
pairs = 0
for i, (a, x) in enumerate(found):
    for b, y in found[:i]:
        alike = difflib.SequenceMatcher(None, x, y, autojunk=False).ratio()
        if alike >= LEAST:
            pairs += 1
            print(f"{alike:.2f}  {b}  ~  {a}")
print(f"{pairs} pairs among {len(found)} functions")
