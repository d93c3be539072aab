#!/usr/bin/env python3
"""Respells this repository's own definitions and lemmas: words in snake case, as PORTING.md, part 3, has it.

usage: tools/respell.py            at the top, once, behind port.py

port.py respells the names that the library has too. This script turns the others: every name with a dash or a capital inside that
specs/ or a law file of proofs/ declares or binds, in all .antt files and in the ghost lines of .rt files. Names of types, of the library and of what Rattle
makes for a function's proof stay. Where two names fall together, the lemma gets `_lem`, or the name stands in OTHERS.
"""

import os
import re
import sys

NAME = r"[A-Za-zℕ⊎0-9_'′?₀-₉·⁻¹-]++"
WORD = re.compile(r"(?<![A-Za-z0-9_'′?₀-₉·⁻¹-])" + NAME)
MARKS = r"(?:(?:abbrev|unfoldable|pattern|pub|data|record)\s++)*+"
DECLARED = re.compile(r"\s*+" + MARKS + "((?:" + NAME + r"\s*+)++)(?:\{[^}]*+\})?+\s*+:(?![=:])")
FUNCTION = re.compile(r"/proofs/.+/(Proof|Answers|Invariants)\.antt$")
USE = re.compile(r"use ([\w.·'′]+)\.\{([^}]*)\}")

# a name that would fall together with another, and what it is called instead
OTHERS = {
    "bit-and": "bit_of_and",
    "bit-or": "bit_of_or",
    "inRows": "among_rows",
    "tooMany": "has_too_many",
    "noOff": "no_off_of",
    "in-turn": "in_turn_lem",
    "block-refusal": "block_refusal_lem",
    "row-refusal": "row_refusal_lem",
    "next-part": "next_part_lem",
    "no-dearer": "no_dearer_lem",
    "private-rows": "private_rows_lem",
    # bound by a pattern, and a module's second name
    "no-P": "no_p",
    "model-library": "model_library",
}

# lemmas that port.py respelled as their function is spelled now
LEMMAS = {
    "crates/incidence": ["cell_row"],
    "crates/model": ["one_by_one", "in_one", "written_out", "piece_bytes", "in_order"],
    "crates/engine": ["with_tail"],
}
KEPT = {"crates/model": {"in_order": ("specs/Reordered", "proofs/Reordered", "proofs/ReorderedCall")}}


def is_odd(word):
    return word[0].isascii() and word[0].isalpha() and (("-" in word and not word.startswith("Need-")) or "′" in word or bool(re.match(r"[a-z][a-z0-9_']*[A-Z]", word)))


def spelled(word):
    if word[0].isupper() and not re.match(r"[A-Z](-|$)", word):
        # a type or a fact at the head keeps its capitals
        head, dash, rest = word.partition("-")
        return head + dash + rest.replace("-", "_")
    word = word.replace("′", "'")
    word = re.sub(r"(?<=[a-z0-9'])([A-Z])", r"_\1", word)
    return word.replace("-", "_").lower()


def files(root):
    for folder, dirs, names in os.walk(os.path.join(root, "crates")):
        dirs[:] = sorted(d for d in dirs if d not in ("out", ".git"))
        for name in sorted(names):
            if name.endswith((".antt", ".rt")):
                yield os.path.join(folder, name)


def without_remarks(text):
    return re.sub(r"--.*", "", text)


def main():
    root = sys.argv[1] if len(sys.argv) > 1 else "."
    crates = set(os.listdir(os.path.join(root, "crates")))
    texts = {}
    for path in files(root):
        with open(path, encoding="utf-8") as f:
            texts[path] = f.read()
    declared, used, library = set(), set(), set()
    for path, text in texts.items():
        bare = without_remarks(text)
        for m in USE.finditer(bare):
            own = re.match(r"Rattle\.(\w+)", m.group(1))
            if not (own and own.group(1) in crates):
                library.update(n.strip().split(" as ")[0].strip() for n in m.group(2).split(","))
        if path.endswith(".antt") and not FUNCTION.search(path):
            for line in bare.split("\n"):
                m = DECLARED.match(line)
                if m:
                    declared.update(m.group(1).split())
                declared.update(re.findall(r"let (" + NAME + ") ", line))
                for m in re.finditer(r"[({λ] ?+((?:" + NAME + r" ?+)++)[:.]", line):
                    declared.update(m.group(1).split())
            used.update(WORD.findall(bare))
    names = {w for w in declared | set(OTHERS) if is_odd(w) and w not in library}
    table = {}
    for w in names:
        table[w] = OTHERS.get(w, spelled(w))
    by_new = {}
    for w, n in table.items():
        by_new.setdefault(n, []).append(w)
    for n, ws in by_new.items():
        if len(ws) > 1:
            for w in ws:
                if "-" in w and w not in OTHERS:
                    table[w] = n + "_lem"
    for n in set(table.values()):
        together = [w for w in table if table[w] == n]
        if len(together) > 1:
            print("falls together:", n, together)
    left = sorted(w for w in used if is_odd(w) and w not in table and w not in library)
    print("turned:", len(table), "left:", len(left))
    if os.environ.get("SHOW"):
        print(left)
    for path, text in texts.items():
        crate = "/".join(os.path.relpath(path, root).split("/")[:2])
        inside = os.path.relpath(path, os.path.join(root, crate))
        here = dict(table)
        if path.endswith(".antt"):
            for lemma in LEMMAS.get(crate, []):
                kept = KEPT.get(crate, {}).get(lemma, ())
                if not inside.startswith(tuple(kept) or ("\0",)):
                    here[lemma] = lemma + "_lem"

        def words(part):
            return WORD.sub(lambda m: here.get(m.group(0), m.group(0)), part)

        def turn(line):
            # of a comment only what stands between backticks
            code, dashes, remark = line.partition("--")
            remark = re.sub(r"`[^`]*`", lambda m: words(m.group(0)), remark)
            # and the names at the head of a line in a list of laws
            remark = re.sub(r"^ {4,}\S.*?(?=   )", lambda m: words(m.group(0)), remark)
            return words(code) + dashes + remark

        if path.endswith(".antt"):
            new = "\n".join(turn(line) for line in text.split("\n"))
        else:
            lines = text.split("\n")
            ghost = False
            for i, line in enumerate(lines):
                bare = line.strip()
                starts = re.match(r"(ghost |requires|ensures|#\[tactic|#!\[tactic|decreases|invariant)", bare)
                if starts:
                    ghost = True
                if ghost and not bare.startswith("//"):
                    lines[i] = turn(line)
                if ghost and (bare.endswith(("}", ";", "]")) and line.count("{") <= line.count("}") + (0 if starts else 99)):
                    ghost = False
            new = "\n".join(lines)
        if new != text:
            with open(path, "w", encoding="utf-8") as f:
                f.write(new)


main()
