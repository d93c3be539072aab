#!/usr/bin/env python3
"""Writes the clauses of impossible cases that a check asks for.

usage: tools/cases.py LOG FOLDER      LOG is what `rt check` wrote in the crate's folder FOLDER

A clause goes in front of the first clause of its function or helper. What finds no place is named on standard output.
"""

import re
import sys

ASKED = re.compile(r"(\./\S+\.antt):(\d+):(\d+): error: `([^`]+)`: write the clauses?(?: `(.*)`)?$")
# how files write the constructors that a check prints by their paths
SHORT = [("mathlib.Core.List.[]", "[]"), ("mathlib.Core.List.Memᴰ.", "Memᴰ."), ("mathlib.Core.List.◌∷◌", "◌∷◌")]


def wanted(log):
    """The clauses, by file: (line, clauses)."""
    found = {}
    for i, line in enumerate(log):
        m = ASKED.match(line)
        if not m:
            continue
        clauses = [m.group(5)] if m.group(5) else []
        if not clauses:
            # one a line, behind the line that counts them
            j = i + 2
            while j < len(log) and log[j].startswith("  ") and "=" in log[j]:
                clauses.append(log[j].strip())
                j += 1
        found.setdefault(m.group(1), []).append((int(m.group(2)), clauses))
    return found


def first_clause(lines, name, near):
    """The line of the first clause of `name` that stands nearest to a line."""
    clause = re.compile(r"\s*" + re.escape(name) + r"(?:(?:\s.*)?=(?:\s|$)|\s[^:]*$)")
    signature = re.compile(r"\s*(?:(?:pub|abbrev|unfoldable)\s+)*" + re.escape(name) + r"(?:\s*\{[^}]*\})?\s*:")
    places = [k for k, line in enumerate(lines) if clause.match(line) and not signature.match(line)]
    if not places:
        return None
    here = min(places, key=lambda k: abs(k - near))
    start = max((k for k in range(here + 1) if signature.match(lines[k])), default=-1)
    return min(k for k in places if start < k <= here)


def main():
    with open(sys.argv[1], encoding="utf-8") as f:
        log = f.read().split("\n")
    for name, asked in wanted(log).items():
        path = sys.argv[2] + "/" + name
        with open(path, encoding="utf-8") as f:
            lines = f.read().split("\n")
        # from the end, so that the lines of the others stay
        for line, clauses in sorted(asked, key=lambda a: -a[0]):
            for clause in reversed(clauses):
                for long, short in SHORT:
                    clause = clause.replace(long, short)
                clause = re.sub(r"Rattle\.model\.specs\.Commands\.([A-Z]|none)\b", r"Kind.\1", clause)
                at = first_clause(lines, clause.split()[0], line - 1)
                if at is None:
                    print("no place:", name, line, clause)
                    continue
                indent = re.match(r"\s*", lines[at]).group(0)
                lines.insert(at, indent + clause)
        with open(path, "w", encoding="utf-8") as f:
            f.write("\n".join(lines))
        print(name, len(asked))


main()
