#!/usr/bin/env python3
"""Turns the proof files of an older Rattle, which close a function's proof by hand, to Invariants.antt and Answers.antt.

usage: tools/answers.py NAMES CRATE..      NAMES/CRATE/names.json is what `rt names NAMES/CRATE` wrote for crates/CRATE

It reads each proofs/F/Proof.antt, writes Invariants.antt and Answers.antt beside it and removes it. An answer that is the search alone goes, unless another
answer cites it. What it can't turn stands with `??`, and is named on standard output.
"""

import json
import os
import re
import sys

W = r"[^\s(){}.;,@\"«»\[\]]+"
PATH = re.compile(r"(?<![^\s(){};,@\[\]])(" + W + r")((?:\." + W + r")*)")


def plain(word):
    return word.replace("_", "-")


def contracts(root):
    """The labels of the clauses of each function, by its path."""
    found = {}
    for crate in os.listdir(os.path.join(root, "crates")):
        top = os.path.join(root, "crates", crate, "src")
        for folder, _, names in os.walk(top):
            for name in names:
                if not name.endswith(".rt"):
                    continue
                rel = os.path.relpath(os.path.join(folder, name), top)[:-3].split("/")
                if rel[-1] in ("lib", "main", "mod"):
                    rel = rel[:-1]
                with open(os.path.join(folder, name), encoding="utf-8") as f:
                    lines = f.read().split("\n")
                owner = None
                here = None
                for line in lines:
                    m = re.match(r"impl (\w+)", line)
                    if m:
                        owner = m.group(1)
                    elif line.startswith("}"):
                        owner = None
                    m = re.match(r"\s*(?:pub )?(?:extern \"C\" )?fn (\w+)", line)
                    if m:
                        here = "::".join([crate, *rel, *([owner] if owner else []), m.group(1)])
                        found[here] = {"requires": [], "ensures": []}
                    m = re.match(r"\s*(requires|ensures)\*? (?:(\w+) )?\{", line)
                    if m and here:
                        found[here][m.group(1)].append(m.group(2))
    return found


def split_top(text, sep):
    """Splits at sep outside brackets."""
    parts, depth, last = [], 0, 0
    i = 0
    while i < len(text):
        ch = text[i]
        if ch in "([{":
            depth += 1
        elif ch in ")]}":
            depth -= 1
        elif ch == sep and depth == 0:
            parts.append(text[last:i])
            last = i + 1
        i += 1
    parts.append(text[last:])
    return parts


# what is turned already, until the end
HERE = "\x01"


def bracket(text, i):
    """What stands in the bracket at i, and where it ends."""
    depth = 0
    for j in range(i, len(text)):
        if text[j] in "([{":
            depth += 1
        elif text[j] in ")]}":
            depth -= 1
            if depth == 0:
                return text[i + 1: j], j + 1
    return text[i + 1:], len(text)


class Function:
    def __init__(self, module, names, clauses, label):
        self.names = names
        self.clauses = clauses
        self.label = label
        self.stem = names.get("stem") or ""
        self.in_cycle = ".+" in module
        self.places = {}
        self.by_new = {}
        for i, (old, parent, step, callee, extra) in enumerate(names["places"]):
            self.places[old] = {
                "old": old, "parent": parent, "step": step, "callee": callee, "extra": dict((plain(a), b) for a, b in extra),
                "new": names["places_by_name"][i], "typed": names["typed"][i], "arm": (names["arms"] or [None] * 999)[i],
            }
        self.needs = {}
        for (old, new), (at_old, at_new) in zip(names["needs"], names["asked_at"]):
            self.needs[plain(old)] = (new, at_old)
        self.goal = None
        self.arms = set()
        self.problems = []

    def up(self, place, k):
        for _ in range(k):
            place = self.places[place]["parent"] if place in self.places else None
        return place

    def labels(self, kind, callee):
        found = self.clauses.get(callee)
        return found[kind] if found else None

    def nested(self, labels, rest):
        """.1.0.x of clauses that nest to the right, by their labels."""
        if not labels or len(labels) < 2:
            return rest
        n = len(labels)
        i = 0
        rest = list(rest)
        while rest and rest[0] == "1" and i < n - 1:
            rest.pop(0)
            i += 1
        if i < n - 1:
            if rest and rest[0] == "0":
                rest.pop(0)
            else:
                self.problems.append("clauses " + str(labels))
                return ["??"] + rest
        return [labels[i]] + rest

    def path(self, place, fields, fn):
        """The new path, from c at place, of fields in the old form; None if it only goes up."""
        k = 0
        while k < len(fields) and fields[k] == "before":
            k += 1
        at = self.up(place, k)
        fields = fields[k:]
        if not fields:
            return at, None
        head = plain(fields[0])
        rest = fields[1:]
        # the step may stand at an earlier place: every record shows the steps before it. Or at a later one, where today has fewer places
        for word in (head, re.sub("-lem$", "", head)):
            look = at
            found = []
            while look:
                p = self.places[look]
                if plain(p["step"][0]) == word:
                    found.append(p)
                look = p["parent"]
            if found:
                called = [p for p in found if p["callee"]]
                p = called[0] if called and rest and rest[0] in ("ensures", "result", "new", "auto", "last") else found[0]
                return at, self.at_step(p, at, rest)
            below = None
            look = self.goal
            while look and look != at:
                p = self.places[look]
                if plain(p["step"][0]) == word:
                    below = p
                look = p["parent"]
            if below:
                return at, self.at_step(below, self.goal, rest)
        if head in ("args", "ranges"):
            if rest:
                was = next((b for a, b in self.names["args"] if a == f".{head} .{rest[0]}"), None)
                if was:
                    rest = [was.split(".")[-1]] + rest[1:]
            return at, [head] + rest
        if head == "well-formed":
            return at, ["well_formed"] + rest
        if head in ("requires", "pre"):
            pre = self.names.get("pre")
            if self.stem or self.in_cycle:
                # in a recursion the measure stood in front
                if rest and rest[0] == "0":
                    return at, ["decreases"] + rest[1:]
                rest = rest[1:] if rest and rest[0] == "1" else rest
            if pre and pre.get("fields"):
                labels = pre["fields"]
                rest = self.nested(labels, rest)
            return at, ["requires"] + rest
        if head == "enum-told":
            pass
        self.problems.append("." + ".".join(fields) + " at " + str(at))
        return at, ["??"] + fields

    def place_of(self, at):
        """c at an earlier place, as a helper takes it."""
        n, look = 0, self.goal
        while look and look != at:
            n, look = n + 1, self.places[look]["parent"]
        if look is None:
            self.problems.append("the place " + str(at))
            return "c"
        return "c" + ".before" * n

    def at_step(self, p, at, rest):
        step = p["step"][1]
        rest = list(rest)
        if rest and re.match(r"(shared-)?slice-known|struct-known|array-known|slice-known", plain(p["step"][0])) and rest[0] == "given":
            for q in (self.goal, at, p["old"]):
                for var, by in self.places[q]["typed"] if q else ():
                    if plain(by) == plain(p["step"][0]):
                        return ["type_inv", var] + rest[1:]
        if p["arm"]:
            name, n, turns = p["arm"][0], p["arm"][1], p["arm"][2]
            for new, old_step, old_fields in turns:
                if plain(old_step) == plain(p["step"][0]) and [str(x) for x in old_fields] == rest[: len(old_fields)] and old_fields:
                    return [name, new] + rest[len(old_fields):]
            return [name] + rest
        if rest:
            first = plain(rest[0])
            if first in p["extra"]:
                rest[0] = p["extra"][first]
            elif first == "taken":
                rest[0] = "true"
            elif first == "left":
                rest[0] = "false"
            elif first in ("new", "auto", "last", "kept") and p["callee"] and rest[1:] and rest[1] in "01":
                # what a parameter holds behind the call, by its place among the parameters
                k = 1
                while k < len(rest) and rest[k] == "1":
                    k += 1
                params = self.names["params"].get(p["callee"], [])
                if k < len(rest) and rest[k] == "0" and k - 1 < len(params):
                    rest = ["auto" if first in ("auto", "kept") else "new", params[k - 1]] + rest[k + 1:]
                else:
                    self.problems.append("parameter " + ".".join(rest))
            elif first == "ensures" and p["callee"]:
                rest = ["ensures"] + self.nested(self.labels("ensures", p["callee"]), rest[1:])
        return [step] + rest

    def branches(self, text, heads):
        """`⊎_elim (λ w. ..) (λ w. ..) c.if1.branch` as an elim by the branches' names."""
        while True:
            m = re.search(r"⊎_elim\s*\(", text)
            if not m:
                return text
            first, after = bracket(text, m.end() - 1)
            m2 = re.match(r"\s*\(", text[after:])
            if not m2:
                return self.kept(text)
            second, after = bracket(text, after + m2.end() - 1)
            m3 = re.match(r"\s*(" + W + r")((?:\." + W + r")*)\.branch(?![^\s(){};,\]])", text[after:])
            if not m3 or m3.group(1) not in heads:
                return self.kept(text)
            fields = m3.group(2).split(".")[1:]
            step = plain(fields[-1])
            arms = [p for p in self.places.values() if plain(p["step"][0]) == step and re.match("Then|Else", p["old"])]
            arms.sort(key=lambda p: not p["old"].startswith("Then"))
            if len(arms) != 2:
                return self.kept(text)
            out = []
            for arm, lam in zip(arms, (first, second)):
                mm = re.match(r"\s*λ\s*\(?(" + W + r")(?:\s*:[^)]*\))?\s*\.\s*", lam)
                if not mm:
                    return self.kept(text)
                w, body = mm.group(1), lam[mm.end():]
                chain = [arm]
                while True:
                    nexts = [p for p in self.places.values() if p["parent"] == chain[-1]["old"] and not p["old"].endswith("-unread") and not re.match("Then|Else|In-loop", p["old"])]
                    if not nexts:
                        break
                    chain.append(nexts[0])

                def at(mm2, chain=chain, w=w):
                    if mm2.group(1) != w:
                        return mm2.group(0)
                    fs = mm2.group(2).split(".")[1:]
                    if fs and fs[0].isdigit():
                        i, rest = int(fs[0]), fs[1:]
                        if i < len(chain):
                            keep = self.goal
                            got = self.at_step(chain[i], chain[i]["old"], rest)
                            return w + "." + ".".join(got)
                        # the equations stand behind the steps, of the variables in the order of the loop
                        var = [v for v, ch in zip(self.names["loops"][0][1], self.names["changed"][0]) if ch] if self.names["loops"] else []
                        if i - len(chain) < len(var):
                            return w + "." + ".".join([var[i - len(chain)] + "-is"] + rest)
                        self.problems.append(f"equation {w}.{i} of {[q['old'] for q in chain]}")
                        return w + "." + ".".join([f"EQ{i - len(chain)}"] + rest)
                    if fs and plain(fs[0]) in ("left", "taken", "true", "false", "fact"):
                        return w + "." + ".".join(self.at_step(chain[0], chain[0]["old"], fs))
                    return mm2.group(0)

                name = arm["new"][0].lower() + arm["new"][1:]
                self.arms.add(name)
                out.append(f"{name} {w} ↦ " + PATH.sub(at, body))
            goal_path = self.path(heads[m3.group(1)], fields, None)[1]
            text = text[: m.start()] + "elim " + HERE + ".".join(goal_path) + ".branch [ " + " | ".join(out) + " ]" + text[after + m3.end():]

    def kept(self, text):
        self.problems.append("an elim on ⊎ is left")
        return text

    def body(self, text, place, heads=None):
        """An answer's or helper's body with its paths turned. heads: names bound to places."""
        heads = dict(heads or {"c": place})
        self.goal = place
        text = self.branches(text, heads)
        # a let that names a place goes
        while True:
            m = re.search(r"let (" + W + r") = (" + W + r")((?:\.before)+)\s+in\s*", text)
            m = m if m and m.group(2) in heads else None
            if not m:
                m = None
                for x in re.finditer(r"let (" + W + r") = (" + W + r")((?:\.before)*)\s+in\s*", text):
                    if x.group(2) in heads and x.group(3):
                        m = x
                        break
            if not m:
                break
            heads[m.group(1)] = self.up(heads[m.group(2)], m.group(3).count(".before"))
            text = text[: m.start()] + text[m.end():]
        while True:
            m = next((x for x in re.finditer(r"let (" + W + r") = (" + W + r"(?:\." + W + r")*?\.(?:requires|pre))\s+in\s*", text) if x.group(2).split(".")[0] in heads), None)
            if not m:
                break
            name, path = m.group(1), m.group(2)
            tail = text[m.end():]
            tail = re.sub(r"(?<![^\s(){};,@\[\]])" + re.escape(name) + r"(?=[.\s(){};,\[\]])", path, tail)
            text = text[: m.start()] + tail

        def turn(m):
            head, tail = m.group(1), m.group(2)
            if head not in heads:
                return m.group(0)
            fields = tail.split(".")[1:]
            at, new = self.path(heads[head], fields, self.label) if fields else (heads[head], None)
            if new is None:
                return self.place_of(at)
            return "c." + ".".join(new)

        text = PATH.sub(turn, text)
        return text.replace(HERE, "c.")


def items(text):
    """Top-level items: (kind, lines)."""
    out, cur = [], []
    for line in text.split("\n"):
        if line and not line[0].isspace() and not (cur and is_going_on(cur, line)):
            if cur:
                out.append(cur)
            cur = [line]
        else:
            cur.append(line)
    if cur:
        out.append(cur)
    return out


def is_going_on(cur, line):
    # a signature with its clauses is one item
    head = cur[0]
    if all(h.startswith("--") for h in cur) and not line.startswith("use "):
        # a remark belongs to what follows
        return True
    m = None
    for h in cur:
        m = re.match(r"(?:(?:abbrev|unfoldable|pub)\s+)*(" + W + r")(?:\s*\{[^}]*\})?\s*:", h)
        if m:
            break
    if line.startswith(("unfolding", ")", "]", "}")):
        return True
    return bool(m) and bool(re.match(re.escape(m.group(1)) + r"(?![^\s])", line))


def need_key(kind):
    word = plain(kind)
    word = re.sub(r"^Need-", "", word)
    return re.sub(r"^(overflow|nonzero)-", "", word)


def turned_tuple(fn, body, labels):
    """The tuple at the end of a body as a record of clauses."""
    if not labels or len(labels) < 2 or None in labels:
        return body
    text = body.rstrip()
    stripped = text.strip()
    if stripped == "search rules":
        return body
    m = re.search(r"(?:^|\s|in\s)\(((?:.|\n)*)\)$", text)
    start = None
    # the bracket that closes at the end
    depth = 0
    for i in range(len(text) - 1, -1, -1):
        if text[i] in ")]}":
            depth += 1
        elif text[i] in "([{":
            depth -= 1
            if depth == 0:
                start = i
                break
    if start is None or text[start] != "(" or not text.endswith(")"):
        fn.problems.append("no tuple for " + str(labels))
        return body
    before = text[:start].strip()
    if before and not before.endswith("in") and not before.endswith("."):
        fn.problems.append("no tuple for " + str(labels))
        return body
    inner = text[start + 1: -1]
    parts = [p.strip() for p in split_top(inner, ",")]
    if parts and parts[-1] == "":
        parts.pop()
    while len(parts) < len(labels):
        last = parts[-1]
        if last.startswith("(") and last.endswith(")"):
            more = [p.strip() for p in split_top(last[1:-1], ",") if p.strip()]
            if len(more) < 2:
                break
            parts = parts[:-1] + more
        else:
            break
    if len(parts) < len(labels):
        fn.problems.append("too short a tuple for " + str(labels))
        return body
    if len(parts) > len(labels):
        parts = parts[: len(labels) - 1] + ["(" + ", ".join(parts[len(labels) - 1:]) + ")"]
    return text[:start] + "record { " + "; ".join(f"{lab} = {val}" for lab, val in zip(labels, parts)) + " }"


def turn_file(root, crate, rel, names, clauses):
    """One proof file. rel: the function's path below proofs/."""
    folder = os.path.join(root, "crates", crate, "proofs", rel)
    with open(os.path.join(folder, "Proof.antt"), encoding="utf-8") as f:
        text = f.read()
    dotted = rel.replace("/", ".")
    fns = {}
    cycle = rel.split("/")[-1].startswith("+")
    prefix = f"Rattle-{crate}-proofs.{dotted}.Lts"
    for key, val in names.items():
        if key == prefix or key.startswith(prefix + "-"):
            path = f"{crate}::" + rel.replace("/", "::")
            if cycle:
                member = key[len(prefix) + 1:]
                if val.get("stem"):
                    member = val["stem"].rstrip("-")
                path = "::".join([crate, *rel.split("/")[:-1], member or rel.split("/")[-1].lstrip("+")])
            fns[val.get("stem") or ""] = Function(key, val, clauses, path)
    if not fns:
        print(f"left: {crate}/{rel}: no names")
        return
    uses, remarks, invariants, answers, problems = [], [], [], [], []
    helpers = {}
    parsed = []
    for item in items(text):
        block = "\n".join(item).rstrip()
        if not block:
            continue
        if block.startswith("use "):
            if re.search(r"proofs\.\S*\+\w+\.\{statement|proofs\.\S*\.(Statement|Tie|Kinds|Reads)(\.\{|\s+as|\b)|borrow\.Fn\.|\.Lts", block) or re.search(r"proofs\.\+\w+\.\{statement\}", block):
                continue
            uses.append(block)
        elif block.startswith("--") and not parsed and not remarks and all(x.startswith(("--", "use ")) or not x for x in item):
            remarks.append(block)
        else:
            parsed.append(block)
    main_fn = fns.get("") or list(fns.values())[0]
    cited = text
    for block in parsed:
        lead = re.match(r"((?:--[^\n]*\n)*)", block).group(1)
        rest = block[len(lead):]
        m = re.match(r"((?:(?:abbrev|unfoldable|pub)\s+)*)(" + W + r")((?:\s*\{[^}]*\})?)\s*:\s*", rest)
        if not m:
            answers.append(block)
            problems.append("item not read: " + rest[:60])
            continue
        marks, name = m.group(1), m.group(2)
        sig_end = re.search(r"\n(?=unfolding|" + re.escape(name) + r"(?![^\s]))", rest)
        if not sig_end:
            answers.append(block)
            problems.append("no clause: " + rest[:60])
            continue
        signature = rest[m.end(): sig_end.start()].strip()
        clauses_text = rest[sig_end.end():]
        unfolding = ""
        u = re.match(r"unfolding[^\n]*\n", clauses_text)
        if u:
            unfolding, clauses_text = u.group(0), clauses_text[u.end():]
        if re.search(r"\btie\.close\b|\bclose\b", clauses_text) and ("statement" in signature):
            continue
        # which function it is of
        fn = main_fn
        stem = ""
        for s, f in fns.items():
            if s and (plain(name).startswith(plain(s)) or re.search(r"\b" + re.escape(s) + r"lts\.|" + re.escape(plain(s)) + r"lts\.", signature)):
                fn, stem = f, s
        need = re.search(r"(?:tie|lts|[\w-]+-lts)\.(Need-[^\s]+)", signature)
        inv = re.search(r"(?:tie|lts|[\w-]+-lts)\.(invariant|decreases|Inv|μ)-([^\s]+)", signature)
        measure = re.match(r"μ-", name) or "Measures" in signature
        fn.problems = []
        if need:
            key = need_key(need.group(1))
            if key not in fn.needs:
                alt = [k for k in fn.needs if k == key or k.endswith(key)]
                problems.append(f"need {key} is not asked now ({alt[:2]})")
                continue
            new, at = fn.needs[key]
            new = stem + new
            args = re.match(re.escape(name) + r"([^=\n]*)=", clauses_text)
            params = args.group(1).split() if args else []
            body = clauses_text[args.end():] if args else clauses_text
            params = [p for p in params if p != "κs"]
            if body.strip() == "search rules" and len(re.findall(r"(?<![^\s(){};,@\[\]])" + re.escape(name) + r"(?![^\s(){};,@\[\].])", cited)) <= 3:
                continue
            body = fn.body(body, at)
            used = []
            for h in reversed(list(helpers)):
                of, h_before, h_after, h_sig, h_body, h_unfolding, h_abbrev = helpers[h]
                call = re.compile(r"(?<![^\s(){};,@\[\]])" + re.escape(h) + "".join(" " + x for x in h_before) + r" c(?:\.before)*(?![^\s(){};,\[\]])")
                whole = body + "".join(x[1] + x[2] for x in used)
                if of is not fn or not call.search(whole):
                    continue
                if h_abbrev and not h_after:
                    to = h_body if re.fullmatch(r"[^\s()]+", h_body) else "(" + h_body + ")"
                    body = call.sub(lambda m: to, body)
                    used = [(a, call.sub(lambda m: to, b), call.sub(lambda m: to, c)) for a, b, c in used]
                else:
                    body = call.sub(lambda m: h, body)
                    used = [(a, call.sub(lambda m: h, b), call.sub(lambda m: h, c)) for a, b, c in used]
                    used.append((h, h_sig, (f"λ {' '.join(h_after)}. " if h_after else "") + h_body))
                    if h_unfolding and h_unfolding not in unfolding:
                        unfolding += h_unfolding
            for h, h_sig, h_body in used:
                body = f"\n    let {h} : {h_sig} = {h_body} in" + (body if body.startswith("\n") else "\n    " + body.lstrip())
            if new.endswith("-requires") or "-requires-" in new:
                callee = None
                for q in fn.places.values():
                    if q["callee"] and q["parent"] == at and plain(q["step"][0]) == re.sub(r"-requires(-\d+)?$", "", key):
                        callee = q["callee"]
                callee = callee or next((q["callee"] for q in fn.places.values() if q["callee"] and plain(q["callee"].split("::")[-1]) == re.sub(r"-requires(-\d+)?$", "", key)), None)
                labels = fn.labels("requires", callee) if callee else None
                if fn.in_cycle and callee and callee.rsplit("::", 1)[-1] in rel.split("+")[-1]:
                    labels = None
                body = turned_tuple(fn, body, labels)
            elif re.match(r"returns", key):
                body = turned_tuple(fn, body, fn.labels("ensures", fn.label))
            problems += [f"{new}: {p}" for p in fn.problems]
            answers.append(f"{lead}pub {new} : goal.{new}\n{unfolding}{new} {' '.join(params)} ={body.rstrip()}")
            renames[name] = new
        elif inv:
            kind = {"Inv": "invariant", "μ": "decreases"}.get(inv.group(1), inv.group(1))
            old_loop = inv.group(2)
            loops = fn.names["loops"]
            n = [i for i, l in enumerate(loops) if plain(l[0][0]) == plain(old_loop)]
            if not n:
                problems.append("loop " + old_loop)
                continue
            (_, new_loop), variables = loops[n[0]][0], loops[n[0]][1]
            changed = fn.names["changed"][n[0]]
            args = re.match(re.escape(name) + r"([^=\n]*)=", clauses_text)
            params = args.group(1).split()
            body = clauses_text[args.end():]
            news = [("l.initial." if ch else "l.") + v for v, ch in zip(variables, changed)] + ["l." + v for v, ch in zip(variables, changed) if ch]
            if len(news) != len(params):
                problems.append(f"{name}: {params} are not {news}")
            to = dict(zip(params, news))

            def turn(mm):
                return to.get(mm.group(1), mm.group(1)) + mm.group(2)

            body = PATH.sub(turn, body)
            label = f"{kind}-{stem}{new_loop}"
            invariants.append(f"{lead}abbrev pub {label} : goal.{label}\n{unfolding}{label} l ={body.rstrip()}")
        elif measure:
            label = "decreases-" + name[2:].replace("-", "_")
            params = next((v for f in fns.values() for k, v in f.names["params"].items() if plain(k.split("::")[-1]) == plain(name[2:])), [])
            args = re.match(re.escape(name) + r"([^=\n]*)=", clauses_text)
            body = clauses_text[args.end():]
            body = re.sub(r"\ba((?:\.1)*)\.0(?!\d)", lambda m: "l." + params[m.group(1).count(".1")] if m.group(1).count(".1") < len(params) else m.group(0), body)
            invariants.insert(0, f"{lead}abbrev pub {label} : goal.{label}\n{label} l ={body.rstrip()}")
            problems.append("measure " + name + ":" + body)
        elif re.search(r"\.Claims|\bIn \d |Learnt|Asked", block):
            continue
        else:
            # a helper
            m2 = re.search(r"(\(c : )?\b(?:tie|lts|[\w-]+-lts)\.([^\s)]+)", signature)
            if m2:
                place = m2.group(2)
                cand = [q for q in fn.places if plain(q) == plain(place)]
                if cand:
                    place = cand[0]
                    # every later place knows the same facts: the helper goes into the answers that cite it
                    new = fn.places[place]["new"]
                    if m2.group(1):
                        close = signature.index(")", m2.end())
                        sig = re.sub(r"^\s*(→|,)\s*", "", signature[close + 1:])
                        lead_in = signature[: m2.start()].strip()
                    else:
                        sig, lead_in = re.sub(r"^[^→]*→\s*", "", signature), ""
                    args = re.match(re.escape(name) + r"([^=\n]*)=", clauses_text)
                    params = args.group(1).split() if args else []
                    if lead_in not in ("", "(t : ℕ) →") or not args or "c" not in params or re.search(r"\n" + re.escape(name) + " ", clauses_text):
                        problems.append(f"helper {name} is left")
                    else:
                        before = params[: params.index("c")]
                        after = params[params.index("c") + 1:]
                        fn.goal = place
                        sig, body = fn.body(sig, place), fn.body(clauses_text[args.end():], place)
                        helpers[name] = (fn, before, after, sig, body.strip(), unfolding, "abbrev" in marks)
                        problems += [f"{name}: {p}" for p in fn.problems]
                        continue
                problems.append(f"helper {name}: place {place}")
            answers.append(f"{lead}{marks}{name} : {signature}\n{unfolding}{clauses_text}")
    for i, a in enumerate(answers):
        for old, new in renames.items():
            if old != new:
                head, sep, tail = a.partition("=")
                tail = re.sub(r"(?<![^\s(){};,@\[\]])" + re.escape(old) + r"(?![^\s(){};,@\[\].])", new, tail)
                answers[i] = a = head + sep + tail
    renames.clear()
    module = f"Rattle.{crate}.proofs.{dotted}"
    head = "\n".join(remarks)
    header = (head + "\n" if head else "") + "\n".join(uses) + ("\n" if uses else "")
    if invariants:
        with open(os.path.join(folder, "Invariants.antt"), "w", encoding="utf-8") as f:
            f.write(header + f"use {module}.Given as goal\n\n" + "\n\n".join(invariants) + "\n")
    arms = sorted({a for f in fns.values() for a in f.arms})
    if answers:
        header += f"use {module}.Goals.{{{', '.join(arms)}}}\n" if arms else ""
        with open(os.path.join(folder, "Answers.antt"), "w", encoding="utf-8") as f:
            f.write(header + f"use {module}.Goals as goal\n\n" + "\n\n".join(answers) + "\n")
    os.remove(os.path.join(folder, "Proof.antt"))
    for p in problems:
        print(f"look: {crate}/{rel}: {p}")


# what an answer of the file at hand was called, and is called now
renames = {}


def main():
    listed, crates = sys.argv[1], sys.argv[2:]
    root = "."
    clauses = contracts(root)
    for crate in crates:
        with open(os.path.join(listed, crate, "names.json"), encoding="utf-8") as f:
            names = json.load(f)
        top = os.path.join(root, "crates", crate, "proofs")
        for folder, _, files in sorted(os.walk(top)):
            if "Proof.antt" in files:
                turn_file(root, crate, os.path.relpath(folder, top), names, clauses)


main()
