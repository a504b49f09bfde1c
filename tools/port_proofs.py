#!/usr/bin/env python3
"""Turns each proofs/F/Proof.antt that ends in `tie.close` into Invariants.antt and Answers.antt, by the names that `rt names NAMES` wrote.

usage: port_proofs.py NAMES CRATE..      in the repository

An answer that is only `search rules` goes, since the check tries that itself. What could not be turned is named, and the old file is kept beside as Proof.old.
"""

import json
import os
import re
import sys

ROOT = os.path.dirname(os.path.dirname(os.path.abspath(__file__)))
CHAIN = re.compile(r"(?<![\w.'₀₁₂₃-])([^\s(){}\[\],;.:=λ]+)((?:\.[^\s(){}\[\],;.]+)+|)(?![^\s(){}\[\],;.])")


def norm(s):
    s = re.sub(r"^Need-", "", s)
    s = re.sub(r"[-_]", "-", s).replace("overflow-", "")
    return re.sub(r"^slice-bounds-", "part-", s).lower()


def blocks(text):
    """Top-level declarations: lists of lines, each begun by a line in column 0 that is no continuation."""
    out, now = [], []
    for line in text.split("\n"):
        if line.strip() == "":
            if now:
                out.append(now)
                now = []
            continue
        now.append(line)
    if now:
        out.append(now)
    return out


class Function:
    def __init__(self, info):
        self.needs = {}
        self.at = {}
        for (old, new), (place, _) in zip(info["needs"], info["asked_at"]):
            self.needs.setdefault(norm(old), new)
            self.at.setdefault(norm(old), place)
        self.places = {}
        for name, parent, label, callee, more in info["places"]:
            self.places[name] = (parent, label[0], label[1])
        self.loops = {norm(l[0][0]): (l[0][1], l[1], c) for l, c in zip(info["loops"], info["changed"])}

    def resolve(self, place, fields):
        """The path in the new form; "" where it ends at a place; None where no step has that name. Today's facts are flat, so that `before` says nothing."""
        fields = [f for f in fields if f != "before"]
        if not fields:
            return ""
        f, rest = fields[0], fields[1:]
        while place is not None:
            parent, old, new = self.places.get(place, (None, None, None))
            if old and norm(f) == norm(old):
                if rest and "-" in rest[0]:
                    rest[0] = rest[0].replace("-", "_")
                return ".".join([new, *rest])
            place = parent
        if f.replace("-", "_") in ("args", "requires", "ranges", "type_inv", "well_formed"):
            return ".".join([f.replace("-", "_"), *(x.replace("-", "_") for x in rest)])
        return None


def turn_body(fn, place, body, trouble):
    """The body of an answer with the paths of today's form."""
    at = {"c"}
    let = re.compile(r"^(\s*)(.*?)let ([^\s(){}\[\],;.:=]+) = ([^\s(){}\[\],;.:=]+)((?:\.[^\s(){}\[\],;.]+)*) in\s*(.*)$")

    def chain(m):
        var, path = m[1], m[2]
        if var not in at:
            return m[0]
        to = fn.resolve(place, [f for f in path.split(".") if f])
        if to is None:
            trouble.append(f"path {m[0]} at {place}")
            return m[0]
        return "c" if to == "" else "c." + to

    lines = []
    for line in body:
        m = let.match(line)
        while m and m[4] in at and fn.resolve(place, [f for f in m[5].split(".") if f]) == "":
            at.add(m[3])
            line = m[1] + m[2] + m[6]
            m = let.match(line)
        if line.strip():
            lines.append(CHAIN.sub(chain, line))
    return lines


def turn_invariant(fn, kind, loop, equation, trouble):
    head, _, body = "\n".join(equation).partition("=")
    words = head.split()[1:]
    new, names, changed = fn.loops[loop]
    still = [n for n, c in zip(names, changed) if not c]
    moved = [n for n, c in zip(names, changed) if c]
    want = [f"l.{n}" for n in still] + [f"l.initial.{n}" for n in moved] + [f"l.{n}" for n in moved]
    if len(words) != len(want):
        trouble.append(f"{kind}-{loop}: {len(words)} variables {words}, for {still} and {moved}")
        return new, None
    to = {}
    for word in words:
        name = word.replace("-", "_").replace("′", "'")
        if name.endswith("₀") and name[:-1] in moved:
            to[word] = "l.initial." + name[:-1]
        elif name in names or name.rstrip("'") in names:
            to[word] = "l." + (name if name in names else name.rstrip("'"))
        elif word != "_":
            trouble.append(f"{kind}-{loop}: no variable {word} among {names}")
    to.pop("_", None)
    body = re.sub(r"(?<![^\s(){}\[\],;])([^\s(){}\[\],;.]+)", lambda m: to.get(m[1], m[1]), body)
    return new, f"{kind}-{new} l ={body}"


def turn(names, crate, folder, path):
    with open(path, encoding="utf-8") as f:
        text = f.read()
    if "tie.close" not in text:
        return None
    module = os.path.relpath(os.path.dirname(path), os.path.join(folder, "proofs")).replace(os.sep, ".")
    key = f"Rattle-{crate}-proofs.{module}.Lts"
    info = names.get(key)
    if info is None:
        return [f"no names for {module}"]
    fn = Function(info)
    uses, helpers, invariants, answers, trouble = [], [], [], [], []
    for block in blocks(text):
        if all(re.match(r"(pub )?use |--", l) for l in block):
            uses += [l for l in block if not re.search(r"\.(Statement|Tie)\b|\.Tie as ", l)]
            continue
        comments = []
        while block and block[0].startswith("--"):
            comments.append(block.pop(0))
        if not block:
            continue
        i = 0
        kept = []
        # One block may have several declarations.
        sig = re.match(r"^((?:abbrev |pub |unfoldable )*)([^\s:]+) : (.*)$", block[0])
        if sig is None:
            helpers.append(comments + block)
            continue
        kind = sig[3]
        if "statement" in kind and "Type 1" in kind:
            continue
        m = re.match(r"tie\.(invariant|decreases)-(\S+)$", kind.strip())
        if m:
            if norm(m[2]) not in fn.loops:
                trouble.append(f"no loop {m[2]}: {sorted(fn.loops)}")
                continue
            body = block[1:]
            opened = [l for l in body if l.startswith("unfolding")]
            body = [l for l in body if not l.startswith("unfolding")]
            new, eq = turn_invariant(fn, m[1], norm(m[2]), body, trouble)
            if eq:
                invariants.append(comments + [f"abbrev pub {m[1]}-{new} : goal.{m[1]}-{new}", *opened, eq])
            continue
        m = re.match(r"tie\.(Need-\S+)", kind.strip())
        if m:
            j = 1
            while j < len(block) and not block[j].startswith(("unfolding", sig[2] + " ")):
                j += 1
            body = block[j:]
            opened = [l for l in body if l.startswith("unfolding")]
            body = [l for l in body if not l.startswith("unfolding")]
            old = norm(m[1])
            if not opened and "\n".join(body).partition("=")[2].strip() == "search rules":
                continue
            if old not in fn.needs:
                trouble.append(f"no goal {m[1]}: {sorted(fn.needs)}")
                helpers.append(comments + ["-- OLD"] + block)
                continue
            eq = "\n".join(body)
            head, _, rest = eq.partition("=")
            words = head.split()
            if "κs" in words and re.search(r"\bκs\b", rest):
                trouble.append(f"κs in {m[1]}")
            new = fn.needs[old]
            turned = turn_body(fn, fn.at[old], rest.split("\n"), trouble)
            args = [w for w in words[1:] if w != "κs"]
            if args not in (["c"], ["_"]):
                trouble.append(f"arguments {words} of {m[1]}")
            answers.append(comments + [f"pub {new} : goal.{new}", *opened, f"{new} {' '.join(args)} ={turned[0] if turned else ''}", *turned[1:]])
            continue
        helpers.append(comments + block)
    where = os.path.dirname(path)
    base = f"Rattle.{crate}.proofs.{module}"
    if invariants:
        with open(os.path.join(where, "Invariants.antt"), "w", encoding="utf-8") as f:
            f.write("\n".join(uses + [f"use {base}.Given as goal"]) + "\n\n" + "\n\n".join("\n".join(b) for b in invariants) + "\n")
    if answers or (helpers and trouble):
        with open(os.path.join(where, "Answers.antt"), "w", encoding="utf-8") as f:
            f.write("\n".join(uses + [f"use {base}.Goals as goal"]) + "\n\n" + "\n\n".join("\n".join(b) for b in helpers + answers) + "\n")
    os.remove(path)
    return trouble


def main():
    names_at, crates = sys.argv[1], sys.argv[2:]
    n = 0
    for crate in crates:
        folder = os.path.join(ROOT, "crates", crate)
        try:
            with open(os.path.join(names_at, "crates", crate, "names.json"), encoding="utf-8") as f:
                names = json.load(f)
        except OSError:
            print(f"{crate}: no names")
            continue
        for at, dirs, fs in os.walk(os.path.join(folder, "proofs")):
            dirs.sort()
            if "Proof.antt" in fs:
                trouble = turn(names, crate, folder, os.path.join(at, "Proof.antt"))
                if trouble is None:
                    print(f"{crate}: by hand: {os.path.relpath(at, folder)}")
                else:
                    n += 1
                    for t in trouble:
                        print(f"{crate}: {os.path.relpath(at, folder)}: {t}"[:400])
    print(f"turned: {n}")


if __name__ == "__main__":
    main()
