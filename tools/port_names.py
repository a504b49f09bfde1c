#!/usr/bin/env python3
"""Gives the definitions and lemmas of this repository the spelling of today's Rattle: words in snake case, as `acl_of` for `aclOf` and `rows_next` for `rows-next`.

usage: port_names.py [FOLDER]      FOLDER is a checkout that port.py has turned; without it, the repository that holds this script

The names are in port_names.tsv, beside this script: old, new, and for a few the files where alone they are renamed. `port_names.py --list FOLDER` prints such a table anew.
What it renames: names in specs/ and proofs/, in `ghost use` lines and clauses of src/, and names in backquotes in comments.
"""

import collections
import os
import re
import sys

HERE = os.path.dirname(os.path.abspath(__file__))
TOKEN = re.compile(r"[^\s(){}\[\],;.`]+")
SIGNATURE = re.compile(r"^\s*(?:(?:unfoldable|abbrev|pub)\s+)*([^\s(){}\[\],;.:=]+(?:\s+[^\s(){}\[\],;.:=]+)*)\s*:(?=\s|$)")
DECLARED = re.compile(r"^\s*(?:(?:unfoldable|abbrev|pub)\s+)*(data|record|ruleset)\s+([^\s(){}\[\],;.:=]+)")
WORDS = {"use", "let", "in", "where", "elim", "open", "λ", "module", "mod", "pub", "abbrev", "unfoldable"}
# A lemma of another library, under the same name.
KEPT = {"append-nil"}


def files(root, ends):
    for folder, dirs, names in os.walk(os.path.join(root, "crates")):
        dirs[:] = sorted(d for d in dirs if d != "out")
        for name in sorted(names):
            if name.endswith(ends):
                yield os.path.join(folder, name)


def read(path):
    with open(path, encoding="utf-8") as f:
        return f.read()


def snake(name):
    return re.sub(r"([a-z0-9])([A-Z])", lambda m: m[1] + "_" + m[2].lower(), name).replace("-", "_").lower()


def declared(root):
    """The names that files of specs/ and proofs/ declare, with the files; a function's Proof.antt is turned by another script."""
    found = collections.defaultdict(set)
    for path in files(root, ".antt"):
        if os.path.basename(path) == "Proof.antt" or os.path.basename(path).startswith("Zz"):
            continue
        for line in read(path).splitlines():
            if line.lstrip().startswith("--"):
                continue
            m = DECLARED.match(line)
            if m:
                found[m[2]].add(path)
                continue
            m = SIGNATURE.match(line)
            if m and m[1].split()[0] not in WORDS:
                for name in m[1].split():
                    found[name].add(path)
    return found


def table(root):
    found = declared(root)
    by = collections.defaultdict(set)
    for name in found:
        if re.match(r"[a-z]", name) and name not in KEPT:
            by[snake(name)].add(name)
    for new, olds in sorted(by.items()):
        camel = {n for n in olds if re.search("[A-Z]", n)}
        plain = {n for n in olds if n == new}
        kebab = olds - camel - plain
        if len(camel) > 1 or len(kebab) > 1:
            print(f"by hand: {sorted(olds)}", file=sys.stderr)
        for name in camel:
            yield name, new, ()
        for name in kebab:
            yield name, new + "_lem" if camel or plain else new, ()
        if camel and plain:
            both = set.union(*(found[n] for n in camel))
            where = sorted(os.path.relpath(p, root) for n in plain for p in found[n])
            yield new, new + "_lem", tuple(p for p in where if any(re.search(rf"(?<![\w-]){re.escape(c)}(?![\w-])", read(os.path.join(root, p))) for c in camel))


def load():
    everywhere, there = {}, collections.defaultdict(dict)
    for line in read(os.path.join(HERE, "port_names.tsv")).splitlines():
        old, new, *where = line.split("\t")
        if where:
            for path in where[0].split():
                there[path][old] = new
        else:
            everywhere[old] = new
    return everywhere, there


def in_backquotes(text, names):
    return re.sub(r"`[^`\n]*`", lambda m: TOKEN.sub(lambda t: names.get(t[0], t[0]), m[0]), text)


def turn_antt(text, names):
    out = []
    for line in text.split("\n"):
        code, dashes, comment = line, "", ""
        m = re.search(r"(^|\s)--(?=\s|$)", line)
        if m:
            code, dashes, comment = line[: m.start(0)], m[0], line[m.end(0) :]

        def one(t):
            # A lemma that its function's namesake displaces is no field; after a module's name it is the lemma.
            if t.start() and code[t.start() - 1] == "." and names.get(t[0], "").endswith("_lem") and not re.search(r"(?<![\w.])[A-Z]\w*\.$", code[: t.start()]):
                return t[0]
            return names.get(t[0], t[0])

        out.append(TOKEN.sub(one, code) + dashes + in_backquotes(comment, names))
    return "\n".join(out)


def turn_rt(text, names):
    camel = {old: new for old, new in names.items() if re.search("[A-Z]", old)}
    out = []
    for line in text.split("\n"):
        code, comment = line, ""
        m = re.search(r"(^|\s)//.*", line)
        if m:
            code, comment = line[: m.start(0)], m[0]
        if re.match(r"\s*(pub )?ghost use ", code):
            code = TOKEN.sub(lambda t: names.get(t[0], t[0]), code)
        else:
            code = "".join(it if k % 2 else TOKEN.sub(lambda t: camel.get(t[0], t[0]), it) for k, it in enumerate(re.split(r'("(?:[^"\\]|\\.)*")', code)))
        out.append(code + in_backquotes(comment, camel))
    return "\n".join(out)


def main():
    if sys.argv[1:2] == ["--list"]:
        for old, new, where in table(sys.argv[2]):
            if old != new and not (new.endswith("_lem") and old + "_lem" == new and not where):
                print("\t".join([old, new, *([" ".join(where)] if where else [])]))
        return
    root = sys.argv[1] if len(sys.argv) > 1 else os.path.dirname(HERE)
    everywhere, there = load()
    n = 0
    for path in files(root, (".antt", ".rt")):
        names = {**everywhere, **there.get(os.path.relpath(path, root), {})}
        text = read(path)
        now = (turn_antt if path.endswith(".antt") else turn_rt)(text, names)
        if now != text:
            n += 1
            with open(path, "w", encoding="utf-8") as f:
                f.write(now)
    print(f"files turned: {n}")


if __name__ == "__main__":
    main()
