#!/usr/bin/env python3
"""Brings the wrong programs of must-fail/ and must-fail-more/ to the spelling of today's Rattle.

usage: port_edits.py spread FOLDER      FOLDER is a checkout of the older form: beside each file that an edit names, a copy with that edit applied
       port_edits.py collect FOLDER TO  after port.py and port_names.py ran in FOLDER: writes each edit of TO anew, from what differs between the copy and the file

An edit keeps its name and its comments. Where the lines that differ do not pair one for one, or do not stand once, it is named, and stays as it was.
"""

import difflib
import os
import re
import sys


def edits(root):
    for crate in sorted(os.listdir(os.path.join(root, "crates"))):
        for kind in ("must-fail", "must-fail-more"):
            folder = os.path.join(root, "crates", crate, kind)
            if os.path.isdir(folder):
                for name in sorted(os.listdir(folder)):
                    if name.endswith(".edit"):
                        yield crate, kind, name, os.path.join(folder, name)


def read(path):
    with open(path, encoding="utf-8") as f:
        return f.read()


def parse(text):
    comments, file, pairs, old = [], None, [], None
    for line in text.splitlines():
        if line.startswith("file: "):
            file = line[6:].strip()
        elif line.startswith("old: "):
            old = line[5:]
        elif line.startswith("new:"):
            pairs.append((old, line[5:]))
        else:
            comments.append(line)
    return comments, file, pairs


def copy_of(crate, kind, name, file):
    folder, base = os.path.split(file)
    stem, end = os.path.splitext(base)
    more = "More" if kind.endswith("more") else "Main"
    return os.path.join("crates", crate, folder, f"Zz{more}{name[:-5]}Of{stem}{end}")


def spread(root):
    for crate, kind, name, path in edits(root):
        comments, file, pairs = parse(read(path))
        text = read(os.path.join(root, "crates", crate, file))
        for old, new in pairs:
            if text.count(old) != 1:
                print(f"stale: {path}: {old}")
            text = text.replace(old, new, 1)
        with open(os.path.join(root, copy_of(crate, kind, name, file)), "w", encoding="utf-8") as f:
            f.write(text)


def narrowed(line, text):
    """The line without the spaces round it, or with those before it, if that stands once in the text."""
    for short in (line.strip(), line.rstrip()):
        if text.count(short) == 1:
            return short
    return None


def pair_up(old, new):
    """Pairs of lines (old, new) that make the new text of the old one, or None."""
    a, b = old.splitlines(), new.splitlines()
    pairs = []
    for tag, i, j, k, m in difflib.SequenceMatcher(None, a, b, autojunk=False).get_opcodes():
        if tag == "equal":
            continue
        if j - i != m - k:
            return None
        pairs += zip(a[i:j], b[k:m])
    return pairs


def collect(root, to):
    failed = 0
    for crate, kind, name, path in edits(to):
        comments, file, _ = parse(read(path))
        base = os.path.join(root, "crates", crate, file)
        made = os.path.join(root, copy_of(crate, kind, name, file))
        if not os.path.exists(base) or not os.path.exists(made):
            print(f"gone: {path}")
            failed += 1
            continue
        text, wrong = read(base), read(made)
        pairs = pair_up(text, wrong)
        lines, now = [], text
        for old, new in pairs or []:
            short = narrowed(old, now)
            if short is None:
                pairs = None
                break
            to = new.strip() if short == old.strip() else new.rstrip()
            lines += [f"old: {short}", f"new: {to}"]
            now = now.replace(short, to, 1)
        if not pairs:
            print(f"by hand: {path}: " + ("nothing differs" if text == wrong else "no pairs"))
            failed += 1
            continue
        with open(path, "w", encoding="utf-8") as f:
            f.write("\n".join([*comments[:1], f"file: {file}", *lines, *comments[1:]]) + "\n")
    print(f"left by hand: {failed}")


if __name__ == "__main__":
    if len(sys.argv) == 3 and sys.argv[1] == "spread":
        spread(sys.argv[2])
    elif len(sys.argv) == 4 and sys.argv[1] == "collect":
        collect(sys.argv[2], sys.argv[3])
    else:
        sys.exit(__doc__.split("\n\n")[1])
