#!/usr/bin/env python3
"""Gives the names of definitions and lemmas that stand in backquotes in the documents the spelling of today's Rattle, as port_names.py gave it to the crates.

usage: port_docs.py [FILE..]      without files: README, docs/ but for the landing notes and the port's page, the pages and headers of host/, second/README.md, and the
                                  comments of the scripts in checks/ and bench/

The names are in port_names.tsv, beside this script; those that it renames in some files alone are left as they are. The kit's own script renamed a few more: a name that no file of
specs/ and proofs/ has, and that one has in snake case.
"""

import re
import sys
from pathlib import Path

ROOT = Path(__file__).resolve().parent.parent
TOKEN = re.compile(r"[^\s(){}\[\],;.`]+")


def pages():
    docs = [p for p in sorted((ROOT / "docs").glob("*.md")) if p.name != "PORT.md"]
    scripts = [p for folder in ("checks", "bench") for p in sorted((ROOT / folder).iterdir()) if p.is_file()]
    host = [p for pattern in ("include/*.h", "man/*.1", "README*") for p in sorted((ROOT / "host").glob(pattern))]
    return [ROOT / "README.md", *docs, *host, ROOT / "second/README.md", *scripts]


def main():
    names = {}
    for line in (ROOT / "tools/port_names.tsv").read_text().splitlines():
        old, new, *where = line.split("\t")
        if not where:
            names[old] = new
    words = {w for p in (ROOT / "crates").glob("*/*/**/*.antt") if p.relative_to(ROOT).parts[2] in ("specs", "proofs") for w in re.findall(r"\w[\w-]*", p.read_text())}

    def now_of(name):
        snake = re.sub(r"([a-z0-9])([A-Z])", lambda m: m[1] + "_" + m[2].lower(), name).replace("-", "_")
        return names.get(name, snake if re.fullmatch(r"[a-z][\w-]*", name) and name not in words and snake in words else name)

    changed = 0
    for path in [Path(p).resolve() for p in sys.argv[1:]] or pages():
        text = path.read_text()
        now = re.sub(r"`[^`\n]*`", lambda m: TOKEN.sub(lambda t: now_of(t[0]), m[0]), text)
        if now != text:
            changed += 1
            path.write_text(now)
    print(f"files changed: {changed}")


if __name__ == "__main__":
    main()
