#!/usr/bin/env python3
"""Takes `if◌then◌else◌` from the library: rules/specs/Basics.antt had a definition of its own, which the library's repeats.

usage: port_choice.py [FOLDER]
"""

import os
import re
import sys

HERE = os.path.dirname(os.path.abspath(__file__))
NAME = "if◌then◌else◌"
OWN = re.compile(r"^((?:pub |ghost )*)use Rattle\.rules\.specs\.Basics\.\{([^}]*)\}(;?)\n", re.M)


def turn(text):
    m = next((m for m in OWN.finditer(text) if NAME in [n.strip() for n in m[2].split(",")]), None)
    if m is None:
        return text
    left = [n.strip() for n in m[2].split(",") if n.strip() and n.strip() != NAME]
    line = f"{m[1]}use Rattle.rules.specs.Basics.{{{', '.join(left)}}}{m[3]}\n" if left else ""
    text = text[: m.start()] + line + text[m.end() :]
    prelude = re.search(rf"^{m[1]}use Rattle\.std\.specs\.Prelude\.\{{([^}}]*)\}}", text, re.M)
    if prelude:
        return text[: prelude.end() - 1] + ", " + NAME + text[prelude.end() - 1 :]
    return text[: m.start()] + f"{m[1]}use Rattle.std.specs.Prelude.{{{NAME}}}{m[3]}\n" + text[m.start() :]


def main():
    root = sys.argv[1] if len(sys.argv) > 1 else os.path.dirname(HERE)
    n = 0
    for folder, dirs, names in os.walk(os.path.join(root, "crates")):
        dirs[:] = sorted(d for d in dirs if d != "out")
        for name in sorted(names):
            if name.endswith((".rt", ".antt")):
                path = os.path.join(folder, name)
                with open(path, encoding="utf-8") as f:
                    text = f.read()
                now = turn(text)
                if path.endswith("rules/specs/Basics.antt"):
                    now = re.sub(r"-- a choice by a test\ninfix 5 if◌then◌else◌\n.*?\n\n", "", now, flags=re.S)
                    if NAME not in text.split("infix 5")[0]:
                        now = re.sub(r"(use Rattle\.std\.specs\.Prelude\.\{[^}]*)\}", rf"\1, {NAME}}}", now, count=1)
                if now != text:
                    n += 1
                    with open(path, "w", encoding="utf-8") as f:
                        f.write(now)
    print(f"files turned: {n}")


if __name__ == "__main__":
    main()
