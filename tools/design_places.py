#!/usr/bin/env python3
"""Counts the places of docs/DESIGN-PASS.md in the sources of the crates.

    tools/design_places.py [COMMIT]            a line for each count, of the working tree or of a commit
    tools/design_places.py --lines KEY [COMMIT]    the places of one count

What a pattern cannot find (twins, conversions under any name) the page lists by name, as it was read.
"""
import re
import subprocess
import sys
from pathlib import Path

ROOT = Path(__file__).resolve().parent.parent

# Of each count its key, what it counts, the pattern, and the folder of a crate in which it is looked for.
COUNTS = [
    ('1-enum', 'own enums', r'^(pub )?enum \w+', 'src'),
    ('1-answer', "lines with a reader's own answer type (Checked)", r'\bChecked\b', 'src'),
    ('1-flag', 'parameters and fields that say whether the value beside them counts', r'\b(has|had|used|given|some|held|named): bool', 'src'),
    ('1-number', 'kinds compared with a literal number', r'(\bkind|\bwas|\[0\]|\[(at|i|at - record_sizes::RECORD)\]) ?[!=]= ?[0-9]+\b', 'src'),
    ('3-while', 'while and loop', r'^\s*(while|loop)\b', 'src'),
    ('3-for', 'for, and chains of iterators', r'^\s*for .* in |\.(iter|any|all|position|rposition|zip|enumerate)\(', 'src'),
    ('3-offset', 'steps by the bytes of a record', r'\+= record_sizes::RECORD', 'src'),
    ('4-number', 'calls of functions that give the number of a refusal or a denial', r'refusals::(denial_)?number\(', 'src'),
    ('4-derive', 'derives', r'derive\(', 'src'),
    ('4-impl', 'impls of traits', r'^\s*impl.* for ', 'src'),
    ('5-record', 'clauses that give a slice the length of a record', r'length \w+\.now ≡ record_bytes', 'src'),
    ('5-fact', 'lines with a fact about parameters that travel together', r'\b(Found|Ready|Linked|Links|Rows|Offsets|Sound|Remembered|Fits|Inside) [\w(]', 'src'),
    ('6-buffer', 'a buffer with the place to write at beside it', r'\bat: usize,\s*(buffer|line|rec|buf): &mut \[u8\]', 'src'),
    ('8-answer', "answers in the functions' proof files", r'^pub \S+ : goal\.', 'proofs'),
    ('8-search', 'answers that only search by the common rules', r'= search rules$', 'proofs'),
]


def files(commit, folder):
    """The text of each file of a folder of the crates."""
    if commit is None:
        for path in sorted((ROOT / 'crates').glob(f'*/{folder}/**/*')):
            if path.suffix in ('.rt', '.antt'):
                yield path.relative_to(ROOT), path.read_text()
        return
    listed = subprocess.run(['git', 'ls-tree', '-r', '--name-only', commit, 'crates'], cwd=ROOT, check=True, capture_output=True, text=True).stdout
    for name in listed.split('\n'):
        if re.search(rf'^crates/\w+/{folder}/.*\.(rt|antt)$', name):
            yield name, subprocess.run(['git', 'show', f'{commit}:{name}'], cwd=ROOT, check=True, capture_output=True, text=True).stdout


def main(words):
    key = words[1] if words[:1] == ['--lines'] else None
    rest = words[2:] if key else words
    commit = rest[0] if rest else None
    texts = {folder: list(files(commit, folder)) for folder in ('src', 'proofs')}
    for name, what, pattern, folder in COUNTS:
        found = [(path, text.count('\n', 0, match.start()) + 1, match[0].strip()) for path, text in texts[folder] for match in re.finditer(pattern, text, re.M)]
        if key is None:
            print(f'{name:10} {len(found):5}  {what}')
        elif key == name:
            for path, line, text in found:
                print(f'{path}:{line}: {text}')


main(sys.argv[1:])
