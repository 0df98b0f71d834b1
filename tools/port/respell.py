#!/usr/bin/env python3
"""Brings the repository's own antt names to today's spelling: words in snake case.

    python3 tools/port/respell.py

It ran once, behind the toolchain's port.py, on the tree that docs/PORT.md names first. A definition, law or local name of specs/
or proofs/ whose spelling is `likeThis` is written `like_this`, wherever it stands: in specs/, proofs/, clauses, comments, edits, the
pages and tools/. Functions of src/, types, modules, strings, inputs and outputs keep their names.
"""
import re
from pathlib import Path

ROOT = Path(__file__).resolve().parents[2]
TOKEN = re.compile(r"(?<![\w'◌-])[A-Za-z_][\w']*(?:-[\w']+)*")
DEFINED = re.compile(r"^\s*(?:abbrev |unfoldable |pub |data |record )*([A-Za-z][\w'\-]*) :", re.M)
PAGES = ('README.md', 'docs/ARCHITECTURE.md', 'docs/DIFFERENCES.md', 'docs/PROMISES.md', 'docs/SENTENCES.md')

# Where the plain rule would give a name that the file has already. (crate, old): new; crate '' is all of them.
OTHERWISE = {
    ('', 'atA'): 'at_node_a',
    ('', 'lastDigits'): 'final_digits',
    ('', 'lastDigits-all'): 'final_digits-all',
    ('image', 'nodeAt'): 'node_there',
    ('places', 'only_kid'): 'kid_is_only',
    ('records', 'none_left'): 'none_left_lem',
    ('pool', 'entered_all'): 'entered_all_lem',
    ('catalogue', 'step_in'): 'step_in_lem',
}


def camel(name):
    return re.search(r'(?<![A-Za-z])[a-z]+[a-z0-9]*[A-Z]', name)


def snake(name):
    parts = []
    for part in name.replace('getD', 'get_or').split('-'):
        parts.append(part if part[:1].isupper() else re.sub(r'(?<=[a-z0-9])([A-Z])', lambda m: '_' + m.group(1).lower(), part))
    return '-'.join(parts)


def texts(crate):
    for part, pattern in (('specs', '*.antt'), ('proofs', '*.antt'), ('src', '*.rt'), ('must-fail', '*.edit'), ('wrong', '*.edit')):
        if (crate / part).is_dir():
            yield from sorted((crate / part).rglob(pattern))


def main():
    crates = sorted(p for p in (ROOT / 'crates').iterdir() if p.is_dir())
    mine = set()
    for crate in crates:
        for path in texts(crate):
            if path.suffix == '.antt':
                mine |= {m.group(1) for m in DEFINED.finditer(path.read_text('utf-8')) if camel(m.group(1))}
    # locals and fields are found by their spelling alone: no library has a name that is spelled so
    for crate in crates:
        for path in texts(crate):
            if path.suffix == '.antt':
                text = re.sub(r'--.*', '', path.read_text('utf-8'))
                mine |= {w for w in TOKEN.findall(text) if camel(w)}

    def respelled(crate, text):
        def one(m):
            word = m.group(0)
            for key in ((crate, word), ('', word)):
                if key in OTHERWISE:
                    return OTHERWISE[key]
            return snake(word) if word in mine else word
        return TOKEN.sub(one, text)

    changed = 0
    for crate in crates:
        for path in texts(crate):
            old = path.read_text('utf-8')
            new = respelled(crate.name, old)
            if new != old:
                path.write_text(new, 'utf-8')
                changed += 1
    for name in PAGES:
        path = ROOT / name
        old = path.read_text('utf-8')
        new = respelled('', old)
        if new != old:
            path.write_text(new, 'utf-8')
            changed += 1
    print(f'{len(mine)} names, {changed} files')


if __name__ == '__main__':
    main()
