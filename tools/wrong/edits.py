#!/usr/bin/env python3
"""Edits that make a crate wrong, and whether each still fits the crate.

    python3 tools/wrong/edits.py

says which edits of crates/NAME/must-fail/ and crates/NAME/wrong/ do not fit, in a second, and ends with their number: an edit whose
text has moved away tries nothing, and `rt ci` would tell so only after it has proved everything.

An edit is lines, in the form that `rt` reads:

    # why the program is wrong
    # refuses: NAME     a function (pool::push) or a law (Laws.Push.push-left) that must be refused for itself; one or more
    file: src/lib.rt    a file of the crate's src/, specs/ or proofs/
    old: TEXT           what stands there exactly once, on one line
    new: TEXT           what takes its place

`rt` reads the lines that begin with `file: `, `old: ` and `new:`, passes over those that begin with `#`, and tells of any other.
"""
import re
import sys
from functools import cache
from pathlib import Path

ROOT = Path(__file__).resolve().parents[2]
FOLDERS = ('must-fail', 'wrong')
PARTS = ('src', 'specs', 'proofs')
REFUSES = '# refuses: '


class Unfit(Exception):
    """An edit that cannot be made, or that does not say what it is to show."""


class Edit:
    """`pairs` are (file, old, new), `refuses` the names that must be refused."""

    def __init__(self, path):
        self.path = path
        self.crate = path.parent.parent.name
        self.label = f'{path.parent.name}/{path.stem}'
        self.pairs, self.refuses = [], []
        file = old = ''
        for line in path.read_text('utf-8').split('\n'):
            if line.startswith(REFUSES):
                self.refuses.append(line.removeprefix(REFUSES).strip())
            elif line.startswith('file: '):
                file = line[6:]
            elif line.startswith('old: '):
                old = line[5:]
            elif line.startswith('new:'):
                self.pairs.append((file, old, line[4:].removeprefix(' ')))
                old = ''

    def apply(self, folder):
        """Makes the replacements below `folder`; answers each (file, text before, place, new text)."""
        if not self.pairs:
            raise Unfit("it has no 'old:' and 'new:' pair")
        if not self.refuses:
            raise Unfit("no 'refuses:' line says what must be refused")
        made, texts = [], {}
        for file, old, new in self.pairs:
            path = folder / file
            if file.split('/')[0] not in PARTS or '..' in file.split('/') or not path.is_file():
                raise Unfit(f"'{file}' is no file of the crate")
            text = texts.get(path) or path.read_text('utf-8')
            count = text.count(old) if old else 0
            if count != 1:
                raise Unfit(f"an 'old:' text is in {file} {count} times")
            made.append((file, text, text.index(old), new))
            texts[path] = text.replace(old, new)
        return made, texts


def module_of(file):
    """The module of a file of src/, as the parts of its name."""
    return [part for part in Path(file).with_suffix('').parts if part not in ('lib', 'main', 'mod')]


@cache
def modules_of_types(crate):
    """The module that declares each type: it names the type's methods, in whichever file their impl stands."""
    src = ROOT / 'crates' / crate / 'src'
    declared = r'^(?:pub(?:\(\w+\))? )?(?:struct|enum) (\w+)'
    return {name: module_of(path.relative_to(src)) for path in src.rglob('*.rt') for name in re.findall(declared, path.read_text('utf-8'), re.M)}


@cache
def names(crate):
    """What can be refused in a crate: its functions, as crate::module::name, and the laws of its proofs, as File.name."""
    found, top = set(), ROOT / 'crates' / crate
    for path in (top / 'src').rglob('*.rt'):
        file = module_of(path.relative_to(top / 'src'))
        module, owner = file, []
        for line in path.read_text('utf-8').split('\n'):
            if line.startswith(('impl', '}')):
                owner = re.findall(r'^impl(?:<.*?>)? (?:.* for )?(\w+)', line)
                module = modules_of_types(crate).get(owner[0], file) if owner else file
            found |= {'::'.join([crate, *module, *owner, name]) for name in re.findall(r'^\s*(?:pub(?:\(\w+\))? )?fn (\w+)', line)}
    for path in (top / 'proofs').rglob('*.antt'):
        file = '.'.join(path.relative_to(top / 'proofs').with_suffix('').parts)
        laws = re.findall(r'^\s*(?:(?:pub|unfoldable|abbrev) )*([^\s:(]+) :', path.read_text('utf-8'), re.M)
        found |= {f'{file}.{law}' for law in laws}
    return found


def is_named(wanted, name):
    return wanted == name or name.endswith(('.' + wanted, '::' + wanted))


def edits(crates=None):
    """All edits, in the order of crates, folders and names."""
    top = ROOT / 'crates'
    for crate in sorted(folder.name for folder in top.iterdir()) if crates is None else crates:
        for folder in FOLDERS:
            yield from (Edit(path) for path in sorted((top / crate / folder).glob('*.edit')))


def main():
    unfit = 0
    for edit in edits():
        try:
            edit.apply(ROOT / 'crates' / edit.crate)
            for wanted in edit.refuses:
                if not any(is_named(wanted, name) for name in names(edit.crate)):
                    raise Unfit(f"'{wanted}' is no function and no law of the crate")
        except Unfit as why:
            unfit += 1
            print(f'{edit.crate}/{edit.label}: {why}')
    if unfit:
        print(f'{unfit} edits do not fit')
    sys.exit(unfit > 0)


if __name__ == '__main__':
    main()
