#!/usr/bin/env python3
"""Whether the house is in order, which no proof says.

    python3 -B tools/house.py

says, in a second, which modules of a crate need themselves by way of others, which lines of `specs/` and `src/` are longer than
120 characters (a line of code that is a literal alone may be, and an import, which `rt fmt` keeps on one line), and which name
two files of `specs/`, or one of them and a type of a library's `src/`, define for others. It ends with 1 where there is any.
"""
import re
import sys
from collections import defaultdict
from pathlib import Path

CRATES = Path(__file__).resolve().parents[1] / 'crates'
WIDTH = 120


def needs(crate):
    """The modules of a crate, each with those that it imports from. What is imported as `crate::Name` stands in lib or main; `crate::specs` and
    `crate::proofs`, in an attribute for the prover, are no modules of the code."""
    texts = {file.stem: re.sub(r'//.*', '', file.read_text('utf-8')) for file in (crate / 'src').glob('*.rt')}
    top = 'main' if 'main' in texts else 'lib'
    found = {}
    for module, text in texts.items():
        names = {name if name in texts else top for name in re.findall(r'\bcrate::(?!specs\b|proofs\b)(\w+)', text)}
        if module == top:
            names |= set(re.findall(r'^\s*(?:pub )?use (\w+)::', text, re.M)) & set(texts)
        found[module] = names - {module}
    return found


def circles(found):
    """The modules that need themselves by way of others."""

    def reached(module):
        seen, left = set(), [module]
        while left:
            new = found[left.pop()] - seen
            seen |= new
            left += new
        return seen

    return sorted(module for module in found if module in reached(module))


def wide(file):
    for number, line in enumerate(file.read_text('utf-8').split('\n'), 1):
        free = line.startswith(('use ', 'pub use ', 'ghost use ')) or file.suffix == '.rt' and line.lstrip().startswith('b"')
        if len(line) > WIDTH and not free:
            yield f'{file.relative_to(CRATES)}:{number}: {len(line)} characters'


def defined(file):
    """The names that a file of `specs/` defines for others."""
    return set(re.findall(r'^(?:abbrev |unfoldable )?pub (?!mod |use )(?:record |data )?([^\s:({]+)', file.read_text('utf-8'), re.M))


def types(file):
    """The types that a file of `src/` declares for others."""
    return set(re.findall(r'^pub (?:enum|struct) (\w+)', file.read_text('utf-8'), re.M))


def main():
    amiss, places = [], defaultdict(list)
    for crate in sorted(CRATES.iterdir()):
        met = circles(needs(crate))
        if met:
            amiss.append(f'{crate.name}: {", ".join(met)} need each other')
        specs = sorted((crate / 'specs').rglob('*.antt'))
        code = sorted((crate / 'src').rglob('*.rt'))
        for file in [*code, *specs]:
            amiss += wide(file)
            for name in defined(file) if file in specs else types(file) if (crate / 'src' / 'lib.rt').exists() else ():
                places[name].append(str(file.relative_to(CRATES)))
    amiss += [f'{name} is defined in {" and ".join(files)}' for name, files in sorted(places.items()) if len(files) > 1]
    for line in amiss:
        print(line)
    return 1 if amiss else 0


if __name__ == '__main__':
    sys.exit(main())
