#!/usr/bin/env python3
"""Whether README.md shows what stands in the crates.

    python3 tools/readme.py

says which of its blocks shows something else, and fails then. Each `rust` block is whole items of the example's source, word for word, two of them
have its `main` and `list`, and the `text` blocks are, in this order, what the example writes, the sample of the catalogue program, and its listing.

    python3 tools/readme.py listing

prints the listing that README.md shows, so that tools/try_catalogue.sh can hold it to what the program writes.
"""
import re
import sys
from pathlib import Path

ROOT = Path(__file__).resolve().parents[1]
SOURCE = 'crates/example/src/main.rt'
WRITTEN = 'crates/example/stdout'
SAMPLE = 'crates/catalogue_program/data/sample.tsv'


def text(path):
    return (ROOT / path).read_text('utf-8')


def shown(kind):
    return re.findall(rf'^```{kind}\n(.*?)^```$', text('README.md'), re.M | re.S)


def listing(lines):
    """The last value of each key, in the order of the keys' bytes."""
    values = dict(line.split('\t') for line in lines.splitlines())
    return ''.join(f'{key}\t{values[key]}\n' for key in sorted(values, key=str.encode))


def faults():
    codes, texts = shown('rust'), shown('text')
    for code in codes:
        if f'\n\n{code}\n' not in text(SOURCE) + '\n':
            yield f'{SOURCE} does not have the block that begins: {code.splitlines()[0]}'
    for name in ('main', 'list'):
        if not any(f'\nfn {name}(' in f'\n{code}' for code in codes):
            yield f'no block shows {name} of {SOURCE}'
    wanted = ((WRITTEN, text(WRITTEN)), (SAMPLE, text(SAMPLE)), (f'the listing of {SAMPLE}', listing(text(SAMPLE))))
    if len(texts) != len(wanted):
        yield f'it has {len(texts)} text blocks, and {len(wanted)} are known'
    for (name, want), got in zip(wanted, texts):
        if got != want:
            yield f'a text block is not {name}'


def main():
    if sys.argv[1:] == ['listing']:
        sys.stdout.buffer.write(shown('text')[-1].encode())
        return
    found = list(faults())
    for fault in found:
        print(f'README.md: {fault}')
    sys.exit(bool(found))


if __name__ == '__main__':
    main()
