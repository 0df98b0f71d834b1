#!/usr/bin/env python3
"""The lines that a reader must believe, as docs/ARCHITECTURE.md counts them.

    python3 -B tools/belief.py [--write]

says, in a second, which counts of the table "what to believe" are not those of the files, and ends with 1 where there is any;
with --write it puts the present counts there. A row names files as `crate`: `File` LINES, .. and gives their sum; a row whose
first cell is *a group* may be cited by that name.
"""
import re
import sys
from pathlib import Path

ROOT = Path(__file__).resolve().parents[1]
PAGE = ROOT / 'docs' / 'ARCHITECTURE.md'
FILES, SUM = 3, 4  # the cells of a row


def lines_of(crate, name):
    return (ROOT / 'crates' / crate / 'specs' / f'{name}.antt').read_text('utf-8').count('\n')


def counted(cell, groups):
    """The cell with the present counts, and the files that it stands for."""
    files = [file for group in re.findall(r'\*(\w+)\*', cell) for file in groups[group]]

    def of_crate(found):
        crate, rest = found.groups()

        def of_file(each):
            files.append((crate, each[1]))
            return f'`{each[1]}` {lines_of(crate, each[1])}'

        return f'`{crate}`:' + re.sub(r'`(\w+)` \d+', of_file, rest)

    return re.sub(r'`([a-z_]+)`:([^;]*)', of_crate, cell), files


def anew(page):
    """The page with the present counts."""
    groups, demanded, rows = {}, set(), []
    for row in page.split('\n'):
        cells = row.split('|')
        if len(cells) == 7 and re.search(r'`\w+` \d', cells[FILES]):
            cells[FILES], files = counted(cells[FILES], groups)
            cells[SUM] = f' {sum(lines_of(*file) for file in set(files)):,} '
            name = re.match(r' *\*(\w+)\*', cells[1])
            if name:
                groups[name[1]] = files
            if 'demand' in cells[1]:
                demanded |= set(files)
        rows.append('|'.join(cells))
    whole = sum(file.read_text('utf-8').count('\n') for file in (ROOT / 'crates').glob('*/specs/*.antt'))
    rest = f'rest on {sum(lines_of(*file) for file in demanded):,} of the {whole:,} lines'
    new, found = re.subn(r'The three demands together rest on .*? lines of `specs/`', f'The three demands together {rest} of `specs/`', '\n'.join(rows))
    if found != 1:
        sys.exit('docs/ARCHITECTURE.md: no sentence says on how many lines the three demands rest together')
    return new


def main():
    page = PAGE.read_text('utf-8')
    new = anew(page)
    if '--write' in sys.argv[1:]:
        PAGE.write_text(new, 'utf-8')
        return 0
    amiss = [(was, now) for was, now in zip(page.split('\n'), new.split('\n')) if was != now]
    for was, now in amiss:
        print(f'docs/ARCHITECTURE.md has\n    {was}\nand the files\n    {now}')
    return 1 if amiss else 0


if __name__ == '__main__':
    sys.exit(main())
