#!/usr/bin/env python3
"""Tries the wrong programs of the crates: the prover must refuse each of them, for the reason that the edit names.

    tools/try_wrong.sh [--jobs N] [--table FILE] [--logs FOLDER] [CRATE ..]

All edits of must-fail/ and wrong/ (tools/wrong/edits.py has their form) of the named crates, or of all. Each is checked over a copy of what
`rt check` keeps of the crate, so that only what it touches is proved again; before that the crate as it stands must be proved over such a
copy, or a refusal would say nothing. This is no verdict on the crates: `rt ci` gives that, and tries must-fail/ itself. A line for each
edit, and a last line `N refused, M not`; the exit status is 0 if M is 0. FOLDER keeps what was said of each.

An edit counts as refused if every name of its `refuses:` lines is refused for itself: not only because it calls or cites something that is
refused, not because a file is left that nothing names, and not because its proof no longer fits the code's shape. Words in brackets are
doubts, which do not count:

    shape           one refusal is of a proof that names a goal or a fact that is gone: the code has others
    form            an operator or a call is edited, and no refusal says of its goal that it fails: `n <= 0` for `n == 0` might be
                    refused in the same words, since its fact has another form
    caller-only     the function whose body is edited is not refused: its promise may be too weak
    own-proof-only  a promise is edited, and only its own proof is refused: a new proof might be all it takes
    safety-only     no promise is missed, but a bound, an overflow, the end of a loop or what a callee asks
    laws-only       a definition is edited, and only laws are refused, none that computes or ties it: a law may still be true, and only its proof no longer fit
"""
import argparse
import os
import re
import shutil
import subprocess
import sys
import tempfile
from concurrent.futures import ThreadPoolExecutor
from functools import cache
from pathlib import Path
from threading import Lock

from edits import PARTS, ROOT, Unfit, edits, is_named, module_of, modules_of_types

# What rests on a refused declaration is refused in these words, whatever is wrong with that one.
PASSED_ON = re.compile(r'^\d+ declarations? that depends? on .* (was|were) not checked')
UNNAMED = re.compile(r'^no `mod` line names this file|for this file to be the proof of')
SHAPE = re.compile(r'has no `[^`]*` that can be named|Lts\.[^`]*`( \(nearest: [^)]*\))? has no field|is not in scope')
UNANSWERED = 'it is not proved'
FAILS = re.compile(r'(goal|part|part `[^`]*` of the goal) fails|goal is false')
FORM = re.compile(r'[-+*/%<>=!&|^]+|\b[a-z]\w*(?=\()')
LAW = re.compile(r'Laws\.')
SAFETY = re.compile(r'(overflow_\w+|nonzero_\w+|bounds|slice_bounds|offset_bounds|shape_of)-|.*-requires|.*-smaller')
PROOFS = ('Answers', 'Invariants', 'Proof')

KIT = Path(shutil.which('rt') or sys.exit('rt is not on the path')).resolve().parent.parent
LISTED = [line.split('#')[0].partition(':') for line in (ROOT / 'crates.txt').read_text('utf-8').splitlines()]
DEPENDENCIES = {name.strip(): below.split() for name, colon, below in LISTED if colon}
SEEDING = Lock()


@cache
def below(crate):
    """The crates that a crate stands on, the lowest first."""
    found = []
    for name in DEPENDENCIES[crate]:
        if name in DEPENDENCIES:
            found += [it for it in [*below(name), name] if it not in found]
    return found


def kept(crate):
    return ROOT / 'crates' / crate / 'out' / 'incremental'


def library(crate):
    return ROOT / 'crates' / crate / 'out' / 'rlib'


def check(crate, folder, incremental):
    """Checks a crate's folder with the words of `rt check`: exit status, what was said, CPU seconds."""
    words = ['--crate-name', crate, 'src/main.rt' if (folder / 'src/main.rt').exists() else 'src/lib.rt']
    for name in ['std'] + DEPENDENCIES[crate]:
        words += ['--extern', f'{name}={library(name) if name in DEPENDENCIES else KIT / "rlibs"}/{name}.rlib']
    for place in [KIT / 'rlibs', *map(library, below(crate))]:
        words += ['-L', f'dependency={place}']
    words += ['--antt-project', KIT / 'rattle/logic/antt-project.json', '--logic-built', KIT / 'logic_built']
    words += ['--links', f'{crate}=', '--jobs', '1', '--incremental', incremental]
    with open(folder / 'said', 'w+b') as said:
        child = subprocess.Popen([KIT / 'bin/rattle', 'check', *words], cwd=folder, stdin=subprocess.DEVNULL, stdout=said, stderr=said)
        _, status, used = os.wait4(child.pid, 0)
        child.returncode = os.waitstatus_to_exitcode(status)
    text = (folder / 'said').read_text('utf-8', 'replace').replace(f'{folder}/', '')
    return child.returncode, text, used.ru_utime + used.ru_stime


def linked(source, target):
    """Copies what was proved, by links where these can be made: a check replaces such a file, and changes none."""

    def copy(one, other):
        try:
            if one.endswith('.oantt'):
                return os.link(one, other)
        except OSError:
            pass
        return shutil.copy2(one, other)

    shutil.copytree(source, target, copy_function=copy)


class Tries:
    """The copies, in a folder that goes when all is done: `seed` of each crate is what `rt check` kept of it."""

    def __init__(self, room, logs):
        self.room, self.logs = Path(room), logs and Path(logs)

    def check_copy(self, crate, label, change=lambda folder: None):
        """Checks a copy of a crate after a change, over a copy of its seed."""
        folder = self.room / crate / label.replace('/', '-')
        folder.mkdir(parents=True)
        try:
            for part in PARTS:
                if (ROOT / 'crates' / crate / part).is_dir():
                    shutil.copytree(ROOT / 'crates' / crate / part, folder / part)
            change(folder)
            linked(self.room / crate / 'seed', folder / 'kept')
            status, said, cpu = check(crate, folder, folder / 'kept')
        finally:
            shutil.rmtree(folder)
        if self.logs:
            (self.logs / crate / label).parent.mkdir(parents=True, exist_ok=True)
            (self.logs / crate / f'{label}.log').write_text(said, 'utf-8')
        return status, said, cpu

    def seed(self, crate):
        """Proves the crate as it stands, and once more over a copy: a line, and whether it is proved."""
        # one at a time: a check builds the crates below, and writes what is kept of them
        with SEEDING:
            ran = subprocess.run(['rt', 'check'], cwd=ROOT / 'crates' / crate, stdin=subprocess.DEVNULL, stdout=subprocess.DEVNULL, stderr=subprocess.DEVNULL)
            if ran.returncode == 0:
                linked(kept(crate), self.room / crate / 'seed')
        if ran.returncode:
            return f'{crate} is not proved as it stands', False
        status, said, control = self.check_copy(crate, 'control')
        if status:
            return f'{crate} is not proved over a copy of what was kept: {said.splitlines()[:1]}', False
        return f'{crate} as it stands: proved (control {control:.1f} s)', True

    def try_edit(self, edit):
        """Answers edit, verdict, CPU seconds, doubts, and what is refused for itself."""
        made = []

        def change(folder):
            places, texts = edit.apply(folder)
            made.extend(places)
            for path, text in texts.items():
                path.write_text(text, 'utf-8')

        try:
            status, said, cpu = self.check_copy(edit.crate, edit.label, change)
        except Unfit as why:
            return edit, f'NOT TRIED: {why}', 0, [], []
        if status == 0:
            return edit, 'NOT REFUSED', cpu, [], []
        if status != 1 or not re.search('^logic=not-proved', said, re.M):
            why = said.splitlines()[:1]
            return edit, f'NO VERDICT: the prover was not reached, or could not tell: {why}', cpu, [], []
        found = refused_itself(edit.crate, said)
        return edit, verdict_of(edit, found), cpu, doubts(*touched(edit, made), found), found


def function_at(crate, file, text, at):
    """A pattern for the name of the function that a place of src/ lies in, '' in a constant or a type, and whether it lies in its head."""
    end = text.find('\n', at)
    items = list(re.finditer(r'^\s*(?:pub(?:\(\w+\))? )?(fn|const|struct|enum|impl|use|mod) *(\w*)', text[:end], re.M))
    if not items or items[-1][1] != 'fn':
        return '', False
    module, owners = module_of(file[4:]), re.findall(r'^(?:impl(?:<.*?>)? (?:.* for )?(\w+)|\})', text[:end], re.M)
    if owners and owners[-1]:
        module = modules_of_types(crate).get(owners[-1], module)
    in_head = not re.search(r'\{ *$', text[items[-1].end():end], re.M)
    return '::'.join([crate, *module, r'(\w+::)?' + items[-1][2]]), in_head


def touched(edit, made):
    """The functions whose bodies and whose promises are edited, and whether the code takes another form."""
    bodies, promises, reformed = set(), set(), False
    for (file, text, at, new), (_, old, _) in zip(made, edit.pairs):
        if file.startswith('src/'):
            name, in_promise = function_at(edit.crate, file, text, at)
            (promises if in_promise else bodies).add(name)
            reformed |= not in_promise and FORM.findall(old) != FORM.findall(new)
    return bodies, promises, reformed


def refused_itself(crate, said):
    """What is refused for itself, in the order told, as (function or law, goal, why)."""
    found, goals = [], []
    # a message goes on in lines that begin with two spaces
    for line in re.sub('\n  +', ' ', said).split('\n'):
        at = re.match(rf'(?:note: )?(?:\./)?(\S+?)\.(?:antt|rt)(?::\d+:\d+)?: (error|{UNANSWERED})(.*)', line)
        state = re.match(r'fn (\S+): (.*)', line)
        if at and at[2] == 'error':
            goal, why = re.match(r'(?:\[[\w-]+\])?: (?:`([^`]*)`: )?(.*)', at[3]).groups('')
            path = at[1].split('/')
            if path[0] == 'proofs' and path[-1] in PROOFS:
                name = '::'.join([crate, *path[1:-1]])
            else:
                name = '.'.join(path[path[0] == 'proofs':] + [goal]).rstrip('.')
            if not PASSED_ON.search(why):
                found.append((name, goal, why))
        elif at:
            goals += [(goal, line) for goal in re.findall(r'\(`([^`]*)`\)', line)[:1]]
        elif state:
            # a goal that no answer was found for is told before the line of its function
            found += [(state[1], goal, why) for goal, why in goals if not state[2].startswith('proved')]
            goals = []
    return found


def doubts(bodies, promises, reformed, found):
    told, names = [], {name for name, _, _ in found}
    if bodies and all(bodies) and not any(re.fullmatch(body, name) for body in bodies for name in names):
        told.append('caller-only')
    if promises and not bodies and all(any(re.fullmatch(p, name) for p in promises) for name in names):
        told.append('own-proof-only')
    if any(SHAPE.search(why) for _, _, why in found):
        told.append('shape')
    if reformed and not any(FAILS.search(why) for _, _, why in found):
        told.append('form')
    if all('::' in name and SAFETY.match(goal) for name, goal, _ in found):
        told.append('safety-only')
    if not bodies and not promises and all(LAW.match(name) for name in names):
        told.append('laws-only')
    return told


def verdict_of(edit, found):
    """'refused', or why not: a name that is not refused for itself, or only for want of a fitting proof or a named file."""
    if any(UNNAMED.search(why) for _, _, why in found):
        return 'NOT REFUSED FOR A FACT: a file is left that nothing names'
    for wanted in edit.refuses:
        own = [why for name, _, why in found if is_named(wanted, name)]
        if not own:
            return f'NOT REFUSED FOR ITSELF: {wanted}'
        # a goal without an answer may have lost it to another name, as a condition's other words give it
        renamed = any(SHAPE.search(why) for why in own)
        if all(SHAPE.search(why) or renamed and UNANSWERED in why and not FAILS.search(why) for why in own):
            return f'NOT REFUSED FOR A FACT: the proof of {wanted} no longer fits the code'
    return 'refused'


def begin(tries, tried, workers):
    """All tasks for some edits, on so many workers, as (crate, seed, attempts): the seed of a crate is begun before the edits of the one
    before it, so that no worker waits for it."""
    crates = [crate for crate in DEPENDENCIES if any(edit.crate == crate for edit in tried)]
    seeds = {}

    def attempt(edit):
        return tries.try_edit(edit) if seeds[edit.crate].result()[1] else None

    attempts = {}
    for crate, former in zip([*crates, None], [None, *crates]):
        if crate:
            seeds[crate] = workers.submit(tries.seed, crate)
        if former:
            attempts[former] = [workers.submit(attempt, edit) for edit in tried if edit.crate == former]
    return [(crate, seeds[crate], attempts[crate]) for crate in crates]


def main():
    ask = argparse.ArgumentParser(prog='tools/try_wrong.sh', description=__doc__, formatter_class=argparse.RawDescriptionHelpFormatter)
    ask.add_argument('crates', nargs='*', metavar='CRATE')
    ask.add_argument('--jobs', type=int, default=2)
    ask.add_argument('--table', help='a file for what each edit is refused at, with tabs between the columns')
    ask.add_argument('--logs', help='a folder for what was said of each')
    asked = ask.parse_args()
    if not set(asked.crates) <= set(DEPENDENCIES):
        sys.exit(f'not all in crates.txt: {" ".join(asked.crates)}')
    tried = list(edits(asked.crates or DEPENDENCIES))
    table, refused, used = ['crate\tedit\tverdict\tcpu-s\tdoubts\trefused for itself'], 0, 0.0
    with tempfile.TemporaryDirectory(prefix='wrong-') as room, ThreadPoolExecutor(asked.jobs) as workers:
        for crate, seed, attempts in begin(Tries(os.path.realpath(room), asked.logs), tried, workers):
            said, proved = seed.result()
            print(said, flush=True)
            if not proved:
                workers.shutdown(cancel_futures=True)
                sys.exit(f'not proved: see rt check in crates/{crate}')
            for edit, verdict, cpu, doubtful, found in (task.result() for task in attempts):
                tail = f' [{" ".join(doubtful)}]' if doubtful else ''
                print(f'{edit.crate}/{edit.label}: {verdict}: {", ".join(edit.refuses)} ({cpu:.1f} s){tail}', flush=True)
                names = ' '.join(dict.fromkeys(f'{name}/{goal}' if '::' in name else name for name, goal, _ in found))
                table.append('\t'.join([edit.crate, edit.label, verdict, f'{cpu:.1f}', ' '.join(doubtful), names]))
                refused, used = refused + (verdict == 'refused'), used + cpu
    if asked.table:
        Path(asked.table).write_text('\n'.join(table) + '\n', 'utf-8')
    print(f'{used:.0f} CPU seconds for the edits')
    print(f'{refused} refused, {len(tried) - refused} not')
    sys.exit(refused < len(tried))


if __name__ == '__main__':
    main()
