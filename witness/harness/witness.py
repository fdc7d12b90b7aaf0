"""Compares `rlc` with javac and a Java machine on random programs. See README.md beside this folder."""

import argparse
import atexit
import collections
import os
import signal
import sys
import time
from concurrent.futures import ProcessPoolExecutor

from generated import Generated
from known import UNTIL_MENDED
from reach import Reach
from refusals import Refusals
from runs import SHARED, Runs
from snippets import Snippets
from tools import Tools

KINDS = {'generated': Generated, 'refusals': Refusals, 'runs': Runs, 'reach': Reach, 'snippets': Snippets}
USUAL = ('generated', 'snippets', 'refusals', 'runs')
worker = {}


def begin(rlc, classes):
    tools = Tools(rlc, classes)
    atexit.register(tools.close)
    options = dict(UNTIL_MENDED)
    worker['tools'] = tools
    worker['options'] = options


def part(kind, first):
    """Compares the programs of some seeds, which share a library."""
    it = KINDS[kind](worker['tools'], worker['options'])
    found = []
    for seed in range(first, first + SHARED):
        found += [(seed,) + one for one in it.compare(seed)]
    return it.told, it.codes, found


def keep(folder, number, it):
    """Writes the files of a difference into a folder of its own."""
    seed, kind, what, files, choices, settings = it
    place = f'{folder}/{number}'
    texts = {**files, 'settings.toml': settings, 'what.txt': f'seed {seed}: {kind}: {what}\n'}
    if choices:
        texts['choices'] = choices
    for name, text in texts.items():
        os.makedirs(os.path.dirname(f'{place}/{name}'), exist_ok=True)
        with open(f'{place}/{name}', 'w') as out:
            out.write(text)
    return place


def compare(kind, given, pool):
    """Compares until there are enough programs; the answer is the number of differences."""
    told, codes, differences = collections.Counter(), collections.Counter(), 0
    wanted, begun, seed = given.programs, time.time(), given.seed
    waiting = []
    try:
        while told['programs'] < wanted or waiting:
            while told['programs'] < wanted and len(waiting) < given.jobs * 2:
                waiting.append(pool.submit(part, kind, seed * SHARED))
                seed += 1
            one, more, found = waiting.pop(0).result()
            told.update(one)
            codes.update(more)
            print(f'{kind}: {told["programs"]} programs, {time.time() - begun:.0f} s', file=sys.stderr, flush=True)
            for it in found:
                differences += 1
                place = keep(given.out, f'{kind}-{differences}', it)
                print(f'DIFFERENCE {it[1]}: {it[2].strip()[:300]}\n  seed {it[0]}, {place}', flush=True)
    finally:
        # (also where the command is ended early)
        print(f'{kind}: ' + ', '.join(f'{count} {name}' for name, count in told.items()))
        if codes:
            print('  refusals of rlc by code: ' + ', '.join(f'{code}: {codes[code]}' for code in sorted(codes)))
        print(f'  {differences} unexplained differences, {time.time() - begun:.0f} s, seeds from {given.seed * SHARED}', flush=True)
    return differences


def main():
    words = argparse.ArgumentParser(description=__doc__)
    words.add_argument('--programs', type=int, default=1000, help='so many programs of each kind (1000)')
    words.add_argument('--seed', type=int, default=1, help='where the seeds begin (1)')
    words.add_argument('--rlc', required=True, help='the command rlc')
    words.add_argument('--classes', required=True, help='the folder of the compiled Java part')
    words.add_argument('--only', choices=sorted(KINDS), help='one kind alone')
    words.add_argument('--jobs', type=int, default=max(1, (os.cpu_count() or 2) // 2), help='so many workers at once')
    words.add_argument('--out', default='witness-found', help='the folder for programs on which the two differ')
    given = words.parse_args()
    signal.signal(signal.SIGTERM, lambda *_: sys.exit(2))
    with ProcessPoolExecutor(given.jobs, initializer=begin, initargs=(os.path.abspath(given.rlc), given.classes)) as pool:
        count = sum(compare(kind, given, pool) for kind in ([given.only] if given.only else USUAL))
    sys.exit(1 if count else 0)


if __name__ == '__main__':
    main()
