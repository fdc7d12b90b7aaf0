#!/usr/bin/env python3
"""Runs every command line of README.md in a fresh clone, in README's order and as it stands, and prints time and peak memory.

  docs/try_readme.py [--limit GB] [--only TEXT] [--keep]

A command line is an indented line that begins with `(cd `, `rt `, `crates/` or `$ `. Those with `$ ` share one shell, so that a `cd`
holds for those behind it; the lines behind one are what it must print. The clone is made of what is committed. What `rt` keeps
beside the kit is used where it is there, and said; on a machine that has proved nothing yet nothing is.
"""

import argparse
import os
import re
import shutil
import signal
import subprocess
import sys
import tempfile
import threading
import time

ROOT = os.path.dirname(os.path.dirname(os.path.abspath(__file__)))
COMMAND = re.compile(r'^    (?:(?P<shared>\$ )|(?=\(cd |rt |crates/))(?P<line>.+)$')


def commands(text):
    """The command lines in order: the line, whether it shares its shell, and what it must print (None: nothing is said)."""
    found = []
    for line in text.split('\n'):
        it = COMMAND.match(line)
        if it:
            found.append([it['line'], bool(it['shared']), [] if it['shared'] else None])
        elif found and found[-1][1] and line.startswith('    '):
            found[-1][2].append(line[4:])
        elif found and found[-1][1] and found[-1][2] == [] and line.strip():
            found[-1][2] = None
    return found


def parents():
    """The parent of each process, and its memory in bytes."""
    table = {}
    for name in os.listdir('/proc'):
        if name.isdigit():
            try:
                with open(f'/proc/{name}/stat') as it:
                    words = it.read().rsplit(')', 1)[1].split()
                table[int(name)] = int(words[1]), int(words[21]) * os.sysconf('SC_PAGE_SIZE')
            except (OSError, IndexError):
                pass
    return table


class Watch(threading.Thread):
    """Follows a process and all that come from it, and ends them past the limit."""

    def __init__(self, process, limit):
        super().__init__(daemon=True)
        self.process, self.limit = process, limit
        self.known, self.peak, self.is_killed = {process.pid}, 0, False

    def run(self):
        while self.process.poll() is None:
            table = parents()
            for pid in sorted(table):
                if table[pid][0] in self.known:
                    self.known.add(pid)
            self.known &= set(table)
            total = sum(table[pid][1] for pid in self.known)
            self.peak = max(self.peak, total)
            if self.limit and total > self.limit:
                self.is_killed = True
                for pid in self.known:
                    try:
                        os.kill(pid, signal.SIGKILL)
                    except OSError:
                        pass
            time.sleep(0.3)


def run(line, folder, limit):
    """The status, the text, the seconds, the peak and whether the limit ended it."""
    begun = time.time()
    process = subprocess.Popen(['bash', '-c', line], cwd=folder, stdout=subprocess.PIPE, stderr=subprocess.STDOUT, text=True,
                               errors='replace')
    watch = Watch(process, limit)
    watch.start()
    text = process.communicate()[0]
    watch.join()
    return process.returncode, text, time.time() - begun, watch.peak, watch.is_killed


def say_store():
    rt = shutil.which('rt')
    kit = os.path.dirname(os.path.dirname(os.path.realpath(rt))) if rt else ''
    kept = f'{os.path.dirname(kit)}/rattle-kept'
    is_there = os.path.isdir(kept) and any(os.scandir(kept))
    print(f'what earlier runs kept is in {kept}: the times are not those of a new machine' if is_there else 'nothing is kept')


def main():
    words = argparse.ArgumentParser(description=__doc__, formatter_class=argparse.RawDescriptionHelpFormatter)
    words.add_argument('--limit', type=float, default=0, help='end a command whose processes take more than so many GB')
    words.add_argument('--only', default='', help='only the command lines that have this text')
    words.add_argument('--keep', action='store_true', help='leave the clone')
    given = words.parse_args()
    room = tempfile.mkdtemp(prefix='readme-')
    clone = f'{room}/clone'
    subprocess.run(['git', 'clone', '-q', ROOT, clone], check=True)
    say_store()
    with open(f'{clone}/README.md', encoding='utf-8') as it:
        found = commands(it.read())
    wrong, before = 0, ''
    for line, is_shared, wanted in found:
        whole = before + line if is_shared else line
        if is_shared and re.match(r'(cd|export|PATH=)', line):
            before += line + '\n'
        if given.only not in line:
            continue
        status, text, seconds, peak, is_killed = run(whole, clone, given.limit * 1e9)
        is_right = status in (0, 1) and not is_killed and 'rt: mend these first' not in text
        is_right = is_right and (not wanted or text.rstrip('\n').split('\n') == wanted) and not (line == 'rt ci' and status)
        wrong += not is_right
        note = ' KILLED at the limit' if is_killed else '' if is_right else ' OTHER OUTPUT:\n' + text[-1000:]
        print(f'{line}\n  status {status}, {seconds:.1f} s, peak {peak / 1e9:.2f} GB{note}', flush=True)
        if wanted is None:
            print('  last line: ' + (text.rstrip('\n').split('\n') or [''])[-1][:150], flush=True)
    if not given.keep:
        shutil.rmtree(room, ignore_errors=True)
    sys.exit(1 if wrong else 0)


if __name__ == '__main__':
    main()
