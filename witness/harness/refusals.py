"""Compares the refusals 30 to 46 of `rlc check` with what javac refuses."""

import random
import re

from known import IGNORED, LEFT_OUT, codes_of, is_known
from library import Library
from mutations import Mutator
from programs import ANNOTATIONS, Program
from reduce import reduce

# So many programs share a library, and so many are made of each.
SHARED = 25
MUTANTS = 8
PASSES = ((30,), (31,), (32,), (33,), (34,), (40, 41, 42, 43, 44, 45, 46))
SETTINGS = 'version = 1\ncore = false\n'
# The types that boxing brings in.
BOXED = re.compile(r'java\.lang\.(Integer|Boolean|Character|Byte|Long|Number|Comparable)|java\.io\.Serializable')
HIDDEN = 'package lib;\nfinal class Hidden { }\n'


def pass_of(code):
    return next((k for k, codes in enumerate(PASSES) if code in codes), len(PASSES))


def blank(text):
    """The text for javac: what it can't read is blanked to equal length."""
    for one in (ANNOTATIONS.rstrip('\n'), '@InheritableMustCall({}) ', '@NotOwning '):
        text = text.replace(one, ' ' * len(one))
    return text


class Fault:
    """One refusal of javac."""

    def __init__(self, row, files):
        _, self.file, line, column, self.key, self.text = row.split('\t', 5)
        self.line, self.column = int(line), int(column)
        lines = files.get(self.file, '').split('\n')
        self.source = lines[self.line - 1] if 0 < self.line <= len(lines) else ''
        self.before = self.source[:self.column - 1]

    def is_known(self):
        return is_known(self)

    def __str__(self):
        return f'{self.file}:{self.line}:{self.column} {self.key}: {self.text[:200]}'


class Refusals:
    def __init__(self, tools, options):
        self.tools = tools
        self.options = options
        self.told = {'programs': 0, 'taken by both': 0, 'refused by both': 0, 'left out': 0, 'syntax': 0, 'known': 0, 'not compiled': 0}
        self.codes = {}

    def compare(self, seed):
        r = random.Random(seed)
        library = Library(random.Random(f'library {seed // SHARED}'), self.options)
        program = Program(r, self.options, r.choice(('large', 'small')), library, short=True)
        base = {name: text for name, text in program.rlc_files().items()}
        stub = library.stub()
        bare = {**library.java_files(bare=True), 'lib/Hidden.java': HIDDEN}
        found = []
        for number in range(MUTANTS):
            files = dict(base)
            kinds = []
            for _ in range(r.choice((1, 1, 2)) if number else 0):
                name = r.choice(sorted(files))
                files[name], kind = Mutator(r).change(files[name])
                kinds.append(kind)
            wrong = self.one(files, stub, bare)
            if wrong:
                small = reduce(files, lambda some: self.is_alike(wrong, some, stub, bare)) if len(found) < 2 else files
                found.append((wrong[0], f'{wrong[1]} [{" ".join(kinds)}]', {**small, 'lib.astub': stub}, None, SETTINGS))
        return found

    def is_alike(self, wrong, files, stub, bare):
        """Whether the files differ in the same way: with the same words, but for places."""
        before = dict(self.told), dict(self.codes)
        now = self.one(files, stub, bare)
        self.told, self.codes = before
        plain = lambda it: (it[0], re.sub(r'\S*:\d+:\d+', '', it[1])[:60])
        return now is not None and plain(now) == plain(wrong)

    def one(self, files, stub, bare):
        status, out = self.tools.rlc({**files, 'lib.astub': stub}, ['check'], SETTINGS, {})
        told = re.match(r'(\S+?):(\d+):(\d+): (\d+) \w+$|(\S+): (\d+) \w+$', out.split('\n')[0]) if status in (2, 7) else None
        if status not in (0, 1, 2, 7):
            return 'rlc fails', f'{status} {out[-300:]}'
        code = int(told[4] or told[6]) if told else 0
        if told and told[1] == 'lib.astub' and code < 50:
            return 'library', out
        self.told['programs'] += 1
        rows = self.tools.check(bare, {name: blank(text) for name, text in files.items()})
        if any(row.startswith('crash') for row in rows):
            self.told['not compiled'] += 1
            return ('javac crashes', str(rows)) if not self.options.get('skip crashes') else None
        faults = [Fault(row, files) for row in rows if row.startswith('error')]
        if 10 <= code <= 20 or code == 61:
            self.told['syntax'] += 1
            return None if faults or code == 61 else ('javac takes', out)
        if any(codes_of(it) == 'syntax' for it in faults):
            self.told['syntax'] += 1
            return None if code else ('javac refuses the syntax', str(faults[0]))
        features = [row.split('\t') for row in rows if row.startswith('feature')]
        return self.judge(code if 30 <= code <= 46 else 0, told, faults, features, out, files)

    def judge(self, code, told, faults, features, out, files):
        unknown = [it for it in faults if codes_of(it) == ()]
        if unknown:
            return 'unknown key', str(unknown[0])
        faults = [it for it in faults if codes_of(it) != IGNORED and not self.is_hidden(it, faults)]
        known = [it for it in faults if it.is_known()]
        faults = [it for it in faults if not it.is_known()]
        if not code:
            if faults:
                return 'rlc takes', str(faults[0])
            self.told['known' if known else 'taken by both'] += 1
            return None
        self.codes[code] = self.codes.get(code, 0) + 1
        if self.is_left_out(told, files) or any(BOXED.search(it.text) for it in faults):
            self.told['left out'] += 1
            return None
        file, line = told[1], int(told[2])
        same = [it for it in faults + known if code in codes_of(it) and it.file == file and self.is_near(it, line, int(told[3]), files)]
        if not same and features:
            self.told['left out'] += 1
            return None
        if not same:
            return ('another refusal', f'{out.strip()} / {faults[0]}') if faults else ('javac takes', out)
        names = list(files)
        earlier = [it for it in faults if max(map(pass_of, codes_of(it))) < pass_of(code)]
        if earlier:
            return 'an earlier pass', f'{out.strip()} / {earlier[0]}'
        before = [it for it in faults if max(map(pass_of, codes_of(it))) == pass_of(code) and it.file in names
                  and (names.index(it.file), it.line) < (names.index(file), line)]
        if before:
            return 'an earlier place', f'{out.strip()} / {before[0]}'
        self.told['refused by both'] += 1
        return None

    @staticmethod
    def is_hidden(it, faults):
        """javac says of a class that it lacks a method also where its own one is no right override."""
        return it.key == 'does.not.override.abstract' and any(
            codes_of(other) == (45,) and set(re.findall(r'(\w+)\(', it.text)) & set(re.findall(r'(\w+)\(', other.text)) for other in faults)

    @staticmethod
    def is_left_out(told, files):
        """Whether a form stands at the place that the subset leaves out, and Java has."""
        line = files[told[1]].split('\n')[int(told[2]) - 1]
        rest = line[int(told[3]) - 1:]
        return any(re.search(before, line[:int(told[3]) - 1]) and re.match(after, rest) for before, after in LEFT_OUT)

    @staticmethod
    def is_near(it, line, column, files):
        """On one line; an error of a whole `do` or `try` stands at its first token."""
        if it.line == line:
            return True
        text = files[it.file].split('\n')[line - 1][column - 1:]
        return it.line > line and re.match(r'(do|try)\b', text) is not None
