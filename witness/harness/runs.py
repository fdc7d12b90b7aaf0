"""Compares runs of a program by `rlc run` with runs of the same program on a Java machine."""

import random
import re

from library import Library
from programs import Program
from reduce import reduce

# So many programs share a library.
SHARED = 25
POINT = re.compile(r'Lib\.at\((\d+)\)')
PLACE = r' at (\S+:\d+:\d+)$'


def points(files):
    """The number of each trace point by its place, which is that of the name of the method."""
    found = {}
    for name, text in files.items():
        for row, line in enumerate(text.split('\n'), 1):
            for it in POINT.finditer(line):
                column = len(line[:it.start()].encode()) + len('Lib.') + 1
                found[f'{name}:{row}:{column}'] = it[1]
    return found


def events(ledger, known):
    """The lines of a ledger that a Java machine has too, and how the run ended."""
    lines = ledger.rstrip('\n').split('\n')
    found = []
    for line in lines[:-1]:
        words = line.split(' ')
        if words[0] == 'born':
            place = words[-1]
            is_point = words[2] == 'lib.Mark' and place in known
            found.append(f'{words[1]} at {known[place]}' if is_point else f'{words[1]} born {words[2]}')
        elif words[0] == 'linked':
            found.append(f'{words[1]} linked {words[2]} to {words[4]}')
        elif words[0] == 'called':
            found.append(f'{words[1]} called {words[2]}')
        elif words[0] == 'reset':
            found.append(f'{words[1]} reset')
    return found, lines[-1]


def difference(ledger, trace, end, known):
    """What differs, or None."""
    ours, last = events(ledger, known)
    theirs = [line for line in trace if line]
    whole = last.startswith('ended')
    common = min(len(ours), len(theirs))
    for k in range(common):
        if ours[k] != theirs[k]:
            return f'event {k}: rlc "{ours[k]}", Java "{theirs[k]}"'
    if end == 'beyond':
        return None
    if len(ours) > len(theirs):
        return f'event {common}: rlc "{ours[common]}", Java "{end}"'
    if whole and len(theirs) > len(ours):
        return f'event {common}: rlc "{last}", Java "{theirs[common]}"'
    if whole and last != end:
        return f'end: rlc "{last}", Java "{end}"'
    return None


VALUES = (0, 0, 1, 1, 2, 3, 4, 5, 7, 8, 31, 33, 127, 128, 255, 65535, 65536, -1, -2, -128, 2147483647, -2147483648,
          9223372036854775807, -9223372036854775808, 4294967296)


def choices(r, used):
    """A list of choices: most calls return, some go another way; results are small numbers, edges, or numbers of objects."""
    other = r.choice((0.0, 0.02, 0.05, 0.15))
    edges = r.choice((0.05, 0.5))
    made = []
    for _ in range(min(used + 10, 3000)):
        way = r.choice((1, 1, 2, 2, 3, 3, 4, 4, 5, 6)) if r.random() < other else 0
        value = r.choice(VALUES) if r.random() < edges else r.randrange(0, 40)
        made.append((way, value))
    return r.randrange(0, 4), made


SETTINGS = ('version = 1\ncore = false\nignored = []\n', 'version = 1\ncore = false\n')


class Runs:
    """Runs of random programs; `tools` has the JVM, the command `rlc` and a folder."""

    def __init__(self, tools, options):
        self.tools = tools
        self.options = options
        self.codes = {}
        self.told = dict.fromkeys(('programs', 'refused by javac', 'not compiled', 'refused by a rule on signatures', 'runs', 'events',
                                   'ended', 'stray', 'cut', 'beyond'), 0)

    def compare(self, seed):
        """Compares one program; the answer is what differs."""
        r = random.Random(seed)
        library = Library(random.Random(f'library {seed // SHARED}'), self.options)
        program = Program(r, self.options, 'large' if seed % 3 == 0 else 'small', library)
        files = {**program.rlc_files(), 'lib.astub': program.library.stub()}
        lists = [(r.randrange(0, 3), [])]
        settings = SETTINGS[0] if r.random() < 0.8 else SETTINGS[1]
        answers = self.tools.run(program, lists)
        if isinstance(answers, str):
            # what javac refuses is compared by the other part
            self.told['not compiled' if answers.startswith('crash') else 'refused by javac'] += 1
            return [('endless on the Java machine', answers, files, None, settings)] if answers.startswith('run') else []
        used = answers[0][1]
        more = [choices(r, used) for _ in range(4)]
        answers += self.tools.run(program, more)
        self.told['programs'] += 1
        found = []
        for (args, made), (trace, _, end) in zip(lists + more, answers):
            wrong = self.one_run(program, files, settings, args, made, trace, end)
            found += [self.smaller(program, settings, args, made, it) for it in wrong[:1]] if not found else wrong
        return found

    def smaller(self, program, settings, args, made, it):
        """The difference over as small a program as is found."""
        before = dict(self.told)

        def again(marked):
            program.files = marked
            answers = self.tools.run(program, [(args, made)])
            if isinstance(answers, str):
                return []
            files = {**program.rlc_files(), 'lib.astub': program.library.stub()}
            trace, _, end = answers[0]
            return self.one_run(program, files, settings, args, made, trace, end)

        program.files = reduce(program.files, lambda marked: [one[0] for one in again(marked)] == [it[0]])
        small = again(program.files)
        self.told = before
        return small[0] if small else it

    def one_run(self, program, files, settings, args, made, trace, end):
        text = f'args {args}\n' + ''.join(f'{way} {value}\n' for way, value in made)
        status, out = self.tools.rlc(files, ['run', '--main', program.main_class()], settings, {'c': text})
        if status in (2, 7):
            if re.search(r': 5[0-6] \w+$', out.strip()):
                self.told['refused by a rule on signatures'] += 1
                return []
            return [('rlc refuses', out.strip(), files, text, settings)]
        if status not in (0, 1, 8, 9):
            return [('rlc fails', f'{status} {out[-200:]}', files, text, settings)]
        self.told['runs'] += 1
        ours, last = events(out, {})
        self.told['events'] += len(ours)
        self.told[{'e': 'ended', 's': 'stray', 'c': 'cut'}[last[0]]] += 1
        self.told['beyond'] += end == 'beyond'
        wrong = difference(out, trace, end, points(program.rlc_files()))
        return [('runs differ', wrong, files, text, settings)] if wrong else []
