"""How much the comparison of runs sees: one token of the Java text is changed, and the runs should differ."""

import random

from library import Library
from mutations import Mutator
from programs import Program
from runs import SETTINGS, SHARED, Runs, choices, difference, points

CHANGES = ('operator', 'literal', 'operand', 'near_name', 'line')


class Reach(Runs):
    """Runs of `rlc` beside runs of another program, which differs in one token or statement."""

    def __init__(self, tools, options):
        super().__init__(tools, options)
        self.told = dict.fromkeys(('programs', 'not compiled', 'seen'), 0)

    def compare(self, seed):
        r = random.Random(f'reach {seed}')
        library = Library(random.Random(f'library {seed // SHARED}'), self.options)
        program = Program(r, self.options, r.choice(('large', 'small')), library)
        files = {**program.rlc_files(), 'lib.astub': library.stub()}
        java = program.java_files()
        program.java_files = lambda: java
        answers = self.tools.run(program, [(1, [])])
        if isinstance(answers, str):
            return []
        lists = [(1, [])] + [choices(r, answers[0][1]) for _ in range(4)]
        name = r.choice(sorted(java))
        changed = getattr(Mutator, r.choice(CHANGES))(Mutator(r), java[name])
        if changed is None or changed == java[name]:
            return []
        java[name] = changed
        answers = self.tools.run(program, lists)
        if isinstance(answers, str):
            self.told['not compiled'] += 1
            return []
        self.told['programs'] += 1
        self.told['seen'] += any(self.is_seen(program, files, one, answer) for one, answer in zip(lists, answers))
        return []

    def is_seen(self, program, files, given, answer):
        args, made = given
        trace, _, end = answer
        text = f'args {args}\n' + ''.join(f'{way} {value}\n' for way, value in made)
        _, out = self.tools.rlc(files, ['run', '--main', program.main_class()], SETTINGS[0], {'c': text})
        return difference(out, trace, end, points(program.rlc_files())) is not None
