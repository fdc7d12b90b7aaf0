"""Compares `rlc gen` with `rlc check` over a text that is made here, by the words of the manual."""

import random
import re

SOCK = '@InheritableMustCall("close") class Sock { void close() { } }\n'
STATEMENTS = ('a.close();', 'a = new Sock();', 'if (c) { a = new Sock(); }', 'b = a;')


def text_of(seed, methods):
    """The generated program of a seed: a linear congruence chooses three statements for each method."""
    lines = []
    for number in range(methods):
        chosen = []
        for _ in range(3):
            seed = (seed * 1103515245 + 12345) % 2147483648
            chosen.append(STATEMENTS[seed // 65536 % 4])
        lines.append(f'static void m{number}(boolean c) {{ Sock a = null; Sock b = null; {" ".join(chosen)} }}\n')
    return SOCK + 'class Main {\n' + ''.join(lines) + '}\n'


class Generated:
    def __init__(self, tools, options):
        self.tools = tools
        self.codes = {}
        self.told = {'programs': 0, 'faults': 0}

    def compare(self, seed):
        r = random.Random(f'generated {seed}')
        number, methods = r.choice((r.randrange(2147483648), r.randrange(100))), r.randrange(0, 40)
        files = {'Gen.java': text_of(number, methods)}
        status, reports = self.tools.rlc(files, ['check'], 'version = 1\n', {})
        faults = len(re.findall(r'^\S+:\d+:\d+: [a-z.]+ missing', reports, re.M))
        wanted = 1 if faults else 0, f'methods {methods}\nfaults {faults}\n'
        answer = self.tools.plain(['gen', '--seed', str(number), '--methods', str(methods)])
        self.told['programs'] += 1
        self.told['faults'] += faults
        if answer == wanted and status == wanted[0]:
            return []
        return [('generator', f'gen --seed {number} --methods {methods}: {answer} and not {wanted}', files, None, 'version = 1\n')]
