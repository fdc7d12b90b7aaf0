"""Compares refusals of single random statements, over variables of all types, with what javac says of each."""

import random
import re

from known import IGNORED, LEFT_OUT, codes_of, is_known
from library import Library
from model import PRIMITIVES
from refusals import BOXED, HIDDEN, SETTINGS, SHARED, Fault

COUNT = 60
VARIABLES = [('boolean', 'z'), ('byte', 'b'), ('char', 'c'), ('int', 'i'), ('long', 'l'), ('String', 's'), ('Object', 'o'), ('Res', 'r'),
             ('Handle', 'h'), ('Face', 'f'), ('Derived', 'd'), ('Base', 'e'), ('int[]', 'p'), ('String[]', 'q'), ('byte[]', 'u'), ('Fail', 'x'),
             ('Soft', 'y'), ('Throwable', 't'), ('F', 'k'), ('A', 'a')]
TYPES = [kind for kind, _ in VARIABLES] + ['long[]', 'char[]', 'boolean[]', 'Exception', 'DeepFail', 'AutoCloseable', 'I', 'Nope']
HEADER = '''import lib.*;
interface I { int j(int i); long j(long l); Object g(); }
final class F { int n; final long fl = 3; static byte sb = 1; F() { } F(int i, Object o) { } F(long l) throws Fail { } static void u(F f) { } }
class A { A it; int[] n; final int cf = 5; static final int CS = 200; static char sc = 'x'; private String w;
int v(byte b) { return 1; } long v(int i) { return 1; } String v(long l) { return ""; } Object v(Object o) { return o; } void w(String s, Object o) { }
boolean w(Object o, String s) { return true; } static A mk() throws OtherFail { return null; } void nothing() { } A(int i) { } A(char c, long l) { }
'''
SORTS = ('number', 'number', 'boolean', 'reference')
LITERALS = {
    'number': ('0', '1', '5L', '127', '128', '-129', "'a'", '65535', '65536', '2147483647', '-2147483648', '2147483648', '0x7fL',
               '-9223372036854775808L', '010', "'\\n'", 'k1', 'k2', 'k3', 'A.CS', 'cf', 'sc', 'A.sc', 'F.sb'),
    'boolean': ('true', 'false', 'nope', '!z'),
    'reference': ('null', '"s"', 'this', 'it', 'n', 'Lib.SPARE', 'Lib.ZERO', 'new Fail()', 'new Res()'),
}
ARITHMETIC = ('+', '-', '*', '/', '%', '&', '|', '^', '<<', '>>', '>>>')
COMPARING = ('<', '>', '<=', '>=', '==', '!=')
JOINING = ('&&', '||', '&', '|', '^', '==', '!=')
ASSIGNING = ('=', '=', '=', '=', '=', '=', '+=', '-=', '*=', '/=', '%=', '&=', '|=', '^=', '<<=', '>>=', '>>>=')
MEMBERS = ('it', 'n', 'cf', 'w', 'sc', 'length', 'fl', 'nope', 'sb')
METHODS = ('v', 'w', 'mk', 'nothing', 'j', 'g', 'size', 'close', 'peek', 'base', 'self', 'face', 'other', 'hashCode', 'equals', 'toString', 'length',
           'charAt', 'trim', 'getMessage', 'nope', 'read', 'wrap', 'next')
CALLS = ('v(b)', 'v(i)', 'v(l)', 'v(o)', 'v(c)', 'a.v(s)', 'w(s, o)', 'w(o, s)', 'mk()', 'A.mk()', 'r.size()', 'h.peek()', 's.length()',
         's.charAt(i)', 's.charAt(c)', 'o.hashCode()', 'x.getMessage()', 'new F()', 'new F(i, o)', 'new F(b, s)', 'new F(l)', 'new A(i)', 'new A(b)',
         'new A(c, i)', 'new Res(i)', 'f.face(c)', 'e.base(i)', 'e.base(l)', 'd.base(b)', 'F.u(k)', 's.trim()', 'o.equals(p)', 'r.next()', 'nothing()',
         'w(s, s)', 'v(null)', 'p.hashCode()', 'f.equals(z ? f : h)', 'y.toString()', 'super.toString()', 'e.read(p)', 'v(z ? b : c)', 'v(z ? 1 : b)')
FITTING = {
    'String': ('s', 'q[i]', 's.trim()', '"s"', 'v(l)', '(s + i)', '(z + s)', 'y.toString()', 'null', '(z ? s : null)', '(String) o', 's += c'),
    'Object': ('o', 's', 'r', 'p', 'a', 'null', 'v(o)', '(z ? p : u)', '(z ? s : r)', '(Object) q', 'this'),
    'Res': ('r', 'new Res(i)', 'null', '(Res) h', '(Res) o', 'Lib.SPARE', 'new File()', '(z ? r : new File())', '(Res) f'),
    'Handle': ('h', 'r', 'new Wrap(r)', '(Handle) o', '(z ? h : r)', '(Handle) f', '(Handle) t'),
    'Face': ('f', 'd', '(Face) o', '(Face) h', '(z ? d : f)', '(Face) e'), 'Base': ('e', 'd', 'Lib.ZERO', '(z ? e : d)', '(Base) f', '(Base) o'),
    'Derived': ('d', '(Derived) e', '(Derived) f', 'new Derived()', '(Derived) o'), 'int[]': ('p', 'n', 'new int[i]', 'new int[c]', '(int[]) o', 'it.n'),
    'String[]': ('q', 'new String[b]', '(String[]) o', 'null'), 'byte[]': ('u', 'new byte[5]', '(byte[]) o'),
    'Fail': ('x', 'new Fail()', '(Fail) t', 'new Fail(s)', '(z ? x : null)'), 'Soft': ('y', 'new Soft()', '(Soft) t', '(Soft) o'),
    'Throwable': ('t', 'x', 'y', '(z ? x : y)', 'new Exception(s)', '(Throwable) f'), 'F': ('k', 'new F()', '(F) o', 'null'),
    'A': ('a', 'it', 'mk()', 'this', 'new A(i)', 'A.mk()', 'a.it', '(A) o')}
CLASSES = ('A', 'F', 'Res', 'File', 'Base', 'Derived', 'Fail', 'Soft', 'Object', 'Wrap', 'I', 'Handle', 'Exception', 'RuntimeException')


def sort_of(kind):
    return 'boolean' if kind == 'boolean' else 'number' if kind in PRIMITIVES else 'reference'


class Snippets:
    def __init__(self, tools, options):
        self.tools = tools
        self.options = options
        self.codes = {}
        self.told = dict.fromkeys(('programs', 'taken by both', 'refused by both', 'left out', 'syntax', 'known'), 0)

    # Random statements

    def operand(self, sort):
        r = self.r
        if r.random() < 0.04:
            sort = r.choice(SORTS)
        if r.random() < 0.25:
            return r.choice(LITERALS[sort])
        return r.choice([name for kind, name in VARIABLES if sort_of(kind) == sort])

    def expression(self, depth, sort=None):
        """An expression that is often of the sort: a number, a boolean, or a reference."""
        r = self.r
        sort = sort or r.choice(SORTS)
        if depth <= 0:
            return self.operand(sort)
        if r.random() < 0.03:
            sort = r.choice(SORTS)
        part = lambda it=None: self.expression(depth - r.choice((1, 1, 2)), it or sort)
        form = r.random()
        if form < 0.15:
            return f'({part("boolean")} ? {part()} : {part()})'
        if form < 0.35:
            return self.call(depth)
        if form < 0.38:
            return f'{r.choice(("it", "a", "k", "p", "s", "this", "o", "q"))}.{r.choice(MEMBERS)}'
        if form < 0.43:
            name = r.choice([name for kind, name in VARIABLES if sort_of(kind) == sort])
            return f'({name} {r.choice(ASSIGNING) if sort == "number" else "="} {part()})'
        return getattr(self, 'of_' + sort)(part)

    def of_number(self, part):
        r = self.r
        return r.choice((f'({part()} {r.choice(ARITHMETIC)} {part()})', f'({part()} {r.choice(ARITHMETIC)} {part()})', f'({r.choice("-+~")}({part()}))',
                         f'(({r.choice(PRIMITIVES)}) ({part()}))', f'{r.choice("pqu")}[{part()}]', f'{r.choice("bcil")}{r.choice(("++", "--"))}'))

    def of_boolean(self, part):
        r = self.r
        return r.choice((f'({part("number")} {r.choice(COMPARING)} {part("number")})', f'({part()} {r.choice(JOINING)} {part()})', f'(!{part()})',
                         f'({part("reference")} {r.choice(("==", "!="))} {part("reference")})',
                         f'({part("reference")} instanceof {r.choice(TYPES[5:])})'))

    def of_reference(self, part):
        r = self.r
        return r.choice((f'(({r.choice(TYPES[5:])}) ({part()}))', f'(s + {part()})', f'({part("number")} + s)', f'q[{part("number")}]',
                         f'new {r.choice(PRIMITIVES + ("String",))}[{part("number")}]', self.call(1)))

    def call(self, depth):
        r = self.r
        if r.random() < 0.65:
            return r.choice(CALLS)
        args = ', '.join(self.expression(depth - 1) for _ in range(r.choice((0, 0, 1, 1, 2))))
        form = r.random()
        if form < 0.25:
            return f'new {r.choice(CLASSES)}({args})'
        if form < 0.55:
            return f'{r.choice(("v", "w", "mk", "super.hashCode", "this.v", "A.mk", "F.u", "Lib.keep", "v", "a.v"))}({args})'
        return f'{r.choice(VARIABLES[5:])[1]}.{r.choice(METHODS)}({args})'

    def declared(self):
        """A declaration or an assignment, of types that often go together."""
        r = self.r
        kind, name = r.choice(VARIABLES)
        value = self.expression(r.choice((0, 1, 1, 2)), sort_of(kind))
        if kind in FITTING and r.random() < 0.8:
            value = r.choice(FITTING[kind])
        if r.random() < 0.6:
            return f'{r.choice(("", "", "final "))}{kind if r.random() < 0.92 else r.choice(TYPES)} vv = {value};'
        return f'{name} {r.choice(ASSIGNING) if kind in PRIMITIVES else "="} {value};'

    def statement(self):
        r = self.r
        form = r.random()
        if form < 0.5:
            return self.declared()
        if form < 0.65:
            return f'{self.call(2)};'
        test, deep, ref = self.expression(2, 'boolean'), self.expression(r.choice((0, 1, 2))), r.choice(FITTING[r.choice(sorted(FITTING))])
        return r.choice((f'if ({test}) {{ }}', f'while ({test}) {{ }}', f'for (int i2 = 0; {test}; i2++) {{ }}', f'do {{ }} while ({test});',
                         f'return {deep};', f'throw {ref};', f'try (Res vv = {ref}) {{ }}', f'try (Handle vv = {ref}) {{ }}',
                         f'try {{ {self.call(2)}; }} catch (Fail vv) {{ }}', f'try {{ {self.call(2)}; }} catch (Exception vv) {{ throw vv; }}',
                         'return;', 'break;', f'final byte kb = 7; {r.choice(("byte", "char", "int"))} vv = kb; vv = {deep};', f'vv = {deep};',
                         f'int i = {deep};', f'try {{ throw {ref}; }} catch (Fail | Soft vv) {{ }} finally {{ }}',
                         f'{r.choice(VARIABLES)[1]}{r.choice(("++", "--"))};', f'{{ {self.declared()} }} {self.declared()}'))

    def method(self):
        r = self.r
        result = r.choice(TYPES[:-1] + ['void'] * 20)
        throws = r.choice(('', ' throws Exception', ' throws Exception', ' throws Fail'))
        params = ', '.join(f'{kind} {name}' for kind, name in VARIABLES)
        constants = 'final int k1 = 7; final long k2 = 9; final char k3 = 200; '
        static = r.choice(('', '', '', 'static '))
        return f'{static}{result} m({params}){throws} {{ {constants}{self.statement()} }}'

    # The comparison

    def compare(self, seed):
        self.r = random.Random(f'snippets {seed}')
        library = Library(random.Random(f'library {seed // SHARED}'), self.options)
        bare = {**library.java_files(bare=True), 'lib/Hidden.java': HIDDEN}
        methods = [self.method() for _ in range(COUNT)]
        found = []
        told = {number: ([], []) for number in range(COUNT)}
        # each has a class and a file of its own
        shared, own = HEADER + '}\n', {f'T{k}.java': self.alone(k, method) for k, method in enumerate(methods)}
        rows = self.tools.check(bare, {'A.java': shared, **own})
        for row in rows:
            words = row.split('\t')
            if words[0] == 'error' and words[1][0] == 'T':
                told[int(words[1][1:-5])][0].append(Fault(row, own))
            elif words[0] == 'feature' and words[1][0] == 'T':
                told[int(words[1][1:-5])][1].append(words[3])
        if any(row.startswith('crash') for row in rows):
            return [('javac crashes', rows[-1], own, None, SETTINGS)]
        stub = library.stub()
        for number, method in enumerate(methods):
            files = {'A.java': shared, f'T{number}.java': own[f'T{number}.java'], 'lib.astub': stub}
            wrong = self.one(files, f'T{number}.java', *told[number])
            if wrong:
                found.append(wrong + (files, None, SETTINGS))
        return found

    @staticmethod
    def alone(number, method):
        return f'import lib.*;\nclass T{number} extends A {{ T{number}() {{ super(1); }}\n{method}\n}}\n'

    def one(self, files, name, faults, features):
        status, out = self.tools.rlc(files, ['check'], SETTINGS, {})
        it = re.match(r'(\S+?):(\d+):(\d+): (\d+) ', out) if status == 2 else None
        if status not in (0, 1, 2):
            return 'rlc fails', f'{status} {out[-300:]}'
        code = int(it[4]) if it and it[1] == name else 0
        code = 0 if code > 46 else code
        self.told['programs'] += 1
        line = files[name].split('\n')[2]
        if code in range(10, 21) or any(codes_of(one) == 'syntax' for one in faults):
            self.told['syntax'] += 1
            return None if code and faults else ('syntax', f'{line[-90:]} / {out.strip()} / {[str(one) for one in faults[:1]]}')
        unknown = [one for one in faults if codes_of(one) == ()]
        if unknown:
            return 'unknown key', str(unknown[0])
        known = [one for one in faults if is_known(one)]
        faults = [one for one in faults if codes_of(one) != IGNORED and not is_known(one)]
        return self.judge(code, int(it[3]) if it else 0, line, faults, known, features, out)

    def judge(self, code, column, line, faults, known, features, out):
        shown = f'{line[line.index("k3 = 200; ") + 10:]} / {out.strip()[:60]} / {[str(one) for one in faults[:1]]}'
        if not code:
            self.told['known' if known and not faults else 'taken by both'] += not faults
            return ('rlc takes', shown) if faults else None
        self.codes[code] = self.codes.get(code, 0) + 1
        if any(code in codes_of(one) for one in faults + known):
            self.told['refused by both'] += 1
            return None
        left_out = any(re.search(before, line[:column - 1]) and re.match(after, line[column - 1:]) for before, after in LEFT_OUT)
        if features or left_out or any(BOXED.search(one.text) for one in faults):
            self.told['left out'] += 1
            return None
        return ('another refusal' if faults else 'javac takes'), shown
