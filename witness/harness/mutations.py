"""Small random changes of a text, by tokens and lines, that keep most of it well formed."""

import re

TOKEN = re.compile(r'"(?:[^"\\\n]|\\.)*"|\'(?:[^\'\\\n]|\\.)+\'|[A-Za-z_$][\w$]*|\d[\w]*'
                   r'|>>>=|<<=|>>=|>>>|\+\+|--|&&|\|\||[-+*/%&|^!=<>]=|<<|>>|\S')
WORDS = frozenset('''abstract boolean break byte catch char class continue do else extends final finally for if implements import
instanceof int interface long new package private protected public return static super this throw throws try void while'''.split())
TYPES = ('boolean', 'byte', 'char', 'int', 'long', 'String', 'Object', 'int[]', 'String[]', 'Res', 'Base', 'Fail', 'Handle', 'Face', 'Soft')
BINARY = (
    '+', '-', '*', '/', '%', '&', '|', '^', '<<', '>>', '>>>', '&&', '||', '<', '>', '<=', '>=', '==', '!=', '=', '+=',
    '-=', '*=', '<<=')
LITERALS = (
    '0', '1', '5L', '127', '128', '-129', '65', '65536', "'a'", '"s"', 'true', 'null', '2147483647', '2147483648',
    '-2147483648', '9223372036854775807L', '9223372036854775808L', '0x7f', '0xffffffff', '010', '0L', '-5', '-5L',
    '(byte) 1', '(char) 1')
MODIFIERS = ('static', 'final', 'abstract', 'private')
STATEMENTS = r'''
int zz = 5L;
byte zz = 128;
byte zz = 127;
char zz = 97;
return;
return 1;
return null;
break;
continue;
throw new Exception();
throw new Fail();
throw null;
Object zz = this;
super.base(1);
super.close();
int v1 = 0;
String zz = null + "a";
new Base();
new Res().close();
Lib.ints();
Lib.at(1L);
zz.f();
int zz = -2147483648;
int zz = 2147483648;
long zz = -9223372036854775808L;
boolean zz = null == null;
int[] zz = new int[3L];
int zz = new int[2].length;
Res zz = (Res) new Object();
String zz = (String) new Base(1);
int zz; zz = zz;
final int zz = 3; zz = 4;
try { } catch (Fail zz) { }
try { throw new DeepFail(); } catch (Exception zz) { } catch (Fail zy) { }
try (Res zz = new Res(1)) { }
try (Base zz = null) { }
while (1) { }
if (null) { }
for (int zz = 0; zz < 3L; zz += 1L) { }
Main zz = new Main();
Main.add(null);
boolean zz = "a" instanceof Object;
char zz = true ? 1 : 'a';
byte zz = true ? 1 : 2;
long zz = 1 << 3L; int zy = 1L << 3;
int zz = true ? 1L : 2;
Object zz = true ? null : "a";
int zz = (int) 5L;
Lib.class1();
String zz = "a" + Lib.SPARE;
Lib.SPARE = null;
int zz = Lib.SPARE;
Throwable zz = new Fail("m"); throw zz;
super.toString();
try { Lib.at(1); } finally { return; }
do { } while ("x");
int zz = args.length;
"a".length();
"a".trim().isEmpty();
(new Res()).size();
Res.size();
Handle zz = new Handle();
Face zz = new Derived(); zz.face('a');
Base zz = new Derived(); zz.face(1);
'''.strip().split('\n')


def tokens(text):
    return list(TOKEN.finditer(text))


class Mutator:
    def __init__(self, r):
        self.r = r

    def change(self, text):
        """The text with one change, and its kind."""
        for _ in range(20):
            form = self.r.choice(FORMS)
            changed = form(self, text)
            if changed is not None and changed != text:
                return changed, form.__name__
        return text, 'none'

    def replace(self, text, it, new):
        return text[:it.start()] + new + text[it.end():]

    def pick(self, text, wanted):
        found = [it for it in tokens(text) if wanted(it[0])]
        return self.r.choice(found) if found else None

    def name(self, text):
        """Another name in the place of a name."""
        is_name = lambda it: (it[0].isalpha() or it[0] == '_') and it not in WORDS and it not in ('true', 'false', 'null')
        it = self.pick(text, is_name)
        names = sorted({one[0] for one in tokens(text) if is_name(one[0])}) + ['nope', 'this', 'Nope']
        return it and self.replace(text, it, self.r.choice(names))

    def near_name(self, text):
        """A name of the same sort: of a variable, a class, or a member."""
        it = self.pick(text, lambda it: re.fullmatch(r'v\d+|[A-Z]\w*|\w*f\d|[mnp]', it) is not None)
        if not it:
            return None
        sort = r'v\d+' if it[0][0] == 'v' else r'[A-Z]\w*' if it[0][0].isupper() else r'[a-z]\w*'
        names = sorted({one[0] for one in tokens(text) if re.fullmatch(sort, one[0]) and one[0] not in WORDS})
        return self.replace(text, it, self.r.choice(names))

    def type_(self, text):
        it = self.pick(text, lambda it: it in TYPES or it == 'void')
        return it and self.replace(text, it, self.r.choice(TYPES + ('void', 'Nope')))

    def operator(self, text):
        it = self.pick(text, lambda it: it in BINARY)
        return it and self.replace(text, it, self.r.choice(BINARY))

    def literal(self, text):
        it = self.pick(text, lambda it: it[0] in '"\'0123456789' or it in ('true', 'false', 'null'))
        return it and self.replace(text, it, self.r.choice(LITERALS))

    def operand(self, text):
        """A literal in the place of a variable."""
        it = self.pick(text, lambda it: re.fullmatch(r'v\d+', it) is not None)
        return it and self.replace(text, it, self.r.choice(LITERALS))

    def without_modifier(self, text):
        it = self.pick(text, lambda it: it in MODIFIERS)
        return it and text[:it.start()] + text[it.end():].lstrip(' ')

    def modifier(self, text):
        """A modifier before a member or a class."""
        found = list(re.finditer(r'^  (?=[a-zA-Z@])|^(?=(@|class|interface|abstract|public))', text, re.M))
        if not found:
            return None
        it = self.r.choice(found)
        return text[:it.end()] + self.r.choice(MODIFIERS) + ' ' + text[it.end():]

    def throws(self, text):
        found = list(re.finditer(r' throws [\w, ]+?(?= ?[{;])', text))
        if not found:
            return None
        it = self.r.choice(found)
        new = self.r.choice(('', ' throws Fail', ' throws Exception', ' throws String', ' throws Soft', ' throws Nope',
                             ' throws OtherFail, DeepFail'))
        return text[:it.start()] + new + text[it.end():]

    def more_throws(self, text):
        found = list(re.finditer(r'^  [^(\n]*\([^)\n]*\)(?= [{])|^  [^(\n]*\([^)\n]*\)(?=;)', text, re.M))
        if not found:
            return None
        it = self.r.choice(found)
        return text[:it.end()] + self.r.choice((' throws Fail', ' throws Exception', ' throws Object', ' throws Soft')) + text[it.end():]

    def argument(self, text):
        """One argument less, or more."""
        found = list(re.finditer(r'\b\w+\(', text))
        if not found:
            return None
        it = self.r.choice(found)
        more = self.r.choice(LITERALS + ('this', 'v1', 'v2'))
        rest = text[it.end():]
        if rest.startswith(')'):
            return text[:it.end()] + more + rest
        cut = re.match(r'[\w"\']+(, )?', rest)
        if cut and self.r.random() < 0.5:
            return text[:it.end()] + rest[cut.end():]
        return text[:it.end()] + more + ', ' + rest

    def members(self, text):
        """The members of classes, as pieces of the text."""
        return list(re.finditer(r'^  (?! |\}).*?(?:;\n|\{\n(?:   .*\n|\n)*  \}\n)', text, re.M))

    def without_member(self, text):
        found = self.members(text)
        it = self.r.choice(found) if found else None
        return it and text[:it.start()] + text[it.end():]

    def twice(self, text):
        found = self.members(text)
        it = self.r.choice(found) if found else None
        return it and text[:it.end()] + it[0] + text[it.end():]

    def moved(self, text):
        """A member in another place, perhaps in another class."""
        found = self.members(text)
        if len(found) < 2:
            return None
        one, other = self.r.sample(found, 2)
        return text[:other.end()] + one[0] + text[other.end():]

    def header(self, text):
        found = list(re.finditer(r'(extends|implements) (\w+)', text))
        if not found:
            return None
        it = self.r.choice(found)
        names = sorted(set(re.findall(r'(?:class|interface) (\w+)', text)))
        names += ['Base', 'Derived', 'Handle', 'Face', 'Fail', 'Lib', 'String', 'Object', 'Nope']
        word = it[1] if self.r.random() < 0.8 else self.r.choice(('extends', 'implements'))
        return text[:it.start()] + f'{word} {self.r.choice(names)}' + text[it.end():]

    def more_header(self, text):
        found = list(re.finditer(r'(?:class|interface) \w+(?= [{])', text))
        if not found:
            return None
        it = self.r.choice(found)
        names = sorted(set(re.findall(r'(?:class|interface) (\w+)', text))) + ['Base', 'Derived', 'Handle', 'Face', 'Fail', 'Exception']
        return text[:it.end()] + f' {self.r.choice(("extends", "implements"))} {self.r.choice(names)}' + text[it.end():]

    def line(self, text):
        """One statement less."""
        lines = text.split('\n')
        found = [k for k, one in enumerate(lines) if one.startswith('    ') and one.endswith(';')]
        if not found:
            return None
        k = self.r.choice(found)
        return '\n'.join(lines[:k] + lines[k + 1:])

    def statement(self, text):
        """One statement more."""
        lines = text.split('\n')
        found = [k for k, one in enumerate(lines) if one.startswith('    ') and one.endswith(';')]
        if not found:
            return None
        k = self.r.choice(found)
        return '\n'.join(lines[:k] + ['    ' + self.r.choice(STATEMENTS)] + lines[k:])

    def field(self, text):
        """One field more."""
        found = list(re.finditer(r'class \w+[^\n{]*\{\n', text))
        if not found:
            return None
        it = self.r.choice(found)
        words = self.r.choice(('', 'static ', 'final ', 'static final ', 'private '))
        new = f'  {words}{self.r.choice(TYPES)} {self.r.choice(("zf", "f0", "f1"))} = {self.r.choice(LITERALS)};\n'
        return text[:it.end()] + new + text[it.end():]

    def cast(self, text):
        found = list(re.finditer(r'\((\w+(?:\[\])?)\) ', text))
        if not found:
            return None
        it = self.r.choice(found)
        new = '' if self.r.random() < 0.4 else f'({self.r.choice(TYPES + ("C0", "C1", "Main"))}) '
        return text[:it.start()] + new + text[it.end():]

    def catch(self, text):
        found = list(re.finditer(r'catch \((\w+)', text))
        if not found:
            return None
        it = self.r.choice(found)
        new = self.r.choice(('Fail', 'DeepFail', 'OtherFail', 'Soft', 'Exception', 'String', 'Nope', 'Fail | Soft', 'DeepFail | Fail'))
        return text[:it.start(1)] + new + text[it.end(1):]

    def import_(self, text):
        found = list(re.finditer(r'^import [\w.*]+;\n', text, re.M))
        if not found:
            return None
        it = self.r.choice(found)
        new = self.r.choice(('', 'import lib.Res;\n', 'import lib.Nope;\n', 'import p.a.*;\n', 'import java.lang.*;\n'))
        return text[:it.start()] + new + text[it.end():]


FORMS = [getattr(Mutator, name) for name in '''
name near_name near_name type_ type_ operator literal operand without_modifier modifier throws more_throws argument without_member
twice moved header more_header line statement statement field field cast catch import_'''.split()]
