"""Random programs: large ones of many classes, and small bodies in handlers."""

from expressions import Scope
from model import NUMBERS, Class, Field, Method, for_java, for_rlc, java, two
from statements import SEEN_ON, Statements

ANNOTATIONS = 'import org.checkerframework.checker.mustcall.qual.*;\n'
TOLD = ''.join(f'  static void add({kind} v) {{ Main.sum = Main.sum * 31 + {value}; }}\n' for kind, value in (
    ('boolean', '(v ? 1 : 2)'), ('byte', 'v + 11'), ('char', 'v + 13'), ('int', 'v'), ('long', '(int) v + (int) (v >>> 32) + 17')))


def nibble(low, count, indent):
    """The trace point of a number below 16, by halving."""
    if count == 1:
        return f'Lib.at({100000 + low});'
    half = count // 2
    return f'if (n < {low + half}) {{ {nibble(low, half, indent)} }} else {{ {nibble(low + half, half, indent)} }}'


SHOW = ('  static void show() { int v = Main.sum; int i = 0; while (i < 8) { Main.nibble(v & 15); v = v >>> 4; i++; } }\n'
        f'  static void nibble(int n) {{ {nibble(0, 16, 0)} }}\n')


class Program(Statements):
    """A program with its library. `files` are the texts for two readers, by name."""

    def __init__(self, r, options, size, library, short=False):
        self.library = library
        self.short = short
        super().__init__(r, library.world, options)
        self.large = size == 'large'
        self.packages = ['p.a', 'p.b', 'p'] if self.large and r.random() < 0.3 else ['']
        self.own = []
        self.files = {}
        self.make()

    def make(self):
        r = self.r
        for number in range(r.randrange(2, 5) if self.short else r.randrange(3, 8) if self.large else r.randrange(0, 3)):
            self.declare(number)
        self.main = self.world.add(Class('Main', self.packages[-1]))
        for it in self.own:
            self.complete(it)
        texts = {it.name: self.class_text(it) for it in self.own}
        texts['Main'] = self.main_text()
        self.lay(texts)

    # Declarations

    def declare(self, number):
        r, world = self.r, self.world
        name = f'C{number}'
        it = Class(name, r.choice(self.packages))
        it.interface = self.chance(0.2)
        own = [one for one in self.own]
        faces = [one.name for one in own if one.interface] + ['Face', 'Handle', 'AutoCloseable']
        if it.interface:
            it.faces = r.sample(faces, r.choice((0, 0, 1)))
        else:
            supers = [one.name for one in own if not one.interface and not one.final]
            supers += ['Base', 'Derived', 'Fail', 'Soft', 'Exception', 'RuntimeException', 'Throwable']
            it.sup = r.choice(supers) if self.chance(0.65) else 'Object'
            if world.is_throwable(it.sup):
                # no alias of the library may be an exception (a rule of rlc's own)
                faces = [one for one in faces if not world.under(one, 'AutoCloseable')]
            it.faces = r.sample(faces, min(len(faces), r.choice((0, 0, 1, 1, 2))))
            it.abstract = self.chance(0.15)
            it.final = not it.abstract and self.chance(0.05)
        it.own = []
        self.own.append(it)
        world.add(it)
        if not self.inherits_rightly(it):
            it.faces, it.sup = [], 'Object'
        self.fields(it)
        self.methods(it)
        if not it.interface:
            self.constructors(it)

    def inherits_rightly(self, it):
        """Whether what the class inherits from several types agrees."""
        found = {}
        for one in self.world.above(it.name):
            for method in self.world[one].methods:
                found.setdefault(method.signature(), []).append(method)
        return all(self.agree(methods) for methods in found.values())

    @staticmethod
    def agree(methods):
        return len({one.result for one in methods}) == 1 and len({one.static for one in methods}) == 1

    def fields(self, it):
        r = self.r
        if it.interface:
            return
        for number in range(r.choice((0, 1, 2, 3))):
            classes = tuple(one.name for one in self.own if not one.interface) + ('Base', 'Object')
            kind = r.choice(NUMBERS + ('boolean', 'String', 'int[]') + classes)
            one = Field(it.name, f'f{number}' if self.chance(0.3) else f'{it.name.lower()}f{number}', kind, private=self.chance(0.15))
            one.static = kind in NUMBERS + ('boolean', 'String') and self.chance(0.3)
            one.final = self.chance(0.15)
            it.fields.append(one)

    def methods(self, it):
        r, world = self.r, self.world
        inherited = {one.signature(): one for one in world.members(it.name)}
        for one in inherited.values():
            if one.private or one.static or one.final or one.owner in ('Object', 'Throwable') or not self.chance(0.4):
                continue
            self.override(it, one)
        for number in range(r.choice((0, 1, 2, 3)) if self.large else r.choice((0, 1))):
            name = r.choice(('m', 'n', 'p', f'{it.name.lower()}m'))
            params = [self.kinds() for _ in range(r.choice((0, 0, 1, 1, 2)))]
            known = inherited.get((name, tuple(params)))
            if known and not known.private or any(one.signature() == (name, tuple(params)) for one in it.methods):
                continue
            if any((name, tuple(params)) == m.signature() and not m.private for sub in self.own for m in sub.methods):
                name = f'{name}{it.name.lower()}{number}'
            one = Method(it.name, name, params, r.choice((self.kinds(), 'void', 'int')), self.library.throws(1))
            one.abstract = it.interface or it.abstract and self.chance(0.3)
            one.static = not it.interface and not one.abstract and self.chance(0.35)
            one.private = not it.interface and not one.abstract and self.chance(0.15)
            one.final = not one.static and not one.private and not one.abstract and not it.interface and self.chance(0.1)
            it.methods.append(one)

    def override(self, it, one):
        throws = self.library.narrower(one.throws)
        new = Method(it.name, one.name, one.params, one.result, throws, abstract=it.interface, owning=one.owning)
        it.methods.append(new)

    def constructors(self, it):
        if self.chance(0.25) and self.implicit(it):
            it.constructors.append(Method(it.name, '', [], 'void', []))
            it.constructors[-1].written = False
            return
        seen = set()
        for _ in range(self.r.choice((1, 1, 2, 3))):
            params = tuple(self.kinds() for _ in range(self.r.choice((0, 1, 1, 2))))
            if params not in seen:
                seen.add(params)
                it.constructors.append(Method(it.name, '', list(params), 'void', self.library.throws(1), private=self.chance(0.05)))

    def implicit(self, it):
        """Whether the class may leave its constructor out."""
        if it.sup == 'Object':
            return True
        plain = [one for one in self.world[it.sup].constructors if not one.params and not one.private]
        return bool(plain) and not any(self.world.is_checked(one) for one in plain[0].throws)

    def complete(self, it):
        """Gives a class that is not abstract a body for each method."""
        if it.interface or it.abstract:
            return
        for one in self.world.members(it.name):
            if one.abstract and self.lacks_body(it, one):
                self.override(it, one)

    def lacks_body(self, it, one):
        """Whether no class above has a body: methods of the library's interfaces have one in library classes (and under these)."""
        if not one.library:
            return True
        return not any(self.world[above].library and not self.world[above].interface and self.world.under(above, one.owner)
                       for above in self.world.above(it.name) if above != 'Object')

    # Texts

    def class_text(self, it):
        head = '@InheritableMustCall({}) ' + ('public ' if len(self.packages) > 1 else '')
        if it.interface:
            head += f'interface {it.name}' + (' extends ' + ', '.join(it.faces) if it.faces else '')
        else:
            head += ('abstract ' if it.abstract else '') + ('final ' if it.final else '') + f'class {it.name}'
            if it.sup == 'Object':
                head += java(' extends witness.Hooked')
            elif self.world[it.sup].package == 'java.lang':
                head += ' extends ' + two(it.sup, f'lib.Root_{it.sup}')
            else:
                head += f' extends {it.sup}'
            head += ' implements ' + ', '.join(it.faces) if it.faces else ''
        rows = [self.field_text(it, one) for one in it.fields]
        rows += [self.constructor_text(it, one) for one in it.constructors] if not it.interface else []
        rows += [self.method_text(it, one) for one in it.methods]
        return head + ' {\n' + ''.join(rows) + '}\n'

    def field_text(self, it, one):
        public = 'public ' if len(self.packages) > 1 else ''
        words = ('private ' if one.private else public) + ('static ' if one.static else '') + ('final ' if one.final else '')
        if one.static:
            value = self.initial(one.type)
        elif one.final or self.chance(0.6):
            self.scope = Scope(it.name, False, [], initialising=True)
            self.scope.later = it.fields[it.fields.index(one):]
            value = self.wide(one.type, 2)
            if one.final and self.options['constant variables']:
                value = f'({one.type}) Main.fuel' if one.type in NUMBERS else 'Main.fuel < 0' if one.type == 'boolean' else 'null'
        else:
            value = None
        return f'  {words}{one.type} {one.name}' + (f' = {value}' if value else '') + ';\n'

    def initial(self, kind):
        if kind == 'String':
            return self.r.choice(('"s"', 'null'))
        if kind == 'byte':
            return self.r.choice(('1', '-128', '127'))
        if kind == 'char':
            return self.r.choice(("'c'", '65', "'\\t'"))
        return self.literal(kind)

    def begin(self, it, one, initialising=False):
        self.scope = Scope(it.name, one.static, one.throws)
        self.scope.initialising = initialising
        self.result = one.result
        self.loops = 0
        params = []
        for kind in one.params:
            name = self.fresh()
            final = self.chance(0.1)
            self.scope.blocks[0].append((name, kind, final))
            params.append(('final ' if final else '') + f'{kind} {name}')
        return params

    def constructor_text(self, it, one):
        params = self.begin(it, one, initialising=True)
        public = 'private ' if one.private else 'public ' if len(self.packages) > 1 else ''
        token = java((', ' if params else '') + 'witness.Token token_')
        head = f'  {public}{it.name}({", ".join(params)}{token})' + (' throws ' + ', '.join(one.throws) if one.throws else '')
        above = self.super_text(it, one)
        if not one.written:
            return java(head_of(head) + ' { super(token_); }\n')
        self.scope.static = False
        self.scope.initialising = False
        self.indent = 1
        text, _ = self.block(self.r.randrange(0, 4), 1)
        return head + ' {\n' + above + java('    witness.Machine.clear();') + '    Main.fuel = Main.fuel - 1;\n' + text + '  }\n'

    def super_text(self, it, one):
        """The super call; the super class's constructor is one whose exceptions are declared."""
        if it.sup == 'Object' or not one.written:
            return java('    super(token_);') + '\n'
        self.scope.static = True
        found = [made for made in self.world[it.sup].constructors if not made.private and self.may_throw(made.throws)]
        if not found:
            one.throws = list(dict.fromkeys(t for made in self.world[it.sup].constructors[:1] for t in made.throws))
            found = self.world[it.sup].constructors[:1]
        made = self.r.choice(found)
        args = ', '.join(self.argument(kind, 2) for kind in made.params)
        if not args and self.chance(0.5):
            return java('    super(token_);') + '\n'
        return f'    super({args}' + java((', ' if args else '') + 'token_') + ');\n'

    def method_text(self, it, one):
        params = self.begin(it, one)
        public = 'private ' if one.private else 'public ' if not it.interface else ''
        words = public + ('static ' if one.static else '') + ('final ' if one.final else '')
        words += 'abstract ' if one.abstract and not it.interface else ''
        mark = '@NotOwning ' if one.result in self.world.classes and one.result != 'String' and not one.owning else ''
        head = f'  {mark}{words}{one.result} {one.name}({", ".join(params)})' + (' throws ' + ', '.join(one.throws) if one.throws else '')
        if one.abstract:
            return head + ';\n'
        value = '' if one.result == 'void' else ' ' + self.default(one.result)
        self.indent = 1
        text, completes = self.block(self.r.randrange(1, 5), 2)
        if completes and one.result != 'void':
            text += f'    return {self.wide(one.result, 2)};\n' if self.chance(0.8) else java(f'    return{value};') + '\n'
        first = java('    witness.Machine.clear();') + f'    if (Main.fuel < 0) {{ return{value}; }} Main.fuel = Main.fuel - 1;\n'
        if one.name == 'close':
            text = java('    try {') + '\n' + text + java('    } ' + SEEN_ON) + '\n'
        return head + ' {\n' + first + text + '  }\n'

    def short_main(self):
        """A main class with one body, and nothing that shows values."""
        public = 'public ' if len(self.packages) > 1 else ''
        add = TOLD if not public else TOLD.replace('  static', '  public static')
        return (f'@InheritableMustCall({{}}) {public}class Main {{\n  {public}static int sum = 0;\n  {public}static int fuel = 9;\n{add}'
                + self.body_text(0) + '}\n')

    def main_text(self):
        r = self.r
        if self.short:
            return self.short_main()
        count = r.randrange(2, 5) if self.large else r.randrange(1, 4)
        bodies = ''.join(self.body_text(number) for number in range(count))
        public = 'public ' if len(self.packages) > 1 else ''
        fields = f'  {public}static int sum = 0;\n  {public}static int fuel = {r.choice((60, 150, 300))};\n'
        throws = ' throws Throwable' if self.chance(0.5) else ''
        calls = ''
        for number in range(count):
            call = f'Main.body{number}({r.choice(("a", "null", "new String[2]")) if self.chance(0.3) else "a"});'
            if throws and self.chance(0.3):
                calls += f'    {call}\n'
            else:
                calls += f'    try {{ {call} }} catch (Throwable e{number}) {{ ' + java(f'witness.Machine.seen(e{number});') + \
                    f' Main.caught(e{number}); }}\n'
            calls += '    Main.show();\n'
        tell = ''.join(f'    if (e instanceof {name}) {{ Lib.at({90000 + k}); }}\n' for k, name in enumerate(
            it.name for it in self.world.below('Throwable')))
        add = TOLD if not public else TOLD.replace('  static', '  public static')
        return ('@InheritableMustCall({}) ' + public + 'class Main' + java(' extends witness.Hooked') + ' {\n' + fields
                + java('  Main() { super((witness.Token) null); }') + '\n' + add + SHOW
                + '  static void caught(Throwable e) {\n' + tell + '  }\n' + bodies
                + f'  public static void main(String[] a){throws} {{\n{calls}  }}\n}}\n')

    def body_text(self, number):
        self.scope = Scope('Main', True, ['Throwable'])
        self.result, self.loops, self.indent = 'void', 0, 1
        self.scope.blocks[0].append(('a', 'String[]', False))
        text = ''
        self.indent = 2
        for _ in range(self.r.randrange(3, 8)):
            text += self.local()
        self.indent = 1
        more, _ = self.block(self.r.randrange(3, 6 if self.short else 9 if self.large else 12), 2 if self.short else 3)
        return f'  static void body{number}(String[] a) throws Throwable {{\n' + text + more + '  }\n'

    # Files

    def lay(self, texts):
        names = list(texts)
        classes = {name: self.world[name] for name in names}
        for package in sorted({classes[name].package for name in names}):
            mine = [name for name in names if classes[name].package == package]
            split = len(self.packages) > 1 or self.chance(0.2)
            groups = [[name] for name in mine] if split else [mine]
            for group in groups:
                imports = 'import lib.*;\n' + ANNOTATIONS
                others = sorted({classes[name].qualified() for name in names if classes[name].package not in (package, '')})
                imports += ''.join(f'import {one};\n' for one in others) if self.chance(0.5) else \
                    ''.join(f'import {one}.*;\n' for one in sorted({one.rsplit('.', 1)[0] for one in others}))
                head = f'package {package};\n' if package else ''
                path = (package.replace('.', '/') + '/' if package else '') + group[0] + '.java'
                self.files[path] = head + imports + ''.join(texts[name] for name in group)

    def main_class(self):
        return self.main.qualified()

    def rlc_files(self):
        return {name: for_rlc(text) for name, text in self.files.items()}

    def java_files(self):
        return {name: for_java(text).replace(ANNOTATIONS, '').replace('@InheritableMustCall({}) ', '').replace('@NotOwning ', '')
                for name, text in self.files.items()}


def head_of(head):
    return for_java(head)
