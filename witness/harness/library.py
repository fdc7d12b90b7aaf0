"""A random library: its stub, the same classes in Java, and the table of both for the Java machine."""

from model import ARRAYS, PRIMITIVES, Class, Field, Method, World

CORE = [('Object', None), ('String', 'Object'), ('Throwable', 'Object'), ('Exception', 'Throwable'), ('Error', 'Throwable'),
        ('RuntimeException', 'Exception'), ('IllegalArgumentException', 'RuntimeException'),
        ('IllegalStateException', 'RuntimeException'), ('NumberFormatException', 'IllegalArgumentException'),
        ('NullPointerException', 'RuntimeException'), ('ArithmeticException', 'RuntimeException'),
        ('ClassCastException', 'RuntimeException'), ('NegativeArraySizeException', 'RuntimeException'),
        ('IndexOutOfBoundsException', 'RuntimeException'), ('ArrayIndexOutOfBoundsException', 'IndexOutOfBoundsException'),
        ('AutoCloseable', 'Object'), ('Integer', 'Object')]
WITH_TEXT = ('Throwable', 'Exception', 'Error', 'RuntimeException', 'IllegalArgumentException', 'IllegalStateException')
# The methods of the core stub that programs call, with the key by which the Java machine knows them.
CORE_METHODS = [Method('Object', 'equals', ['Object'], 'boolean', library=True), Method('Object', 'hashCode', [], 'int', library=True),
                Method('Object', 'toString', [], 'String', library=True), Method('Throwable', 'getMessage', [], 'String', library=True),
                Method('String', 'length', [], 'int', library=True), Method('String', 'isEmpty', [], 'boolean', library=True),
                Method('String', 'charAt', ['int'], 'char', library=True), Method('String', 'trim', [], 'String', library=True),
                Method('String', 'substring', ['int', 'int'], 'String', library=True),
                Method('Integer', 'parseInt', ['String'], 'int', ['NumberFormatException'], static=True, library=True)]


def core_key(method):
    return f'{method.owner}.{method.name}'


def core_world():
    world = World()
    for name, sup in CORE:
        it = world.add(Class(name, 'java.lang', sup, library=True))
        it.interface = name == 'AutoCloseable'
        it.final = name in ('String', 'Integer')
    world['AutoCloseable'].own = ['close']
    world['AutoCloseable'].methods.append(Method('AutoCloseable', 'close', [], 'void', ['Exception'], abstract=True, library=True))
    for name in ('Object',) + WITH_TEXT:
        world[name].constructors.append(Method(name, '', [], 'void', library=True))
        if name != 'Object':
            world[name].constructors.append(Method(name, '', ['String'], 'void', library=True))
    return world


class Library:
    """The classes of package `lib` of one program."""

    def __init__(self, r, options):
        self.r = r
        self.options = options
        self.world = core_world()
        self.names = []
        self.exceptions()
        self.resources()
        self.plain_classes()
        self.statics()

    # Classes

    def add(self, name, **more):
        self.names.append(name)
        return self.world.add(Class(name, 'lib', library=True, **more))

    def method(self, owner, name, params=(), result='void', throws=(), **more):
        it = Method(owner, name, list(params), result, list(throws), library=True, **more)
        (self.world[owner].methods if name else self.world[owner].constructors).append(it)
        return it

    def exceptions(self):
        for name, sup in (('Fail', 'Exception'), ('DeepFail', 'Fail'), ('OtherFail', 'Exception'), ('Soft', 'RuntimeException')):
            self.add(name, sup=sup)
            self.method(name, '')
            self.method(name, '', ['String'])

    def throws(self, most=2):
        pool = ['Fail', 'DeepFail', 'OtherFail', 'Soft', 'Exception', 'IllegalStateException']
        return self.r.sample(pool[:4] if self.r.random() < 0.9 else pool, self.r.choice((0, 0, 0, 1, 1, most)))

    def narrower(self, throws):
        """A throws clause that an override may have."""
        return [it for it in throws if self.r.random() < 0.6]

    def resources(self):
        r = self.r
        self.add('Mark', own=['x'])
        self.method('Mark', 'x')
        self.method('Mark', '', written=False)
        closing = r.choice((['Exception'], ['Fail'], []))
        self.add('Handle', interface=True, faces=['AutoCloseable'])
        self.method('Handle', 'close', throws=closing, abstract=True)
        self.method('Handle', 'peek', result='int', throws=self.throws(1), abstract=True)
        self.add('Res', faces=['Handle'])
        self.method('Res', '', throws=self.throws(1))
        self.method('Res', '', ['int'], throws=self.throws())
        if r.random() < 0.6:
            self.method('Res', 'close', throws=self.narrower(closing))
        size = self.method('Res', 'size', result=r.choice(('int', 'long', 'byte')), throws=self.throws())
        self.method('Res', 'reopen', throws=self.throws(1), reset=0)
        self.method('Res', 'next', result=r.choice(('Res', 'Handle')), throws=self.throws(1), owning=r.random() < 0.4)
        self.add('File', sup='Res')
        self.method('File', '')
        self.method('File', '', ['Res'], throws=self.throws(1))
        if r.random() < 0.5:
            self.method('File', 'close', throws=[])
        if r.random() < 0.5:
            self.method('File', 'size', result=size.result, throws=self.narrower(size.throws))
        self.method('File', 'name', result='String')
        self.add('Wrap', faces=['Handle'])
        self.method('Wrap', '', ['Res'], throws=self.throws(1), alias=1)
        self.method('Wrap', '', ['Handle', 'int'], alias=1)
        self.method('Wrap', 'close', throws=self.narrower(closing))
        self.method('Wrap', 'peek', result='int')
        self.method('Res', 'wrap', result=r.choice(('Wrap', 'Handle')), throws=self.throws(1), alias=0)

    def plain_classes(self):
        r = self.r
        self.add('Face', interface=True)
        self.method('Face', 'face', ['int'], 'int', self.throws(1), abstract=True)
        self.method('Face', 'other', [r.choice(('Object', 'Face', 'String'))], r.choice(('Face', 'Object', 'long')), abstract=True)
        self.add('Base', abstract=r.random() < 0.3)
        self.method('Base', '', throws=self.throws(1))
        self.method('Base', '', ['int'], throws=self.throws())
        self.method('Base', '', ['Object'])
        self.method('Base', 'base', ['int'], 'int', self.throws())
        self.method('Base', 'base', ['long'], 'long', self.throws(1))
        self.method('Base', 'self', [], r.choice(('Base', 'Object')), owning=r.random() < 0.5)
        self.method('Base', 'read', [r.choice(ARRAYS)], 'int', self.throws(1))
        self.add('Derived', sup='Base', faces=['Face'])
        self.method('Derived', '')
        self.method('Derived', '', ['String'])
        if r.random() < 0.5:
            self.method('Derived', 'face', ['int'], 'int')
        if r.random() < 0.5:
            self.method('Derived', 'base', ['int'], 'int')

    def statics(self):
        r = self.r
        self.add('Lib')
        self.method('Lib', '', written=False)
        self.method('Lib', 'at', ['int'], 'Mark', static=True, owning=False)
        for kind in PRIMITIVES + ('String',):
            self.method('Lib', f'{kind.lower()}s', [], kind, self.throws(1), static=True)
        for number in range(6):
            kind = r.choice(ARRAYS + ('Object', 'Base', 'Face', 'Res', 'Handle', 'File', 'Derived', 'Soft', 'Fail', 'String'))
            params = [r.choice(PRIMITIVES + ARRAYS + ('Object', 'Base', 'Res', 'Handle', 'String')) for _ in range(r.choice((0, 1, 1, 2)))]
            self.method('Lib', f's{number}', params, kind, self.throws(), static=True, owning=r.random() < 0.5)
        self.method('Lib', 'closing', ['Handle'], throws=self.throws(1), static=True, promises=[(1, ['close'])])
        self.method('Lib', 'fresh', ['int', 'Res'], throws=self.throws(1), static=True, reset=2)
        self.method('Lib', 'keep', ['Res', 'Object'], r.choice(('int', 'void')), static=True)
        for name, kind in (('SPARE', 'Res'), ('ZERO', 'Base')):
            self.method('Lib', name, [], kind, static=True, constant=True, owning=False)
            self.world['Lib'].fields.append(Field('Lib', name, kind, static=True, final=True))

    # The stub

    def stub(self):
        lines = ['package lib;', 'import org.checkerframework.checker.mustcall.qual.*;']
        for name in self.names:
            lines += self.stub_class(self.world[name])
        return '\n'.join(lines) + '\n'

    def stub_class(self, it):
        head = '' if it.own is None else '@InheritableMustCall({' + ', '.join(f'"{one}"' for one in it.own) + '}) '
        lines = [head + self.header(it) + ' {']
        for one in it.constructors + it.methods:
            if not one.written:
                continue
            lines.append('  ' + self.stub_member(it, one))
        return lines + ['}']

    def header(self, it):
        if it.interface:
            return f'public interface {it.name}' + (' extends ' + ', '.join(it.faces) if it.faces else '')
        text = 'public ' + ('abstract ' if it.abstract else '') + f'class {it.name}'
        text += f' extends {it.sup}' if it.sup != 'Object' else ''
        return text + (' implements ' + ', '.join(it.faces) if it.faces else '')

    def stub_member(self, it, one):
        if one.constant:
            return f'public static final {one.result} {one.name};'
        marks = []
        if one.alias >= 0:
            marks.append('@MustCallAlias')
        elif one.name and one.result in self.world.classes and one.result != 'String' and not one.owning:
            marks.append('@NotOwning')
        if one.reset >= 0:
            marks.append('@CreatesMustCallFor("' + ('this' if one.reset == 0 else f'#{one.reset}') + '")')
        for position, names in one.promises:
            marks.append(f'@EnsuresCalledMethods(value = "#{position}", methods = "{names[0]}")')
        params = [('@MustCallAlias ' if one.alias == k + 1 else '') + f'{kind} p{k}' for k, kind in enumerate(one.params)]
        if one.alias == 0:
            params.insert(0, f'@MustCallAlias {it.name} this')
        words = marks + ['public'] + (['static'] if one.static else []) + ([one.result, one.name] if one.name else [it.name])
        throws = ' throws ' + ', '.join(one.throws) if one.throws else ''
        return ' '.join(words) + '(' + ', '.join(params) + ')' + throws + ';'

    # The same in Java, with bodies that ask the machine

    def java_files(self, bare=False):
        files = {}
        for name in self.names:
            it = self.world[name]
            files[f'lib/{name}.java'] = 'package lib;\n' + (self.bare_class(it) if bare else self.java_class(it))
            if not bare:
                files[f'lib/Plain_{name}.java'] = 'package lib;\n' + self.plain(it)
        if not bare:
            files['lib/Plain_AutoCloseable.java'] = 'package lib;\n' + self.plain(self.world['AutoCloseable'])
            for name in WITH_TEXT[:4]:
                files[f'lib/Root_{name}.java'] = 'package lib;\n' + self.root(name)
        return files

    def unwritten(self, it):
        """The methods of interfaces that a library class has, and no library class above it declares."""
        found, known = [], set()
        for one in self.world.above(it.name):
            for method in self.world[one].methods:
                if method.signature() in known:
                    continue
                if self.world[one].interface:
                    rest = [m for m in self.world.members(it.name) if m.signature() == method.signature()]
                    if rest and self.world[rest[0].owner].interface:
                        known.add(method.signature())
                        found.append(rest[0])
                else:
                    known.add(method.signature())
        return found

    def heading(self, one, more=''):
        params = [f'{kind} p{k}' for k, kind in enumerate(one.params)] + ([more] if more else [])
        return '(' + ', '.join(params) + ')' + (' throws ' + ', '.join(one.throws) if one.throws else '')

    def body(self, one, self_text):
        arguments = ''.join(f', (Object) p{k}' for k in range(len(one.params)))
        call = f'witness.Machine.call("{one.key()}", {self_text}{arguments})'
        return f'{{ {call}; }}' if one.result == 'void' else f'{{ return ({one.result}) {call}; }}'

    def java_method(self, one, self_text='this'):
        static = 'static ' if one.static else ''
        text = f'  public {static}{one.result} {one.name}{self.heading(one)} '
        if one.name == 'at':
            return text + f'{{ return (Mark) witness.Machine.at("{one.key()}", p0); }}'
        return text + self.body(one, 'null' if one.static else self_text)

    def java_class(self, it):
        if it.interface:
            rows = [f'  {one.result} {one.name}{self.heading(one)};' for one in it.methods]
            return self.header(it) + ' {\n' + '\n'.join(rows) + '\n}\n'
        above = self.world[it.sup]
        head = self.header(it)
        if it.sup == 'Object':
            head = head.replace(f'class {it.name}', f'class {it.name} extends witness.Hooked')
        elif above.package == 'java.lang':
            head = head.replace(f'extends {it.sup}', f'extends Root_{it.sup}')
        rows = [f'  public {it.name}(witness.Made made) {{ super(made); }}']
        for one in it.constructors:
            arguments = ''.join(f', (Object) p{k}' for k in range(len(one.params)))
            call = f'witness.Machine.construct("{one.key()}", this, token{arguments});'
            rows.append(f'  public {it.name}{self.heading(one, "witness.Token token")} {{ super((witness.Made) null); {call} }}')
        rows += [self.java_method(one) for one in it.methods if not one.constant]
        rows += [self.java_method(one) for one in self.unwritten(it)]
        return head + ' {\n' + '\n'.join(rows) + '\n}\n'

    def plain(self, it):
        """The class of which the machine itself makes objects."""
        if not it.interface:
            return f'public class Plain_{it.name} extends {it.name} {{ public Plain_{it.name}(witness.Made made) {{ super(made); }} }}\n'
        rows = [self.java_method(one) for one in self.world.members(it.name) if one.owner != 'Object']
        return (f'public class Plain_{it.name} extends witness.Hooked implements {it.name} {{\n'
                f'  public Plain_{it.name}(witness.Made made) {{ super(made); }}\n' + '\n'.join(rows) + '\n}\n')

    def root(self, name):
        """Between a class of exceptions of the Java machine and those under it: its constructors are calls of the library."""
        rows = [f'public class Root_{name} extends {name} implements witness.Hook {{', f'  public Root_{name}(witness.Made made) {{ }}']
        for params, call in (('', ''), ('String p0, ', ', (Object) p0')):
            key = f'{name}({"String" if params else ""})'
            rows.append(f'  public Root_{name}({params}witness.Token token) {{ witness.Machine.construct("{key}", this, token{call}); }}')
        for result, method, params, arguments in (('boolean', 'equals', 'Object p0', ', p0'), ('int', 'hashCode', '', ''),
                                                  ('String', 'toString', '', '')):
            call = f'witness.Machine.call("Object.{method}", this{arguments})'
            rows.append(f'  public {result} {method}({params}) {{ return ({result}) {call}; }}')
        return '\n'.join(rows + ['}', ''])

    def bare_class(self, it):
        """The class with bodies that the compiler takes, for comparing refusals."""
        rows = []
        for one in it.constructors:
            above = self.world[it.sup]
            rows.append(f'  public {it.name}{self.heading(one)} {{ {"super((Hidden) null); " if above.package == "lib" else ""}}}')
        if not it.interface:
            above = self.world[it.sup].package == 'lib'
            rows.append(f'  {it.name}(Hidden hidden) {{ {"super(hidden); " if above else ""}}}')
        for one in it.methods + (self.unwritten(it) if not it.interface else []):
            if one.constant:
                rows.append(f'  public static final {one.result} {one.name} = null;')
            elif it.interface:
                rows.append(f'  {one.result} {one.name}{self.heading(one)};')
            else:
                static = 'static ' if one.static else ''
                rows.append(f'  public {static}{one.result} {one.name}{self.heading(one)} {{ throw null; }}')
        return self.header(it) + ' {\n' + '\n'.join(rows) + '\n}\n'

    # The table for the machine

    def table(self):
        world, lines = self.world, []
        for name, it in world.classes.items():
            if it.library:
                above = ','.join(world[one].qualified() for one in world.above(name))
                lines.append(f'class {it.qualified()}|{",".join(sorted(world.must(name)))}|{above}')
        lines += [f'name {one}' for one in ('x', 'close')]
        for method in CORE_METHODS:
            lines.append(self.row(method, core_key(method)))
        for name, it in world.classes.items():
            for one in it.constructors + it.methods if it.library else []:
                lines.append(self.row(one, one.key()))
        return '\n'.join(lines)

    def qualify(self, kind):
        base = kind.removesuffix('[]')
        if kind.endswith('[]'):
            return kind
        return self.world[base].qualified() if base in self.world.classes else kind

    def row(self, one, key):
        promises = ','.join(':'.join([str(position)] + names) for position, names in one.promises)
        cells = [key, one.name, self.qualify(one.result), ','.join(self.qualify(it) for it in one.throws), str(int(one.owning)),
                 str(one.alias), str(one.reset), promises, '-1' if one.constant else str(len(one.params))]
        return 'sig ' + '|'.join(cells)
