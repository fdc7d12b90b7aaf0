"""Random expressions of the subset, each of a type that is asked for."""

from library import CORE_METHODS, core_key
from model import ARRAYS, NUMBERS, WIDER, java, two

EDGES = [0, 1, 2, 3, 5, 7, 8, 31, 32, 33, 63, 64, 100, 127, 128, 255, 256, 32767, 32768, 65535, 65536, 2147483647]


class Scope:
    """What a body may name: its class, whether `this` is there, the checked classes that it may throw, its variables."""

    def __init__(self, owner, static, allowed, initialising=False):
        self.owner = owner
        self.static = static
        self.allowed = list(allowed)
        self.initialising = initialising
        # fields of the class that an initialiser may not name yet (JLS 8.3.3)
        self.later = []
        self.blocks = [[]]
        self.thrown = [set()]

    def variables(self):
        return [it for block in self.blocks for it in block]


def attempt(form):
    """A form that may not be there: where it gives None, what its parts would throw is forgotten."""
    def tried(self, *given):
        before = set(self.scope.thrown[-1])
        text = form(self, *given)
        if text is None:
            self.scope.thrown[-1] = before
        return text
    return tried


class Expressions:
    def __init__(self, r, world, options):
        self.r = r
        self.world = world
        self.options = options
        self.scope = None

    # Choices

    def chance(self, p):
        return self.r.random() < p

    def may_throw(self, throws):
        world, scope = self.world, self.scope
        return all(not world.is_checked(one) or any(world.under(one, other) for other in scope.allowed) for one in throws)

    def throw(self, throws):
        self.scope.thrown[-1].update(throws)

    def variable(self, kinds, writable=False):
        found = [it for it in self.scope.variables() if it[1] in kinds and not (writable and it[2])]
        return self.r.choice(found) if found else None

    # Expressions of each type

    def of(self, kind, depth):
        if kind == 'boolean':
            return self.condition(depth)
        if kind in NUMBERS:
            return self.number(kind, depth)
        return self.reference(kind, depth)

    def wide(self, kind, depth):
        """An expression that may be assigned to the type."""
        if kind in NUMBERS and self.chance(0.3):
            return self.of(self.r.choice([it for it in NUMBERS if kind in WIDER[it]]), depth)
        if kind in ('byte', 'char') and self.chance(0.3):
            return str(self.r.choice((0, 1, 65, 127)))
        return self.of(kind, depth)

    def literal(self, kind):
        r = self.r
        if kind == 'boolean':
            return r.choice(('true', 'false'))
        if kind == 'char':
            return r.choice(("'a'", "'0'", "'\\n'", "'\\377'", "'\\''", "'z'"))
        value = r.choice(EDGES) if self.chance(0.6) else r.randrange(0, 2147483648)
        if kind == 'byte':
            return f'(byte) {r.choice(("", "-"))}{value}'
        text = r.choice((str(value), str(value), hex(value), bin(value), '0' + oct(value)[2:] if value else '0'))
        if kind == 'long':
            value = r.choice((value, value << 32, 9223372036854775807, value * 1000003))
            text = r.choice((str(value), hex(value)))
            return ('-' if self.chance(0.3) else '') + text + r.choice('Ll').upper()
        return ('-' if self.chance(0.3) else '') + text

    def common(self, kind, depth):
        """The forms that give any type; None where the one that was drawn is not there."""
        r = self.r
        form = r.choice(('variable', 'variable', 'variable', 'field', 'call', 'call', 'element', 'conditional', 'assignment',
                         'cast', 'change'))
        if form == 'variable':
            it = self.variable((kind,))
            return it and it[0]
        if form == 'field':
            return self.field(kind, depth)
        if form == 'call':
            return self.call(kind, depth)
        if form == 'element':
            return self.element(kind, depth) if kind + '[]' in ARRAYS else None
        if form == 'conditional':
            return f'({self.condition(depth - 1)} ? {self.of(kind, depth - 1)} : {self.of(kind, depth - 1)})'
        if form == 'assignment':
            return self.assignment(kind, depth)
        if form == 'change':
            return self.change(kind, depth)
        return f'(({kind}) {self.primary(kind, depth)})' if kind in NUMBERS or self.world.is_class(kind) else None

    def primary(self, kind, depth):
        text = self.of(kind, depth - 1)
        return f'({text})'

    def number(self, kind, depth):
        r = self.r
        if depth <= 0:
            it = self.variable((kind,))
            return it[0] if it and self.chance(0.7) else self.literal(kind)
        for _ in range(3):
            form = r.random()
            if form < 0.45:
                text = self.common(kind, depth)
            elif form < 0.55:
                text = self.literal(kind)
            elif kind in ('int', 'long'):
                text = self.arithmetic(kind, depth)
            else:
                text = f'(({kind}) ({self.of(r.choice(NUMBERS), depth - 1)}))'
            if text:
                return text
        return self.literal(kind)

    def arithmetic(self, kind, depth):
        r = self.r
        form = r.random()
        if form < 0.1:
            return f'({r.choice("+-~")}({self.of(kind, depth - 1)}))'
        if form < 0.2:
            other = r.choice(NUMBERS)
            return f'(({kind}) ({self.of(other, depth - 1)}))'
        if form < 0.35:
            left = r.choice([it for it in NUMBERS if it == 'long'] if kind == 'long' else ('byte', 'char', 'int'))
            return f'(({self.of(left, depth - 1)}) {r.choice(("<<", ">>", ">>>"))} ({self.of(r.choice(NUMBERS), depth - 1)}))'
        if form < 0.45 and kind == 'int':
            return self.measure(depth) or '3'
        smaller = ('byte', 'char', 'int', 'long') if kind == 'long' else ('byte', 'char', 'int')
        one, other = self.of(kind if kind == 'long' else r.choice(smaller), depth - 1), self.of(r.choice(smaller), depth - 1)
        if self.chance(0.5):
            one, other = other, one
        sign = r.choice('+-*/%&|^')
        if sign in '/%' and self.chance(0.6):
            other = f'({other} | 1)'
        is_loose = kind == 'int' and depth > 1 and self.chance(0.4) and self.is_plain(one) and self.is_plain(other)
        return f'{one} {sign} {other}' if is_loose else f'(({one}) {sign} ({other}))'

    @staticmethod
    def is_plain(text):
        """Whether the text may stand as an operand of any operator."""
        return text.replace('_', 'a').isalnum() or text.startswith('(') and text.endswith(')') and text.count('(') == 1

    def measure(self, depth):
        it = self.variable(ARRAYS)
        if it and self.chance(0.5):
            return f'{it[0]}.length'
        method = self.r.choice([one for one in CORE_METHODS if one.result == 'int'])
        return self.core_call(method, depth)

    @attempt
    def core_call(self, method, depth):
        """A call of a method of the core stub."""
        if not self.may_throw(method.throws):
            return None
        self.throw(method.throws)
        args = [java('(Object) (') + self.of(one, depth - 1) + java(')') for one in method.params]
        before = f'(({method.result}) witness.Machine.own("{core_key(method)}", '
        if method.static:
            before = before.replace('Machine.own', 'Machine.call')
            return two(f'{method.owner}.{method.name}(', before + 'null, ') + ', '.join(args) + two(')', '))')
        target = self.target(method.owner, depth)
        if target is None:
            return None
        if method.owner == 'Object':
            middle = two(f'.{method.name}(', ', ' if args else '')
            return two('', f'witness.Machine.{method.name}(') + target + middle + ', '.join(args) + ')'
        return two('', before) + target + two(f'.{method.name}(', ', ' if args else '') + ', '.join(args) + two(')', '))')

    def target(self, kind, depth):
        """A simple expression whose value may be the target of a call of a method of this type."""
        kinds = [kind] if kind in ('String', 'Object') else [it.name for it in self.world.below(kind)]
        it = self.variable(kinds)
        if it:
            return it[0]
        return self.typed(kind, depth - 1) if depth > 0 else None

    def typed(self, kind, depth):
        """An expression in parentheses whose static type is no null type."""
        return f'(({kind}) ({self.reference(kind, depth, typed=True)}))'

    def condition(self, depth):
        r = self.r
        if depth <= 0:
            it = self.variable(('boolean',))
            sign = r.choice(('<', '>', '==', '!=', '<=', '>='))
            return it[0] if it and self.chance(0.6) else f'({self.number("int", 0)} {sign} {self.number("int", 0)})'
        form = r.random()
        if form < 0.25:
            return self.common('boolean', depth) or self.condition(depth - 1)
        if form < 0.5:
            kinds = r.choice(NUMBERS), r.choice(NUMBERS)
            return f'(({self.of(kinds[0], depth - 1)}) {r.choice(("<", ">", "==", "!=", "<=", ">="))} ({self.of(kinds[1], depth - 1)}))'
        if form < 0.65:
            return f'({self.condition(depth - 1)} {r.choice(("&&", "||", "&", "|", "^", "==", "!="))} {self.condition(depth - 1)})'
        if form < 0.7:
            return f'(!{self.condition(depth - 1)})'
        return self.test(depth)

    def test(self, depth):
        r, world = self.r, self.world
        it = self.variable([one for one in world.classes if one != 'String'] + ['String'])
        if it is None:
            return 'true' if self.chance(0.5) else '(1 < 2)'
        if self.chance(0.4) or it[1] == 'String':
            return '(' + r.choice((f'{it[0]} {r.choice(("==", "!="))} null', f'null {r.choice(("==", "!="))} {it[0]}')) + ')'
        kinds = [one.name for one in world.classes.values() if self.castable(it[1], one.name) and one.name not in ('Object', 'Integer')]
        if self.chance(0.6) and kinds:
            return f'({it[0]} instanceof {r.choice(kinds)})'
        other = self.variable([one for one in world.classes if one != 'String' and self.castable(it[1], one)])
        if other is None:
            return f'({it[0]} == null)'
        return two('(', '(witness.Machine.same(') + it[0] + two(' == ', ', ') + other[0] + two(')', '))')

    def castable(self, one, other):
        """Whether a cast between two class types is taken (JLS 5.5), by a simple sufficient condition."""
        world = self.world
        if 'String' in (one, other):
            return 'Object' in (one, other)
        if world.under(one, other) or world.under(other, one):
            return True
        kinds = world[one], world[other]
        return (kinds[0].interface and not kinds[1].final or kinds[1].interface and not kinds[0].final)

    def reference(self, kind, depth, typed=False):
        r, world = self.r, self.world
        null = f'(({kind}) null)' if typed or self.chance(0.3) else 'null'
        if depth <= 0 or self.chance(0.05):
            it = self.variable([kind])
            return it[0] if it else self.base(kind, null)
        for _ in range(4):
            form = r.random()
            text = None
            if form < 0.55:
                text = self.common(kind, depth)
            elif kind in ARRAYS:
                text = f'new {kind[:-2]}[{self.size(depth)}]'
            elif kind == 'String':
                text = self.text(depth)
            elif form < 0.9:
                text = self.creation(kind, depth)
            elif world.is_class(kind):
                text = self.downcast(kind, depth)
            if text:
                return text
        return self.base(kind, null)

    def base(self, kind, null):
        if kind == 'String':
            return self.r.choice(('"a"', '"text"', '""', null))
        scope = self.scope
        if not scope.static and not scope.initialising and kind == scope.owner:
            return 'this'
        return null

    def size(self, depth):
        return str(self.r.randrange(0, 5)) if self.chance(0.8) else f'({self.number("int", depth - 1)}) % 5'

    def text(self, depth):
        r = self.r
        if self.chance(0.3):
            method = r.choice([one for one in CORE_METHODS if one.result == 'String'])
            return self.core_call(method, depth)
        one, other = self.typed('String', depth - 1), self.of(r.choice(('String', 'int', 'boolean', 'char', 'long')), depth - 1)
        if self.chance(0.3):
            one, other = other, one
        return f'(({one}) + ({other}))'

    @attempt
    def downcast(self, kind, depth):
        found = [one for one in self.scope.variables() if one[1] in self.world.classes and one[1] != 'String'
                 and self.castable(one[1], kind)]
        return f'(({kind}) {self.r.choice(found)[0]})' if found else None

    @attempt
    def creation(self, kind, depth):
        world, r = self.world, self.r
        found = [one for one in world.below(kind, lambda it: not it.abstract and not it.interface and it.constructors)]
        if self.scope.initialising:
            found = [one for one in found if one.library or self.rank(one.name) < self.rank(self.scope.owner)]
        if kind == 'Object' and self.chance(0.3) or not found:
            found = [world['Object']] if kind == 'Object' else []
        if not found:
            return None
        it = r.choice(found)
        made = r.choice(it.constructors)
        if made.private and it.name != self.scope.owner or not self.may_throw(made.throws):
            return None
        self.throw(made.throws)
        args = ', '.join(self.argument(one, depth) for one in made.params)
        if it.package == 'java.lang':
            return java(f'witness.Machine.built("{made.key()}", ') + f'new {it.name}({args})' + java(')')
        token = 'none' if it.library else 'next'
        return f'new {it.name}({args}' + java((', ' if args else '') + f'witness.Machine.{token}()') + ')'

    def rank(self, name):
        return list(self.world.classes).index(name)

    def argument(self, kind, depth):
        """An expression of exactly this type, by which the method that is meant is the most specific."""
        if kind in NUMBERS or kind == 'boolean':
            return self.of(kind, depth - 1)
        it = self.variable((kind,))
        return it[0] if it and self.chance(0.5) else self.typed(kind, depth - 1)

    # Members

    @attempt
    def field(self, kind, depth):
        world, scope, r = self.world, self.scope, self.r
        mine = [it for it in world.fields_of(scope.owner) if it.type == kind and (it.static or not scope.static)
                and (not it.private or it.owner == scope.owner) and it not in scope.later]
        if mine and self.chance(0.6):
            it = r.choice(mine)
            is_hidden = any(one[0] == it.name for one in scope.variables())
            if it.static:
                return f'{scope.owner}.{it.name}' if is_hidden or self.chance(0.5) else it.name
            return f'this.{it.name}' if is_hidden or self.chance(0.5) else it.name
        every = [it for one in world.classes.values() for it in one.fields if it.type == kind
                 and (not it.private or it.owner == scope.owner)]
        if not every:
            return None
        it = r.choice(every)
        if world[it.owner].library:
            key = f'{it.owner}.{it.name}'
            return two(key, f'((lib.{kind}) witness.Machine.call("{key}", null))')
        if it.static:
            return f'{it.owner}.{it.name}'
        target = self.target(it.owner, depth) if not it.private else (self.variable((it.owner,)) or [None])[0]
        return f'{target}.{it.name}' if target and self.sees(target, it) else None

    def sees(self, target, it):
        """Whether the field is the one that the type of the target has by this name."""
        kinds = [one[1] for one in self.scope.variables() if one[0] == target] or [it.owner]
        return any(one is it for one in self.world.fields_of(kinds[0]))

    def element(self, kind, depth):
        it = self.variable((kind + '[]',))
        if not it:
            return None
        return java('witness.Machine.get(') + it[0] + two('[', ', ') + self.index(depth) + two(']', ')')

    def index(self, depth):
        return str(self.r.randrange(0, 3)) if self.chance(0.8) else self.number(self.r.choice(('int', 'byte', 'char')), depth - 1)

    @attempt
    def assignment(self, kind, depth):
        it = self.variable((kind,), writable=True)
        if it and self.chance(0.6):
            return f'({it[0]} = {self.wide(kind, depth - 1)})'
        array = self.variable((kind + '[]',))
        if array and self.chance(0.5):
            return f'({array[0]}[{self.index(depth)}] = {self.wide(kind, depth - 1)})'
        world, scope = self.world, self.scope
        every = [one for owner in world.classes.values() if not owner.library for one in owner.fields
                 if one.type == kind and not one.final and (not one.private or one.owner == scope.owner)]
        if not every:
            return None
        one = self.r.choice(every)
        if one.static:
            target = one.owner
        elif one in world.fields_of(scope.owner) and not scope.static:
            target = 'this'
        else:
            target = (self.variable((one.owner,)) or [None])[0]
        return f'({target}.{one.name} = {self.wide(kind, depth - 1)})' if target else None

    @attempt
    def change(self, kind, depth):
        """A compound assignment, or `++` and `--`."""
        r = self.r
        it = self.variable((kind,), writable=True)
        if it is None or self.chance(0.2):
            it = self.own_field(kind)
        if it is None:
            return None
        if kind in NUMBERS:
            if self.chance(0.5):
                sign = r.choice(('++', '--'))
                return f'({r.choice((it[0] + sign, sign + it[0]))})'
            sign = r.choice(('+=', '-=', '*=', '/=', '%=', '&=', '|=', '^=', '<<=', '>>=', '>>>='))
            return f'({it[0]} {sign} {self.of(r.choice(NUMBERS), depth - 1)})'
        if kind == 'boolean':
            return f'({it[0]} {r.choice(("&=", "|=", "^="))} {self.condition(depth - 1)})'
        if kind == 'String':
            return f'({it[0]} += {self.of(r.choice(("String", "int", "boolean", "char")), depth - 1)})'
        return None

    def own_field(self, kind):
        """A field that may be changed through `this`, or a static one, as a variable."""
        scope = self.scope
        found = [it for it in self.world.fields_of(scope.owner) if it.type == kind and not it.final and it not in scope.later
                 and (it.static or not scope.static) and (not it.private or it.owner == scope.owner)]
        if not found:
            return None
        it = self.r.choice(found)
        return (f'{it.owner}.{it.name}' if it.static else f'this.{it.name}', kind, False)

    # Calls

    def loose_call(self, depth):
        """A call of a method of the program as a statement, with arguments that need not have just the types of the parameters."""
        world, scope = self.world, self.scope
        found = [one for owner in world.classes.values() if not owner.library for one in owner.methods
                 if not one.private and self.callable(one) and one.params]
        if not found:
            return None
        one = self.r.choice(found)
        target = one.owner if one.static else self.target(one.owner, depth)
        if target is None:
            return None
        self.throw(one.throws)
        args = [self.wide(kind, depth - 1) if kind in NUMBERS else self.below(kind, depth) for kind in one.params]
        return f'{target}.{one.name}({", ".join(args)})'

    def below(self, kind, depth):
        """A value of the type, or of one under it."""
        if not self.world.is_class(kind):
            return self.argument(kind, depth)
        it = self.variable([one.name for one in self.world.below(kind)])
        return it[0] if it else self.argument(kind, depth)

    def callable(self, method):
        scope = self.scope
        if method.constant or not self.may_throw(method.throws) or method.name in ('at', 'main'):
            return False
        return not (scope.initialising and not method.library)

    @attempt
    def call(self, kind, depth):
        """A call of a method whose result is of this type."""
        world, r = self.world, self.r
        is_class = world.is_class(kind)
        wanted = lambda it: it == kind or is_class and world.is_class(it) and world.under(it, kind)
        if self.chance(0.1):
            core = [one for one in CORE_METHODS if one.result == kind]
            return self.core_call(r.choice(core), depth) if core else None
        found = [one for owner in world.classes.values() if owner.package != 'java.lang' for one in owner.methods
                 if (one.result == kind if kind in NUMBERS + ('boolean', 'void') else wanted(one.result)) and self.callable(one)]
        return self.invocation(r.choice(found), depth) if found else None

    def invocation(self, method, depth):
        world, scope, r = self.world, self.scope, self.r
        if method.static:
            if method.private and method.owner != scope.owner:
                return None
            self.throw(method.throws)
            args = ', '.join(self.argument(one, depth) for one in method.params)
            short = method.owner == scope.owner and self.chance(0.5)
            return f'{"" if short else method.owner + "."}{method.name}({args})'
        mine = not scope.static and not scope.initialising and method.owner in world.above(scope.owner)
        form = r.choice(('implied', 'this', 'super', 'other')) if mine else 'other'
        if form == 'super':
            return self.super_call(method, depth)
        kind = scope.owner if form != 'other' else None
        if kind is None:
            kinds = [it.name for it in world.below(method.owner)] if not method.private else [method.owner]
            it = self.variable(kinds)
            target, kind = (it[0], it[1]) if it else (None, method.owner)
            if target is None:
                target = self.typed(kind, depth - 1)
        else:
            target = {'implied': '', 'this': 'this'}[form]
        named = [one for one in world.members(kind) if one.signature() == method.signature()]
        if not named or method.private and (kind != scope.owner or method.owner != scope.owner):
            return None
        if not method.private and named[0].result != method.result or not self.may_throw(named[0].throws):
            return None
        if method.private and target not in ('', 'this') and self.chance(0.5):
            return None
        one = method if method.private else named[0]
        self.throw(one.throws)
        return self.written_call(one, target, depth)

    def written_call(self, one, target, depth):
        args = [self.argument(kind, depth) for kind in one.params]
        if one.library:
            mark = java(f'witness.Machine.named("{one.key()}", ')
            if args:
                args[-1] = mark + args[-1] + java(')')
            elif target:
                target = mark + target + java(')')
            else:
                target = java(f'witness.Machine.named("{one.key()}", this).')
                return target + f'{one.name}()'
        return (target + '.' if target else '') + f'{one.name}({", ".join(args)})'

    def super_call(self, method, depth):
        world, scope = self.world, self.scope
        above = world[scope.owner].sup
        named = [one for one in world.members(above) if one.signature() == method.signature()] if above != 'Object' else []
        if not named or named[0].abstract or named[0].private or named[0].static or named[0].result != method.result:
            return None
        if world[named[0].owner].interface or not self.may_throw(named[0].throws):
            return None
        self.throw(named[0].throws)
        return self.written_call(named[0], 'super', depth) if not named[0].library or named[0].params else \
            f'super.{method.name}()'
