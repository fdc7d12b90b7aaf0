"""Random statements: bodies that javac and rlc take, with trace points and handlers."""

from constants import constant
from expressions import Expressions
from model import ARRAYS, NUMBERS, for_java, for_rlc, java

SEEN_ON = 'catch (Throwable thrown_) { witness.Machine.seen(thrown_); throw thrown_; }'


class Statements(Expressions):
    def __init__(self, r, world, options):
        super().__init__(r, world, options)
        self.points = 0
        self.names = 0
        self.indent = 2
        self.loops = 0
        self.result = 'void'

    # Names and layout

    def fresh(self):
        self.names += 1
        return f'v{self.names}'

    def line(self, text):
        return '  ' * self.indent + text + '\n'

    def point(self):
        self.points += 1
        return self.line(f'Lib.at({self.points});')

    def kinds(self):
        """A type for a local variable."""
        r = self.r
        form = r.random()
        if form < 0.4:
            return r.choice(NUMBERS)
        if form < 0.5:
            return 'boolean'
        if form < 0.62:
            return r.choice(ARRAYS)
        if form < 0.7:
            return 'String'
        return r.choice([it.name for it in self.world.classes.values() if it.name not in ('String', 'Lib', 'Mark', 'Main', 'Integer')])

    # Blocks

    def block(self, count, depth):
        """Some statements in a scope of their own; the answer is the text, and whether it can complete normally."""
        self.scope.blocks.append([])
        self.indent += 1
        text, completes = '', True
        for _ in range(count):
            one, completes = self.statement(depth)
            text += one
            if not completes:
                break
        self.indent -= 1
        self.scope.blocks.pop()
        return text, completes

    def braces(self, text):
        return '{\n' + text + '  ' * self.indent + '}'

    def statement(self, depth):
        r = self.r
        if depth > 0 and self.chance(0.35):
            form = r.choice((self.if_, self.loop, self.try_, self.try_, self.nested))
            return form(depth)
        form = r.random()
        if form < 0.3:
            return self.local(), True
        if form < 0.5:
            return self.effect(), True
        if form < 0.66:
            return self.shown(), True
        if form < 0.74:
            return self.point(), True
        if form < 0.8:
            return self.jump(depth)
        if form < 0.9:
            return self.store(), True
        return self.void_call(), True

    def local(self):
        kind = self.kinds()
        final = self.chance(0.15)
        name = self.named_as_field() or self.fresh()
        if kind in NUMBERS and self.chance(0.1):
            other = self.fresh()
            text = self.line(f'{kind} {other} = {self.wide(kind, 2)}, {name} = {other};')
            self.scope.blocks[-1].append((other, kind, False))
            final = False
        elif kind in NUMBERS and self.chance(0.15):
            constant_, value = constant(self.r, 3)
            fits = {'byte': -128 <= value < 128, 'char': 0 <= value < 65536}.get(kind, True)
            text = self.line(('final ' if final else '') + f'{kind} {name} = ' + (constant_ if fits else f'({kind}) ({constant_})') + ';')
        elif not final and self.chance(0.15):
            text = self.line(f'{kind} {name}' + java(' = ' + self.default(kind)) + ';')
        else:
            text = self.line(('final ' if final else '') + f'{kind} {name} = {self.wide(kind, 3)};')
        self.scope.blocks[-1].append((name, kind, final))
        return text

    def named_as_field(self):
        """Now and then the name of a field, which the variable then hides."""
        if not self.chance(0.04):
            return None
        names = [it.name for it in self.world.fields_of(self.scope.owner)]
        free = [it for it in names if all(it != one[0] for one in self.scope.variables())]
        return self.r.choice(free) if free else None

    @staticmethod
    def default(kind):
        return 'false' if kind == 'boolean' else '0' if kind in NUMBERS else 'null'

    def effect(self):
        """An assignment, a change, a call or a `new` as a statement."""
        before = set(self.scope.thrown[-1])
        form = self.r.random()
        text = None
        if form < 0.35:
            text = (self.assignment(self.kinds(), 3) or ' ')[1:-1]
        elif form < 0.55:
            text = (self.change(self.r.choice(NUMBERS), 2) or ' ')[1:-1]
        elif form < 0.75:
            text = self.call(self.kinds(), 3)
        elif form < 0.85:
            text = self.loose_call(3)
        else:
            text = self.creation(self.r.choice(list(self.world.classes)), 3)
        if text and self.is_effect(text):
            return self.line(text + ';')
        self.scope.thrown[-1] = before
        return self.point()

    @staticmethod
    def is_effect(text):
        """Whether both readings of the text are statement expressions."""
        return not for_java(text).startswith('(') and not for_rlc(text).startswith('(')

    def shown(self):
        """Adds a value to the checksum, through an overload that tells its static type."""
        r = self.r
        form = r.random()
        if form < 0.5:
            kind = r.choice(NUMBERS + ('boolean',))
            return self.line(f'Main.add({self.of(kind, 3)});')
        if form < 0.65:
            one, other = self.of(r.choice(NUMBERS), 2), self.of(r.choice(NUMBERS), 2)
            return self.line(f'Main.add({self.condition(2)} ? {one} : {other});')
        it = self.variable([one for one in self.world.classes if one != 'String'])
        if it is None:
            return self.line(f'Main.add({self.condition(2)});')
        kinds = [one for one in self.world.classes if self.castable(it[1], one) and one not in ('Object', 'Integer')]
        text = '3'
        for kind in r.sample(kinds, min(3, len(kinds))):
            text = f'{it[0]} instanceof {kind} ? {r.randrange(5, 99)} : {text}'
        return self.line(f'Main.add({it[0]} == null ? 4 : {text});')

    def jump(self, depth):
        r = self.r
        form = r.random()
        if form < 0.3 and self.loops:
            return self.line(r.choice(('break;', 'continue;'))), False
        if form < 0.6:
            if self.result == 'void':
                return self.line('return;'), False
            return self.line(f'return {self.wide(self.result, 3)};'), False
        return self.thrown()

    def thrown(self):
        it = self.variable([one.name for one in self.world.below('Throwable') if self.may_throw([one.name])])
        if it and self.chance(0.5):
            self.throw([it[1]])
            return self.line(f'throw {it[0]};'), False
        kinds = [one.name for one in self.world.below('Throwable') if self.may_throw([one.name])]
        kind = self.r.choice(kinds)
        text = self.creation(kind, 2)
        if text is None or self.chance(0.1):
            text = f'(({kind}) null)'
        self.throw([kind])
        return self.line(f'throw {text};'), False

    def store(self):
        kind = self.r.choice(NUMBERS + ('boolean', 'String'))
        text = self.assignment(kind, 3) or self.change(kind, 3)
        return self.line(text[1:-1] + ';') if text else self.point()

    def void_call(self):
        before = set(self.scope.thrown[-1])
        text = self.call('void', 3)
        if text and self.is_effect(text):
            return self.line(text + ';')
        self.scope.thrown[-1] = before
        return self.point()

    # Compound statements

    def if_(self, depth):
        condition = self.condition(3)
        one, first = self.block(self.r.randrange(1, 4), depth - 1)
        text = self.line(f'if ({condition}) ' + self.braces(one))
        if self.chance(0.5):
            other, second = self.block(self.r.randrange(1, 3), depth - 1)
            return text[:-1] + ' else ' + self.braces(other) + '\n', first or second
        return text, True

    def nested(self, depth):
        text, completes = self.block(self.r.randrange(1, 4), depth - 1)
        return self.line(self.braces(text)), completes

    def loop(self, depth):
        r = self.r
        condition = f'Main.fuel > 0 && {self.condition(2)}'
        name = self.fresh()
        self.loops += 1
        form = r.choice(('while', 'do', 'for'))
        self.scope.blocks.append([(name, 'int', False)] if form == 'for' else [])
        self.indent += 1
        burn = self.line('Main.fuel = Main.fuel - 1;')
        self.indent -= 1
        body, _ = self.block(r.randrange(1, 4), depth - 1)
        if form == 'for':
            update = r.choice((f'{name}++', f'{name} += 2', f'{name} = {name} + 1, Main.fuel--', 'Main.fuel -= 2'))
            text = self.line(f'for (int {name} = {r.randrange(0, 3)}; {condition}; {update}) ' + self.braces(burn + body))
        elif form == 'while':
            text = self.line(f'while ({condition}) ' + self.braces(burn + body))
        else:
            text = self.line('do ' + self.braces(burn + body) + f' while ({condition});')
        self.scope.blocks.pop()
        self.loops -= 1
        # a `do` whose body can't complete has a condition that is never reached; Java takes it, and the loop can't complete
        return text, form != 'do' or self.ends(body)

    @staticmethod
    def ends(body):
        """Whether a `do` with this body can complete normally: its body can, or has a jump of its own loop."""
        last = body.rstrip().split('\n')[-1].strip() if body.strip() else ''
        return not (last.startswith('return') or last.startswith('throw')) or 'break;' in body or 'continue;' in body

    def try_(self, depth):
        r, world, scope = self.r, self.world, self.scope
        finally_ = self.chance(0.4)
        resources = self.chance(0.3) and bool(self.closable())
        kinds = self.caught()
        allowed = scope.allowed
        scope.allowed = allowed + kinds
        scope.thrown.append(set())
        scope.blocks.append([])
        head = self.resources() if resources else ''
        body, completes = self.block(r.randrange(1, 5), depth - 1)
        scope.blocks.pop()
        thrown = scope.thrown.pop()
        scope.allowed = allowed
        kinds = self.reachable(kinds, thrown)
        rest = [one for one in thrown if not any(world.under(one, other) for other in kinds)]
        scope.thrown[-1].update(rest)
        if any(world.is_checked(one) and not self.may_throw([one]) for one in rest):
            return self.point(), True
        inner = bool(kinds or resources)
        finally_ = finally_ or not inner
        text = 'try ' + (java('{ try ') if finally_ and inner else '')
        if resources:
            text += f'({head}) ' + '{' + java(' try {') + '\n' + body + '  ' * self.indent + java('} ' + SEEN_ON) + '}'
        else:
            text += self.braces(body)
        clauses, ends = self.clauses(kinds, depth)
        text += clauses
        completes = completes or ends
        if finally_:
            last, ended = self.block(r.randrange(1, 3), depth - 1)
            text += java(('} ' if inner else ' ') + SEEN_ON) + ' finally ' + self.braces(last)
            completes = completes and ended
        return self.line(text), completes

    def caught(self):
        """Classes of catch clauses, none of which an earlier one covers."""
        r, world = self.r, self.world
        kinds = []
        for _ in range(r.choice((0, 1, 1, 2, 3))):
            one = r.choice(world.below('Throwable')).name
            if not any(world.under(one, other) for other in kinds):
                kinds.append(one)
        return kinds

    def reachable(self, kinds, thrown):
        """Those of the clauses that javac takes: a checked class must be thrown in the block (JLS 11.2.3)."""
        world, kept = self.world, []
        for one in kinds:
            free = not world.is_checked(one) or one in ('Exception', 'Throwable')
            live = [it for it in thrown if not any(world.under(it, other) for other in kept)]
            if free or any(world.under(it, one) or world.under(one, it) for it in live):
                kept.append(one)
        return kept

    def clauses(self, kinds, depth):
        text, ends = '', False
        while kinds:
            one, kinds = kinds[0], kinds[1:]
            alternatives = [one]
            if kinds and self.chance(0.3) and not self.world.under(one, kinds[0]) and not self.world.under(kinds[0], one):
                alternatives.append(kinds[0])
                kinds = kinds[1:]
            name = self.fresh()
            kind = self.least(alternatives)
            self.scope.blocks.append([(name, kind, len(alternatives) > 1)])
            body, completes = self.block(self.r.randrange(0, 3), depth - 1)
            self.scope.blocks.pop()
            self.indent += 1
            first = java(f'witness.Machine.seen({name});') + self.point().lstrip()
            first = self.line(first.rstrip('\n'))
            self.indent -= 1
            text += f' catch ({" | ".join(alternatives)} {name}) ' + self.braces(first + body)
            ends = ends or completes
        return text, ends

    def least(self, kinds):
        """The least class that all alternatives are under."""
        for one in self.world.above(kinds[0]):
            if all(self.world.under(other, one) for other in kinds) and not self.world[one].interface:
                return one
        return 'Throwable'

    def resources(self):
        r, world = self.r, self.world
        found = []
        for _ in range(r.choice((1, 1, 2, 3))):
            kind = r.choice(self.closable())
            closing = self.closing(kind)
            self.throw(closing.throws)
            depth = 1 if found else 2
            value = self.reference(kind, depth, typed=True) if not found else self.simple(kind)
            if closing.library:
                value = java(f'witness.Machine.resource("{closing.key()}", ') + value + java(')')
            name = self.fresh()
            found.append(f'{kind} {name} = {value}')
            self.scope.blocks[-1].append((name, kind, True))
        return '; '.join(found)

    def closable(self):
        return [it.name for it in self.world.below('AutoCloseable') if self.closing(it.name)]

    def closing(self, kind):
        """The `close` of the type, where the body may throw what it throws."""
        found = [it for it in self.world.members(kind) if it.signature() == ('close', ())]
        return found[0] if found and self.may_throw(found[0].throws) else None

    def simple(self, kind):
        """A value that no primitive operation throws at."""
        found = [it for it in self.world.below(kind, lambda it: it.library and not it.interface and not it.abstract)
                 for it in it.constructors if self.may_throw(it.throws)]
        found = [it for it in found if all(one in NUMBERS + ('String',) for one in it.params)]
        it = self.variable([one.name for one in self.world.below(kind)])
        if it and self.chance(0.5) or not found:
            return it[0] if it else 'null'
        made = self.r.choice(found)
        self.throw(made.throws)
        args = ', '.join(self.literal(one) if one != 'String' else '"t"' for one in made.params)
        return f'new {made.owner}({args}' + java((', ' if args else '') + 'witness.Machine.none()') + ')'

