"""Types, classes and members of a generated program, and texts that are written in two ways."""

import re
from dataclasses import dataclass, field

PRIMITIVES = ('boolean', 'byte', 'char', 'int', 'long')
NUMBERS = ('byte', 'char', 'int', 'long')
ARRAYS = tuple(it + '[]' for it in PRIMITIVES) + ('String[]',)
WIDER = {'byte': ('byte', 'int', 'long'), 'char': ('char', 'int', 'long'), 'int': ('int', 'long'), 'long': ('long',)}

# A text for two readers: what rlc reads stands between the first and the second mark, what javac reads behind it.
TWO = re.compile('\ue000([^\ue001]*)\ue001([^\ue002]*)\ue002')


def two(rlc, java):
    return f'\ue000{rlc}\ue001{java}\ue002'


def java(text):
    return two('', text)


def for_rlc(text):
    return TWO.sub(lambda it: it[1], text)


def for_java(text):
    return TWO.sub(lambda it: it[2], text)


@dataclass
class Method:
    """A method, a constructor (no name) or a constant of the library (no parameters, `constant`)."""
    owner: str
    name: str
    params: list
    result: str
    throws: list = field(default_factory=list)
    static: bool = False
    private: bool = False
    abstract: bool = False
    final: bool = False
    constant: bool = False
    library: bool = False
    written: bool = True
    owning: bool = True
    alias: int = -1
    reset: int = -1
    promises: list = field(default_factory=list)
    first: list = None

    def key(self):
        inside = '' if self.constant else '(' + ','.join(self.params) + ')'
        return (f'{self.owner}.{self.name}' if self.name else self.owner) + inside

    def signature(self):
        return self.name, tuple(self.params)


@dataclass
class Field:
    owner: str
    name: str
    type: str
    static: bool = False
    final: bool = False
    private: bool = False
    initial: str = None


@dataclass
class Class:
    name: str
    package: str
    sup: str = 'Object'
    faces: list = field(default_factory=list)
    library: bool = False
    interface: bool = False
    abstract: bool = False
    final: bool = False
    own: list = None
    fields: list = field(default_factory=list)
    methods: list = field(default_factory=list)
    constructors: list = field(default_factory=list)

    def qualified(self):
        return f'{self.package}.{self.name}' if self.package else self.name


class World:
    """All classes by simple name, in class order."""

    def __init__(self):
        self.classes = {}

    def add(self, it):
        self.classes[it.name] = it
        return it

    def __getitem__(self, name):
        return self.classes[name]

    def above(self, name):
        """The class and all above it, nearest first."""
        found, todo = [], [name]
        while todo:
            one = todo.pop(0)
            if one in found or one not in self.classes:
                continue
            found.append(one)
            it = self.classes[one]
            todo += ([it.sup] if it.sup and not it.interface else []) + it.faces
        if 'Object' not in found:
            found.append('Object')
        return found

    def is_class(self, kind):
        return kind in self.classes and kind != 'String'

    def under(self, one, other):
        """Whether a value of the first type may stand for one of the second, both references."""
        if one == other or other == 'Object' or one == 'null':
            return True
        return one in self.classes and other in self.above(one)

    def must(self, name):
        it = self.classes[name]
        if it.own is not None:
            return set(it.own)
        supers = ([it.sup] if it.sup and not it.interface else []) + it.faces
        return set().union(*(self.must(one) for one in supers if one in self.classes)) if supers else set()

    def is_throwable(self, name):
        return 'Throwable' in self.above(name)

    def is_checked(self, name):
        above = self.above(name)
        return 'RuntimeException' not in above and 'Error' not in above

    def members(self, name):
        """The methods that a class has: of each list of parameter types the nearest."""
        found = {}
        for one in self.above(name):
            for method in self.classes[one].methods if one in self.classes else []:
                known = found.get(method.signature())
                if known is None or (known.abstract and not method.abstract and self.is_body_of(name, method)):
                    found[method.signature()] = method
        return list(found.values())

    def is_body_of(self, name, method):
        return not self.classes[method.owner].interface

    def fields_of(self, name):
        found = {}
        for one in self.above(name):
            for it in self.classes[one].fields if one in self.classes else []:
                found.setdefault(it.name, it)
        return list(found.values())

    def below(self, name, wanted=lambda it: True):
        return [it for it in self.classes.values() if self.under(it.name, name) and wanted(it)]
