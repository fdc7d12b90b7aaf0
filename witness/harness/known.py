"""What javac refuses, in the codes of `rlc`, and what is known to differ."""

import re

IGNORED = 'ignored'

# What rlc takes and javac refuses, with the section of the Java Language Specification: the list "Taken beyond Java" of docs/RULES.md.
UNCHECKED = {
    'var.might.not.have.been.initialized': '16', 'var.might.already.be.assigned': '16', 'var.might.be.assigned.in.loop': '16',
    'var.not.initialized.in.default.constructor': '16.9', 'missing.ret.stmt': '8.4.7', 'unreachable.stmt': '14.22',
    'illegal.forward.ref': '8.3.3', 'illegal.self.ref': '8.3.3', 'except.never.thrown.in.try': '11.2.3', 'except.already.caught': '11.2.3',
    'override.weaker.access': '8.4.8.3', 'not.def.public.cant.access': '6.6', 'class.public.should.be.in.file': '7.6',
    'repeated.interface': '8.1.5',
}

# The same, where the key of javac says too little: its key, a pattern of its text and of the line, and the section.
UNCHECKED_WHERE = [
    ('override.', r'cannot hide', '', '8.4.8.2'),
    ('types.incompatible', '', r'\b(interface|abstract class) ', '8.4.8.4'),
    ('mod.not.allowed.here', '', r'\b(class|interface) \w+.*\{$', '8.1.1'),
    ('illegal.combination.of.modifiers', '', r'\b(class|interface) \w+.*\{$', '9.1.1'),
    ('int.number.too.large', '', r'-\s*\(+(2147483648|9223372036854775808)', '3.10.1'),
    ('', '', r'^import ', '7.5'),
    ('', r'annotation\.Annotation', '', '9.7'),
    # the type of a conditional that is an intersection is its class, or its first interface
    ('', r'\w&\w', '', '15.25.3'),
    # super types that the core stub leaves out
    ('', r'java\.(io\.Serializable|lang\.(Comparable|Cloneable|CharSequence))', '', '4.10.4'),
]

# Forms of Java that the subset leaves out, by what stands before the place of a refusal and behind it.
LEFT_OUT = [
    ('', r'(?!String\b)[A-Z]\w*\[\]'),  # an array type over a class other than String
    (r'\bstatic (final )?$', r'(?!String\b)[A-Z]\w* \w+( =|;)'),  # a static field of a class type other than String
]

# Differences that are being mended: each is taken out of this table when the mend is there.
UNTIL_MENDED = {
    # a constant variable is its value before its initialiser ran (4.12.4, 15.29): runs of programs with final fields of constants
    'constant variables': True,
}

# The codes of rlc that each refusal of javac may have.
CODES = {key: codes for codes, keys in {
    (43,):
        'multicatch.types.must.be.disjoint operator.cant.be.applied operator.cant.be.applied.1 incomparable.types '
        'unexpected.type type.found.req cant.assign.val.to.var cant.assign.val.to.final.var non-static.cant.be.ref '
        'break.outside.switch.loop cont.outside.loop array.req.but.found cant.ref.before.ctor.called '
        'void.not.allowed.here final.parameter.may.not.be.assigned try.resource.may.not.be.assigned '
        'multicatch.parameter.may.not.be.assigned not.loop.label',
    (30,): 'duplicate.class',
    (32,): 'cyclic.inheritance',
    (33, 43): 'already.defined',
    (33,): 'name.clash.same.erasure',
    (34,): 'cant.inherit.from.final no.intf.expected.here intf.expected.here',
    (31, 40): 'cant.resolve cant.resolve.location doesnt.exist',
    (41,): 'cant.resolve.args cant.resolve.location.args cant.apply.symbol cant.apply.symbols',
    (40, 41): 'report.access cant.deref',
    (31, 40, 42): 'ref.ambiguous',
    (34, 43): 'prob.found.req',
    (13, 43): 'int.number.too.large',
    (44,):
        'unreported.exception.need.to.catch.or.throw unreported.exception.default.constructor '
        'unreported.exception.implicit.close',
    (45,): 'override.meth override.static override.meth.doesnt.throw override.incompatible.ret types.incompatible',
    (46,): 'does.not.override.abstract abstract.cant.be.instantiated abstract.cant.be.accessed.directly',
}.items() for key in keys.split()}

SYNTAX = set('''
abstract.meth.cant.have.body call.must.be.first.stmt.in.ctor catch.without.try class.not.allowed dot.class else.without.if
expected expected2 expected3 expected4 finally.without.try illegal.combination.of.modifiers illegal.start.of.expr
illegal.start.of.stmt illegal.start.of.type intf.meth.cant.have.body invalid.meth.decl.ret.type.req local.enum.must.be.static
missing.meth.body.or.decl.abstract mod.not.allowed.here modifier.not.allowed.here not.stmt orphaned premature.eof
repeated.modifier try.without.catch.finally.or.resource.decls varargs.and.old.array.syntax variable.not.allowed
void.not.allowed'''.split())


def is_unchecked(fault):
    """Whether rlc is known to take this."""
    # (annotations that are not there: 9.7)
    return fault.key in UNCHECKED or fault.before == '@' or any(
        fault.key.startswith(key) and re.search(text, fault.text) and re.search(line, fault.source)
        for key, text, line, _ in UNCHECKED_WHERE)


def is_known(fault):
    """Whether rlc takes what javac refuses here, until that is mended."""
    return UNTIL_MENDED.get(fault.key, False)


def codes_of(fault):
    """The codes of rlc that a refusal of javac may have; or IGNORED, for what rlc takes, or 'syntax'."""
    if is_unchecked(fault):
        return IGNORED
    if fault.key in SYNTAX:
        return 'syntax'
    if fault.key == 'already.defined':
        return (43,) if ' in method ' in fault.text or ' in constructor ' in fault.text else (33,)
    return CODES.get(fault.key, ())
