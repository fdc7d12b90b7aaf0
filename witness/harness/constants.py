"""Random constant expressions of type int (JLS 15.29) with their values."""


def wrap(value):
    """The value as an int."""
    return (value + 2**31) % 2**32 - 2**31


def divided(one, other):
    """Division that truncates towards zero."""
    quotient = abs(one) // abs(other)
    return quotient if (one < 0) == (other < 0) else -quotient


CASTS = {'byte': lambda it: (it + 128) % 256 - 128, 'char': lambda it: it % 65536, 'int': wrap}
OPERATORS = {
    '+': lambda a, b: a + b, '-': lambda a, b: a - b, '*': lambda a, b: a * b, '&': lambda a, b: a & b, '|': lambda a, b: a | b,
    '^': lambda a, b: a ^ b, '<<': lambda a, b: a << (b & 31), '>>': lambda a, b: a >> (b & 31),
    '>>>': lambda a, b: (a % 2**32) >> (b & 31), '/': divided, '%': lambda a, b: a - b * divided(a, b)}
TESTS = {'<': lambda a, b: a < b, '>=': lambda a, b: a >= b, '==': lambda a, b: a == b, '!=': lambda a, b: a != b}
LITERALS = [('0', 0), ('1', 1), ('3', 3), ('7', 7), ('100', 100), ('1_000', 1000), ('0x7f', 127), ('0xffff_ffff', -1),
            ('0b1_0', 2), ('017', 15), ('0_17', 15), ("'a'", 97), ("'\\n'", 10), ("'\\377'", 255), ("'\\s'", 32), ("'\\''", 39), ("'\u00e9'", 233), ("'\u20ac'", 8364),
            ('2147483647', 2147483647), ('-2147483648', -2147483648), ('0x80000000', -2147483648), ('65535', 65535), ('-129', -129)]


def constant(r, depth):
    """A text and its value."""
    if depth <= 0 or r.random() < 0.2:
        return r.choice(LITERALS)
    form = r.random()
    one, left = constant(r, depth - 1)
    if form < 0.15:
        kind = r.choice(sorted(CASTS))
        return f'(({kind}) ({one}))', CASTS[kind](left)
    if form < 0.25:
        sign = r.choice('+-~')
        return f'({sign}({one}))', wrap({'+': left, '-': -left, '~': ~left}[sign])
    other, right = constant(r, depth - 1)
    if form < 0.4:
        test = r.choice(sorted(TESTS))
        third, value = constant(r, depth - 1)
        return f'(({one}) {test} ({other}) ? ({third}) : ({other}))', value if TESTS[test](left, right) else right
    sign = r.choice(sorted(OPERATORS))
    if sign in '/%' and right == 0:
        sign = '+'
    return f'(({one}) {sign} ({other}))', wrap(OPERATORS[sign](left, right))
