"""Faulty lines of a script, lines at the limits of their length, and bytes of every kind."""
from oracle.calls import CALLS
from oracle.script import LONGEST_LINE

BAD_BYTES = (b'\r', b'\t', b'\x00', b'\x07', b'\x1b', b'\x7f', b'\x80', b'\xc3\xa9', b'\xff')
NO_CALLS = (b'refresh', b'waddstr 0 hi', b'mvaddstr 0 0 0 x', b'Move 0 0 0', b'newwi', b'newwinn 1 1 0 0', b' move 0 0 0', b'getch',
            b'%', b'box 0', b'none', b'addstr\\x20 0 x')
BAD_NUMBERS = (b'', b'00', b'07', b'-1', b'-0', b'+1', b'65536', b'99999', b'100000', b'1x', b'x', b'none', b'0x1', b'1.0')
BAD_SIGNED = (b'32768', b'-32768', b'-00', b'-', b'--1', b'-065', b'+3', b'65535', b'-100000')
BAD_ATTRIBUTES = (b'', b'0', b'40', b'ff', b'0A', b'001', b'0x', b'g0', b'3F')
BAD_FLAGS = (b'', b'On', b'OFF', b'1', b'true', b'onn')
BAD_TEXTS = (b'\\', b'a\\q', b'\\x4', b'\\x4G', b'\\X41', b'\\xAB', b'ab\\', b'\\0', b'\\\\\\')
BAD_CHARACTERS = BAD_TEXTS + (b'', b'ab', b'\\x41\\x42', b'\\\\\\\\')
BAD_FORMS = {'number': BAD_NUMBERS, 'signed': BAD_SIGNED, 'attributes': BAD_ATTRIBUTES, 'flag': BAD_FLAGS, 'text': BAD_TEXTS,
             'character': BAD_CHARACTERS, 'number_or_none': BAD_NUMBERS[:11] + (b'None', b'nobody')}
GOOD_FORMS = {'number': b'0', 'signed': b'-3', 'attributes': b'1f', 'flag': b'on', 'text': b'a b', 'character': b'c',
              'number_or_none': b'none'}


def any_byte(chance):
    """A byte of any kind but the newline."""
    return bytes([chance.choice([byte for byte in range(256) if byte != 10])])


def too_long(chance):
    length = chance.choice((LONGEST_LINE + 1, LONGEST_LINE + 2, 2 * LONGEST_LINE, 3 * LONGEST_LINE + 1, 5000))
    start = chance.choice((b'', b'#', b'addstr 0 ', b'fly ', b'\xff'))
    return start + chance.choice((b'x', b' ', b'0', b'\x80')) * (length - len(start))


def bad_byte(chance, line):
    """A line, or a comment, with a byte that no line has, or with two."""
    line = chance.choice((line, b'# a comment', b''))
    for _ in range(chance.choice((1, 1, 2))):
        at = chance.choice((0, len(line), chance.randint(0, len(line))))
        line = line[:at] + chance.choice(BAD_BYTES) + line[at:]
    return line


def unknown_call(chance, line):
    kind = chance.randrange(3)
    if kind == 0 and line[:1] not in (b'#', b''):
        return chance.choice((b' ' + line, line[1:], b'w' + line, line.swapcase(), line.replace(b' ', b'', 1)))
    return chance.choice(NO_CALLS)


def arguments_of(chance, forms, bad_at=None):
    return [chance.choice(BAD_FORMS[form]) if at == bad_at else GOOD_FORMS[form] for at, form in enumerate(forms)]


def wrong_count(chance):
    word, (forms, _) = chance.choice(list(CALLS.items()))
    said = arguments_of(chance, forms)
    if chance.random() < 0.5:
        said = said[:chance.randint(0, len(said))]
    else:
        said += chance.choice(([b''], [b'0'], [b'0', b'1'], [b'0'] * 12))
    return b' '.join([word.encode(), *said])


def bad_argument(chance):
    word, (forms, _) = chance.choice([(word, row) for word, row in CALLS.items() if row[0]])
    return b' '.join([word.encode(), *arguments_of(chance, forms, chance.randrange(len(forms)))])


def mutated(chance, line):
    """A line with a byte more, a byte less, or another byte."""
    at = chance.randint(0, len(line))
    return line[:at] + chance.choice((b'', any_byte(chance))) + line[at + chance.randint(0, 1):]


def spoiled(chance, line):
    """A line that has a fault, mostly: one of each kind, or another line with a byte changed."""
    return chance.choice((too_long, wrong_count, bad_argument, lambda chance: bad_byte(chance, line),
                          lambda chance: unknown_call(chance, line), lambda chance: mutated(chance, line)))(chance)


def quiet_line(chance):
    """A line that says nothing, or whose length is the greatest."""
    return chance.choice((b'', b'#', b'# ' + b'~' * (LONGEST_LINE - 2), b'# addstr 0 x', b'#newwin'))
