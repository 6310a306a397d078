"""Writes streams of terminal bytes: items that a terminal takes, mostly, then mutated and cut."""
from oracle.terminal import Terminal

FINALS = (b'H', b'J', b'K', b'm')
CODES = (0, 1, 2, 4, 5, 7, 8, 22, 24, 25, 27, 28, 30, 31, 37, 39, 40, 44, 47, 49)
STRANGE = (b'\n', b'\r', b'\x00', b'\x7f', b'\x80', b'\x9b', b'\xff', b'\x1b', b'\x1b[', b'\x1b[1', b'\x1b[;', b'\x1bM', b'\x1b[A',
           b'\x1b[?25h', b'\x1b[1234H', b'\x1b[0;H', b'\x1b[3J', b'\x1b[29m', b'\x1b[38;5;1m', b'\x1b[1;2;3H', b'\x1b[' + b';' * 15 + b'm',
           b'\x1b[' + b';' * 16 + b'm', b'\x1b[000m', b'\x1b[0000m', b'\x1b[007m', b'\x1b[03J', b'\x1b[01K')


def number(chance, value):
    """A number as a parameter: sometimes empty, or with leading zeros."""
    kind = chance.random()
    if kind < 0.1:
        return b''
    return str(value).encode() if kind < 0.9 else b'%03d' % value


def control(chance, terminal):
    final = chance.choice(FINALS)
    if final == b'H':
        codes = [chance.randint(1, terminal.lines), chance.randint(1, terminal.columns)][:chance.choice((0, 1, 2, 2, 2))]
    elif final == b'm':
        codes = [chance.choice(CODES) for _ in range(chance.choice((0, 1, 1, 2, 3, 16)))]
    else:
        codes = [chance.randint(0, 2)][:chance.choice((0, 1, 1))]
    return b'\x1b[' + b';'.join(number(chance, code) for code in codes) + final


def item(chance, terminal):
    kind = chance.random()
    if kind < 0.5:
        return bytes([chance.randint(32, 126)])
    if kind < 0.95:
        return control(chance, terminal)
    if kind < 0.97:
        return b'\x1b[0m\x1b[2J\x1b[1;1H'
    return chance.choice(STRANGE)


def valid_stream(chance, lines, columns, count):
    """Items that each have an effect, and now and then unfinished ones."""
    terminal = Terminal(lines, columns)
    stream = b''
    for _ in range(count):
        new = item(chance, terminal)
        if terminal.read(new) is None:
            stream += new
            if not new.endswith((b'H', b'J', b'K', b'm')) and new.startswith(b'\x1b'):
                stream += b'\x1b[m'
                terminal.read(b'\x1b[m')
    return stream


def any_stream(chance, lines, columns, count):
    terminal = Terminal(lines, columns)
    return b''.join(item(chance, terminal) for _ in range(count))


def mutated(chance, stream):
    stream = bytearray(stream)
    for _ in range(chance.choice((1, 1, 3))):
        at = chance.randint(0, len(stream))
        kind = chance.randrange(4)
        if kind == 0:
            stream[at:at + 1] = bytes([chance.randrange(256)])
        elif kind == 1:
            del stream[at:at + chance.choice((1, 1, 5))]
        elif kind == 2:
            stream[at:at] = chance.choice(STRANGE)
        else:
            other = chance.randint(0, len(stream))
            stream[at:at] = stream[other:other + chance.randint(1, 20)]
    return bytes(stream)


def stream_of(chance):
    """A size and a stream."""
    lines, columns = chance.choice(((1, 1), (2, 3), (3, 7), (4, 10), (1, 100), (101, 2), (1, 999), (999, 1), (12, 12)))
    make = chance.choice((valid_stream, valid_stream, any_stream))
    stream = make(chance, lines, columns, chance.choice((2, 10, 40, 200)))
    kind = chance.random()
    if kind < 0.3:
        stream = mutated(chance, stream)
    elif kind < 0.5:
        stream = stream[:chance.randint(0, len(stream))]
    return lines, columns, stream


def rubbish(chance, lines, columns):
    """What another program left on a terminal: a stream in the profile, perhaps cut."""
    stream = valid_stream(chance, lines, columns, chance.choice((0, 5, 60)))
    end = chance.choice((len(stream), chance.randint(0, len(stream))))
    return stream[:end]
