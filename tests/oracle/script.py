"""Reading a script: what each line says, or its first fault."""
import re
from typing import NamedTuple

from .calls import CALLS

LONGEST_LINE = 512
GREATEST_NUMBER = 65535
GREATEST_SIGNED = 32767
ALL_ATTRIBUTES = 0x3f

TOO_LONG = 'line too long'
BAD_BYTE = 'bad byte'
UNKNOWN_CALL = 'unknown call'
WRONG_COUNT = 'wrong number of arguments'
BAD_ARGUMENT = 'bad argument'

ESCAPES = {b'n': 10, b'r': 13, b'b': 8, b'\\': 92}


class Fault(NamedTuple):
    """A fault of a line, and the column from 1 where it is."""
    kind: str
    column: int


class Call(NamedTuple):
    """A call that a line says."""
    word: str
    arguments: list


class IllFormed(Exception):
    """The argument lacks its form."""


def unsigned(word, greatest=GREATEST_NUMBER):
    if not re.fullmatch(rb'0|[1-9][0-9]{0,4}', word) or int(word) > greatest:
        raise IllFormed
    return int(word)


def signed(word):
    if not word.startswith(b'-'):
        return unsigned(word, GREATEST_SIGNED)
    if word == b'-0':
        raise IllFormed
    return -unsigned(word[1:], GREATEST_SIGNED)


def attributes(word):
    if not re.fullmatch(rb'[0-9a-f]{2}', word) or int(word, 16) > ALL_ATTRIBUTES:
        raise IllFormed
    return int(word, 16)


def flag(word):
    if word not in (b'on', b'off'):
        raise IllFormed
    return word == b'on'


def text(word):
    """The bytes of a text, its escapes read."""
    said = bytearray()
    for piece in re.findall(rb'\\x[0-9a-f]{2}|\\[nrb\\]|[^\\]|\\', word):
        if piece == b'\\':
            raise IllFormed
        if piece.startswith(b'\\x'):
            said.append(int(piece[2:], 16))
        else:
            said.append(ESCAPES[piece[1:]] if len(piece) == 2 else piece[0])
    return bytes(said)


def character(word):
    said = text(word)
    if len(said) != 1:
        raise IllFormed
    return said


def number_or_none(word):
    return None if word == b'none' else unsigned(word)


READERS = {'number': unsigned, 'signed': signed, 'attributes': attributes, 'flag': flag, 'text': text, 'character': character,
           'number_or_none': number_or_none}


def pieces_of(line, forms):
    """The words of a line after its call. A text or a character is all that is left after the space before it."""
    if forms and forms[-1] in ('text', 'character'):
        return line.split(b' ', len(forms))[1:]
    return line.split(b' ')[1:]


def is_stray(piece):
    """Whether an argument is none, or would begin a comment, here or in other languages. One as #f00 has a digit, and begins none."""
    begins = piece.startswith(b'#') and not re.search(rb'[0-9]', piece)
    return piece in (b'', b'--') or begins or piece.startswith((b'//', b'/*', b'<!--'))


def has_form(form, piece):
    try:
        READERS[form](piece)
    except IllFormed:
        return False
    return True


def misplaced(line, forms, pieces, starts):
    """The column of the first argument without its form, if arguments are missing, or if it is a word in place of digits, in a line that has
    some."""
    for form, piece, start in zip(forms, pieces, starts):
        if not has_form(form, piece):
            is_word = form not in ('flag', 'text', 'character') and not re.search(rb'[0-9]', piece) and re.search(rb'[0-9]', line)
            return start if is_word or len(pieces) < len(forms) else None
    return None


def bytes_before(form, piece):
    """How many bytes of an argument without its form are before its fault: those of a text before the backslash that begins no escape."""
    return re.match(rb'(?:\\x[0-9a-f]{2}|\\[nrb\\]|[^\\])*', piece).end() if form == 'text' else 0


def read_line(line):
    """What a line without its newline says: a Call, None for nothing, or a Fault."""
    if len(line) > LONGEST_LINE:
        return Fault(TOO_LONG, LONGEST_LINE + 1)
    bad = re.search(rb'[^ -~]', line)
    if bad:
        return Fault(BAD_BYTE, bad.start() + 1)
    if line == b'' or line.startswith(b'#'):
        return None
    word = line.split(b' ')[0]
    if word.decode() not in CALLS:
        return Fault(UNKNOWN_CALL, 1)
    forms, _ = CALLS[word.decode()]
    pieces = pieces_of(line, forms)
    starts = [len(word) + 2]
    for piece in pieces:
        starts.append(starts[-1] + len(piece) + 1)
    if len(pieces) != len(forms):
        strays = [start for piece, start in zip(pieces, starts) if is_stray(piece)]
        misplaced_at = misplaced(line, forms, pieces, starts)
        return Fault(WRONG_COUNT, strays[0] if strays else misplaced_at or starts[min(len(forms), len(pieces))])
    said = []
    for form, piece, start in zip(forms, pieces, starts):
        try:
            said.append(READERS[form](piece))
        except IllFormed:
            return Fault(BAD_ARGUMENT, start + bytes_before(form, piece))
    return Call(word.decode(), said)


def lines_of(script):
    """The lines of a script. What comes after the last newline is a line where it isn't empty."""
    lines = script.split(b'\n')
    return lines[:-1] if lines[-1] == b'' else lines


def faults_of(script):
    """The number of each faulty line, from 1, and its fault."""
    said = [(number, read_line(line)) for number, line in enumerate(lines_of(script), 1)]
    return [(number, fault) for number, fault in said if isinstance(fault, Fault)]
