"""The text of a picture, as paint and show print it."""
from .cells import PLAIN


def hexadecimal(attributes):
    return f'{attributes:02x}'


def sign(colour):
    return '-' if colour is None else str(colour)


def signs(rendition):
    return sign(rendition.foreground) + sign(rendition.background)


def line_text(line):
    """A line's characters, and its attributes and its colours where some cell has one."""
    texts = ['|' + ''.join(chr(cell.character) for cell in line) + '|']
    if any(cell.rendition.attributes for cell in line):
        texts.append(':' + ''.join(hexadecimal(cell.rendition.attributes) for cell in line))
    if any(cell.rendition.has_colour() for cell in line):
        texts.append('%' + ''.join(signs(cell.rendition) for cell in line))
    return texts


def picture_text(picture, cursor, rendition=PLAIN):
    """The cursor is a place, or None where it is unknown."""
    texts = [text for line in picture for text in line_text(line)]
    texts.append('cursor unknown' if cursor is None else f'cursor {cursor[0]} {cursor[1]}')
    texts.append('rendition ' + hexadecimal(rendition.attributes) + (' ' + signs(rendition) if rendition.has_colour() else ''))
    return '\n'.join(texts) + '\n'
