"""What a stream of bytes leaves on a terminal: items one after the other, each with an effect or none."""
import re

from . import cells
from .cells import BLANK_SHOWN, PLAIN, Shown

ITEM = re.compile(rb'[ -~]|\x1b\[([0-9]{0,3}(?:;[0-9]{0,3}){0,15})([HJKm])')
UNFINISHED = re.compile(rb'\x1b(?:\[[0-9]{0,3}(?:;[0-9]{0,3}){0,15})?(?=\x1b|\Z)')

ATTRIBUTES_ON = {1: 0x01, 2: 0x02, 4: 0x04, 5: 0x08, 7: 0x10, 8: 0x20}
ATTRIBUTES_OFF = {22: 0x03, 24: 0x04, 25: 0x08, 27: 0x10, 28: 0x20}


class NoEffect(Exception):
    """The item isn't in the profile."""


class Terminal:
    """A picture, a cursor that is a place or None, and a rendition. It is blank at first."""

    def __init__(self, lines, columns):
        self.lines = lines
        self.columns = columns
        self.picture = cells.blank_picture(lines, columns)
        self.cursor = (0, 0)
        self.rendition = PLAIN

    def read(self, stream):
        """Reads a stream. Answers the offset of the first item without an effect, or None."""
        at = 0
        while at < len(stream):
            item = ITEM.match(stream, at)
            if item:
                try:
                    self.apply(item)
                except NoEffect:
                    return at
            else:
                item = UNFINISHED.match(stream, at)
                if not item:
                    return at
            at = item.end()
        return None

    def apply(self, item):
        final = item.group(2)
        if final is None:
            self.print(item.group()[0])
            return
        codes = [int(digits) if digits else None for digits in item.group(1).split(b';')]
        if final == b'H':
            self.move(codes)
        elif final == b'm':
            self.select(codes)
        else:
            self.erase(final, codes)

    def print(self, character):
        if self.cursor is None:
            raise NoEffect
        y, x = self.cursor
        self.picture[y][x] = Shown(character, self.rendition)
        self.cursor = (y, x + 1) if x + 1 < self.columns else None

    def move(self, codes):
        if len(codes) > 2:
            raise NoEffect
        line, column = [1 if code is None else code for code in codes + [None]][:2]
        if not (1 <= line <= self.lines and 1 <= column <= self.columns):
            raise NoEffect
        self.cursor = (line - 1, column - 1)

    def select(self, codes):
        rendition = self.rendition
        for code in codes:
            rendition = self.selected(rendition, code or 0)
        self.rendition = rendition

    @staticmethod
    def selected(rendition, code):
        if code == 0:
            return PLAIN
        if code in ATTRIBUTES_ON:
            return rendition._replace(attributes=rendition.attributes | ATTRIBUTES_ON[code])
        if code in ATTRIBUTES_OFF:
            return rendition._replace(attributes=rendition.attributes & ~ATTRIBUTES_OFF[code])
        if 30 <= code <= 37 or code == 39:
            return rendition._replace(foreground=None if code == 39 else code - 30)
        if 40 <= code <= 47 or code == 49:
            return rendition._replace(background=None if code == 49 else code - 40)
        raise NoEffect

    def erase(self, final, codes):
        """An erase needs the empty rendition, and a known cursor but where it is of the whole page."""
        kind = codes[0] or 0
        of_page = final == b'J'
        if len(codes) > 1 or kind > 2 or self.rendition != PLAIN or (self.cursor is None and not (of_page and kind == 2)):
            raise NoEffect
        here = self.cursor or (0, 0)
        for y in range(self.lines) if of_page else [here[0]]:
            for x in range(self.columns):
                if kind == 2 or (kind == 0 and (y, x) >= here) or (kind == 1 and (y, x) <= here):
                    self.picture[y][x] = BLANK_SHOWN
