"""Cells that are given, and lines and boxes: by hand, and by chance against a plain grid of cells."""
import os
import random
import unittest

import curspan
from curspan import Attr, Cell, Screen


class ByHand(unittest.TestCase):
    def setUp(self):
        self.screen = Screen(6, 20)
        self.window = self.screen.newwin(4, 8)

    def test_fill(self):
        self.window.attrs, self.window.background, self.window.scrolling = Attr.DIM, Cell('.', Attr.BLINK, 3), True
        self.window.move(2, 5)
        self.window.fill(1, 2, 3, 7, Cell('#', Attr.BOLD, 63))
        self.assertEqual(list(self.window), ['        ', '  ######', '  ######', '  ######'])
        self.assertEqual((self.window.inch(1, 2), self.window.inch(3, 7)), (Cell('#', Attr.BOLD, 63), Cell('#', Attr.BOLD, 63)))
        self.window.fill(0, 0, 0, 0, Cell(' '))
        self.assertEqual((self.window.inch(0, 0), self.window.getyx(), self.window.attrs), (Cell(' '), (2, 5), Attr.DIM))

    def test_put(self):
        self.window.put(3, 5, [Cell('a', Attr.BOLD), Cell(' '), Cell('~', Attr(0), 1)])
        self.assertEqual(self.window.row(3)[4:], [Cell(' '), Cell('a', Attr.BOLD), Cell(' '), Cell('~', Attr(0), 1)])
        self.window.put(0, 0, (Cell(ch) for ch in 'a text'))
        self.window.put(y=0, x=8, cells=[])
        self.window.put(1, 0, self.window.row(0))
        self.assertEqual(list(self.window), ['a text  ', 'a text  ', '        ', '     a ~'])
        self.assertEqual(self.window.getyx(), (0, 0))

    def test_a_pad_and_shared_cells(self):
        pad = self.screen.newpad(3, 9)
        pad.subpad(1, 3, 1, 4).fill(0, 0, 0, 2, Cell('x'))
        pad.vline(0, 8, '!', 5)
        self.assertEqual(list(pad), ['        !', '    xxx !', '        !'])

    def test_refusals(self):
        cell = Cell('x')
        gone = self.screen.newwin(1, 1)
        gone.delete()
        for why, call in [
            (curspan.NoSuchWindow, lambda: gone.fill(1, 0, 0, 9, Cell('\n', Attr(0), 64))),
            (curspan.BadRectangle, lambda: self.window.fill(1, 0, 0, 9, Cell('\n', Attr(0), 64))),
            (curspan.BadRectangle, lambda: self.window.fill(0, 9, 0, 8, cell)),
            (curspan.OutsideWindow, lambda: self.window.fill(0, 0, 4, 0, Cell('\n'))),
            (curspan.OutsideWindow, lambda: self.window.fill(-1, -1, -1, -1, cell)),
            (curspan.BadCharacter, lambda: self.window.fill(0, 0, 3, 7, Cell('\u0141', Attr(0), 64))),
            (curspan.BadPair, lambda: self.window.fill(0, 0, 3, 7, Cell('x', Attr(0), 65536 + 1))),
            (curspan.NoSuchWindow, lambda: gone.put(9, 9, [Cell('\n')])),
            (curspan.OutsideWindow, lambda: self.window.put(4, 0, [])),
            (curspan.OutsideWindow, lambda: self.window.put(0, 6, [cell, cell, Cell('\n')])),
            (curspan.OutsideWindow, lambda: self.window.put(0, 9, [])),
            (curspan.OutsideWindow, lambda: self.window.put(0, 0, [cell] * 2000)),
            (curspan.BadCharacter, lambda: self.window.put(0, 0, [cell, Cell('x', Attr(0), 64), Cell('\x7f')])),
            (curspan.BadPair, lambda: self.window.put(0, 0, [cell, Cell('x', Attr(0), 64)])),
            (curspan.NoSuchWindow, lambda: gone.hline('\n', 1)),
            (curspan.OutsideWindow, lambda: self.window.hline(4, 0, '-', 0)),
            (curspan.OutsideWindow, lambda: self.window.vline('|', 1, y=0, x=8)),
            (curspan.BadCharacter, lambda: self.window.hline('\n', 1)),
            (curspan.BadPair, lambda: self.window.vline('|', 1, pair=64)),
            (curspan.NoSuchWindow, gone.box),
            (curspan.BadCharacter, lambda: self.window.border(br='\n', pair=64)),
            (curspan.BadPair, lambda: self.window.box(pair=64)),
            (TypeError, lambda: self.window.fill(0, 0, 1, 1, 'x')), (TypeError, lambda: self.window.put(0, 0, 'text')),
            (TypeError, lambda: self.window.put(0, 0, 1)), (TypeError, lambda: self.window.hline('-')),
            (TypeError, lambda: self.window.hline('-', 1, y=0)), (TypeError, lambda: self.window.box('||')), (TypeError, lambda: self.window.fill()),
        ]:
            with self.subTest(why=why), self.assertRaises(why):
                call()
        self.assertEqual(list(self.window), ['        '] * 4)

    def test_lines(self):
        self.window.attrs, self.window.pair = Attr.BOLD, 5
        self.window.move(1, 6)
        self.window.hline('-', 9)
        self.window.vline(0, 0, '|', 2, Attr.REVERSE)
        self.window.hline(3, 3, '=', 0)
        self.window.hline('=', -1)
        self.window.vline(ch='!', n=1, y=3, x=3, pair=0)
        self.assertEqual(list(self.window), ['|       ', '|     --', '        ', '   !    '])
        self.assertEqual([self.window.inch(*at) for at in ((1, 7), (0, 0), (3, 3))], [Cell('-', Attr.BOLD, 5), Cell('|', Attr.REVERSE, 5), Cell('!', Attr.BOLD, 0)])
        self.assertEqual(self.window.getyx(), (1, 6))

    def test_boxes(self):
        self.window.background = Cell('.', Attr.DIM, 2)
        self.window.box()
        self.assertEqual(list(self.window), ['+------+', '|      |', '|      |', '+------+'])
        self.assertEqual((self.window.inch(0, 0), self.window.inch(1, 1)), (Cell('+', Attr.DIM, 2), Cell(' ')))
        self.window.border('1', '2', '3', '4', '5', '6', '7', ' ', Attr.BOLD, 9)
        self.assertEqual(list(self.window), ['53333336', '1      2', '1      2', '7444444.'])
        self.assertEqual(self.window.inch(3, 7), Cell('.', Attr.BOLD | Attr.DIM, 9))
        self.window.box('!', '=')
        self.assertEqual(list(self.window), ['+======+', '!      !', '!      !', '+======+'])

    def test_what_is_drawn_is_shown(self):
        self.window.new_panel()
        self.screen.update_panels()
        self.screen.doupdate()
        self.screen.take()
        self.window.fill(1, 1, 2, 3, Cell('x', Attr.BOLD))
        self.screen.update_panels()
        self.screen.doupdate()
        self.assertEqual(self.screen.take(), b'\x1b[2;2H\x1b[0;1mxxx\x1b[3;2Hxxx\x1b[0m\x1b[1;1H')


class Model:
    """A window as a plain grid of cells, in which nothing is where something is refused."""
    def __init__(self, lines, columns):
        self.rows = [[Cell(' ')] * columns for _ in range(lines)]
        self.attrs, self.pair, self.background, self.cursor = Attr(0), 0, Cell(' '), (0, 0)

    @property
    def size(self):
        return len(self.rows), len(self.rows[0])

    @staticmethod
    def faults_of(cells):
        if any(not ' ' <= cell.character <= '~' for cell in cells):
            return curspan.BadCharacter
        return curspan.BadPair if any(cell.pair > 63 for cell in cells) else None

    def fill(self, top, left, bottom, right, cell):
        if top > bottom or left > right:
            return curspan.BadRectangle
        if bottom >= self.size[0] or right >= self.size[1]:
            return curspan.OutsideWindow
        if self.faults_of([cell]):
            return self.faults_of([cell])
        for row in self.rows[top:bottom + 1]:
            row[left:right + 1] = [cell] * (right + 1 - left)

    def put(self, y, x, cells):
        if y >= self.size[0] or x + len(cells) > self.size[1]:
            return curspan.OutsideWindow
        if self.faults_of(cells):
            return self.faults_of(cells)
        self.rows[y][x:x + len(cells)] = cells

    def written(self, ch, attrs, pair):
        ch = self.background.character if ch == ' ' else ch
        pair = self.pair if pair is None else pair
        return Cell(ch, (self.attrs if attrs is None else attrs) | self.background.attrs, pair or self.background.pair)

    def draw_all(self, cells):
        """Draws (place, cell) one by one, those that are in the window."""
        fault = self.faults_of([cell for _, cell in cells[:1]])
        for (y, x), cell in cells if not fault else []:
            if y < self.size[0] and x < self.size[1]:
                self.rows[y][x] = cell
        return fault

    def hline(self, y, x, ch, n, attrs=None, pair=None):
        if y >= self.size[0] or x >= self.size[1]:
            return curspan.OutsideWindow
        return self.draw_all([((y, x + i), self.written(ch, attrs, pair)) for i in range(n)])

    def vline(self, y, x, ch, n, attrs=None, pair=None):
        if y >= self.size[0] or x >= self.size[1]:
            return curspan.OutsideWindow
        return self.draw_all([((y + i, x), self.written(ch, attrs, pair)) for i in range(n)])

    def border(self, ls, rs, ts, bs, tl, tr, bl, br, attrs=None, pair=None):
        (lines, columns), cell = self.size, lambda ch: self.written(ch, attrs, pair)
        cells = [((y, x), cell(ch)) for y in range(lines) for x, ch in ((0, ls), (columns - 1, rs))]
        cells += [((y, x), cell(ch)) for x in range(columns) for y, ch in ((0, ts), (lines - 1, bs))]
        cells += [((0, 0), cell(tl)), ((0, columns - 1), cell(tr)), ((lines - 1, 0), cell(bl)), ((lines - 1, columns - 1), cell(br))]
        return self.draw_all(cells)

    def box(self, vertch, horch, attrs=None, pair=None):
        return self.border(vertch, vertch, horch, horch, '+', '+', '+', '+', attrs, pair)


class ByChance(unittest.TestCase):
    def cell(self):
        chance = self.chance
        return Cell(chance.choice(' ab~' if chance.randrange(8) else '\x1f\x7f\u0100'), Attr(chance.randrange(64)), chance.choice([0, 1, 63, 63, 64]))

    def step(self):
        """A method with its arguments."""
        chance, (lines, columns) = self.chance, self.model.size
        y, x, n = chance.randrange(lines + 1), chance.randrange(columns + 1), chance.randrange(columns + 3)
        ink = {'attrs': chance.choice([None, Attr(chance.randrange(64))]), 'pair': chance.choice([None, 0, 1, 63, 64])}
        characters = [chance.choice(' abc~') for _ in range(8)]
        return chance.choice([
            ('fill', [y, x, chance.randrange(lines + 1), chance.randrange(columns + 1), self.cell()], {}),
            ('put', [y, x, [self.cell() for _ in range(chance.randrange(columns + 2) // 2)]], {}),
            ('hline', [y, x, chance.choice(' -='), n], ink), ('vline', [y, x, chance.choice(' |!'), n], ink),
            ('border', characters, ink), ('box', characters[:2], ink),
        ])

    def set_both(self, window):
        for name, value in (('attrs', Attr(self.chance.randrange(64))), ('pair', self.chance.randrange(64)),
                            ('background', Cell(self.chance.choice(' .'), Attr(self.chance.randrange(64)), self.chance.randrange(64)))):
            if self.chance.randrange(2):
                setattr(window, name, value)
                setattr(self.model, name, value)

    def test_a_grid(self):
        first = int(os.environ.get('CURSPAN_SEED', '1'))
        for seed in range(first, first + int(os.environ.get('CURSPAN_COUNT', '200'))):
            self.chance = random.Random(seed)
            lines, columns = self.chance.randrange(1, 6), self.chance.randrange(1, 12)
            screen, self.model = Screen(8, 20), Model(lines, columns)
            window = screen.newwin(lines, columns) if self.chance.randrange(2) else screen.newpad(lines, columns)
            for _ in range(30):
                self.set_both(window)
                name, arguments, ink = self.step()
                why = getattr(self.model, name)(*arguments, **ink)
                with self.subTest(seed=seed, call=name, arguments=arguments, ink=ink):
                    if why:
                        with self.assertRaises(why):
                            getattr(window, name)(*arguments, **ink)
                    else:
                        getattr(window, name)(*arguments, **ink)
                    self.assertEqual([window.row(y) for y in range(lines)], self.model.rows)


if __name__ == '__main__':
    unittest.main()
