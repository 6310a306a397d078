"""Screens: opening and closing them, the files that they write to, and their text."""
import errno
import io
import os
import tempfile
import unittest

import curspan
from curspan import Attr, Color, Screen


class Failing:
    """A file that takes so many bytes, and then fails."""

    def __init__(self, most):
        self.most, self.took = most, b''

    def write(self, data):
        data = data[:self.most - len(self.took)]
        if not data:
            raise OSError(errno.EPIPE, 'nobody reads')
        self.took += data
        return len(data)


class Pieces(io.RawIOBase):
    """A raw file that takes three bytes at a time, and can have nothing to give."""

    def __init__(self, blocks=False):
        super().__init__()
        self.took, self.blocks = b'', blocks

    def writable(self):
        return True

    def write(self, data):
        self.took += data[:3]
        return None if self.blocks else len(data[:3])


def hello(screen):
    screen.stdscr.addstr(0, 0, 'hello')
    screen.update_panels()


class Opening(unittest.TestCase):
    def test_size(self):
        screen = Screen(24, columns=80)
        self.assertEqual((screen.lines, screen.columns, screen.closed, screen.file), (24, 80, False, None))
        for size in ((0, 80), (24, 0), (1000, 80), (24, 1000), (-1, 80), (24, 2**70)):
            with self.subTest(size=size), self.assertRaises(curspan.BadSize):
                Screen(*size)
        for wrong in ((), (24,), (24.0, 80), ('24', 80), (24, 80, None, 1)):
            with self.subTest(wrong=wrong), self.assertRaises(TypeError):
                Screen(*wrong)

    def test_closing(self):
        with Screen(3, 10) as screen:
            window = screen.newwin(2, 2)
            panel = window.new_panel()
        self.assertTrue(screen.closed)
        screen.close()
        for call in (screen.update_panels, screen.doupdate, screen.take, screen.invalidate, screen.newwin, screen.top_panel, screen.__enter__,
                     lambda: str(screen), lambda: list(screen), lambda: screen.windows, lambda: screen.panels, lambda: screen.stack,
                     window.erase, window.delete, window.getyx, lambda: list(window), lambda: window.row(0), lambda: window.attrs,
                     lambda: window.addstr('x'), lambda: window.addstr(0, 0, 'x', Attr.BOLD), panel.hide, panel.delete, panel.window):
            with self.subTest(call=call), self.assertRaises(curspan.Closed) as raised:
                call()
            self.assertEqual(str(raised.exception), 'the screen is closed')
        self.assertEqual([repr(it) for it in (screen, window, panel)],
                         ['<curspan.Screen, closed>', '<curspan.Window, closed>', '<curspan.Panel, closed>'])

    def test_what_cannot_be_made(self):
        for kind in (curspan.Window, curspan.Pad, curspan.Panel):
            with self.subTest(kind=kind), self.assertRaises(TypeError):
                kind()
            with self.subTest(kind=kind), self.assertRaises(TypeError):
                object.__new__(kind)
        with self.assertRaises(TypeError):
            type('Other', (Screen,), {})

    def test_exceptions(self):
        self.assertTrue(issubclass(curspan.OutsideWindow, curspan.Refusal) and issubclass(curspan.Refusal, curspan.Error))
        self.assertTrue(issubclass(curspan.NoMemory, MemoryError))
        self.assertEqual(curspan.OutsideWindow.status, 5)
        self.assertEqual(curspan.OutsideWindow.__module__, 'curspan')


class Files(unittest.TestCase):
    def test_without_a_file(self):
        screen = Screen(1, 8)
        hello(screen)
        count = screen.doupdate()
        self.assertEqual(len(screen.take()), count)
        self.assertEqual(screen.take(), b'')

    def test_with_one(self):
        wanted = Screen(1, 8)
        hello(wanted)
        wanted.doupdate()
        file = io.BytesIO()
        screen = Screen(1, 8, file)
        self.assertIs(screen.file, file)
        hello(screen)
        self.assertEqual(screen.doupdate(), len(file.getvalue()))
        self.assertEqual(file.getvalue(), wanted.take())
        self.assertEqual(screen.take(), b'')

    def test_a_real_one(self):
        with tempfile.TemporaryDirectory() as work:
            for buffering in (0, -1):
                path = os.path.join(work, str(buffering))
                with open(path, 'wb', buffering) as file:
                    screen = Screen(1, 8, file=file)
                    hello(screen)
                    count = screen.doupdate()
                    self.assertEqual(os.path.getsize(path), count)     # it is flushed

    def test_text_files_are_refused(self):
        for file in (io.StringIO(), io.TextIOWrapper(io.BytesIO())):
            with self.assertRaisesRegex(TypeError, 'a file of bytes is wanted, as sys.stdout.buffer'):
                Screen(1, 8, file)
        with self.assertRaisesRegex(TypeError, 'no write'):
            Screen(1, 8, 3)

    def test_a_file_that_fails(self):
        whole = io.BytesIO()
        screen = Screen(2, 20, whole)
        hello(screen)
        screen.doupdate()
        for most in range(len(whole.getvalue())):
            file = Failing(most)
            screen = Screen(2, 20, file)
            hello(screen)
            with self.assertRaisesRegex(OSError, 'nobody reads'):
                screen.doupdate()
            self.assertEqual(file.took, whole.getvalue()[:most])
            file.most = 1000
            screen.stdscr.addstr(1, 0, 'more')
            screen.update_panels()
            screen.doupdate()
            self.assertEqual(file.took[most:], self.from_nothing('hello', 'more'))

    def from_nothing(self, *lines):
        """What a new screen sends that has some lines, and its cursor where the last one ends."""
        screen = Screen(2, 20)
        for y, line in enumerate(lines):
            screen.stdscr.addstr(y, 0, line)
        screen.update_panels()
        screen.doupdate()
        return screen.take()

    def test_writes_of_a_part(self):
        file = Pieces()
        screen = Screen(2, 20, file)
        hello(screen)
        screen.doupdate()
        self.assertEqual(file.took, self.from_nothing('hello'))
        screen = Screen(2, 20, Pieces(blocks=True))
        hello(screen)
        with self.assertRaises(BlockingIOError):
            screen.doupdate()

    def test_answers_that_no_write_gives(self):
        for answer in (0, -1, 10**6, 'x'):
            file = type('File', (), {'write': lambda self, data, answer=answer: answer})()
            screen = Screen(2, 20, file)
            hello(screen)
            with self.subTest(answer=answer), self.assertRaises((OSError, TypeError)):
                screen.doupdate()

    def test_a_file_that_closes_the_screen(self):
        screens = []
        file = type('File', (), {'write': lambda self, data: screens[0].close()})()
        screens.append(Screen(2, 20, file))
        hello(screens[0])
        screens[0].doupdate()
        self.assertTrue(screens[0].closed)

    def test_invalidate(self):
        screen = Screen(2, 20)
        hello(screen)
        screen.doupdate()
        first = screen.take()
        screen.doupdate()
        screen.take()
        screen.invalidate()
        screen.doupdate()
        self.assertEqual(screen.take(), first)


class Texts(unittest.TestCase):
    def test_picture(self):
        screen = Screen(3, 10)
        screen.init_pair(1, Color.WHITE, Color.BLUE)
        screen.stdscr.addstr(0, 0, 'desk')
        window = screen.newwin(2, 4, 1, 2)
        window.addstr(0, 0, 'ab', Attr.BOLD | Attr.REVERSE, pair=1)
        panel = window.new_panel()
        self.assertEqual(str(screen), '|desk      |\n|  ab      |\n:00001111' + '00' * 6 + '\n%----7474' + '--' * 6 + '\n|          |\ncursor 1 4\nrendition 00')
        panel.hide()
        self.assertEqual(str(screen).splitlines()[-2], 'cursor 0 4')
        self.assertEqual(repr(screen), '<curspan.Screen, 3 by 10>')

    def test_virtual_screen(self):
        screen = Screen(2, 6)
        screen.init_pair(2, 1, 2)
        screen.stdscr.addstr(1, 1, 'hi', Attr.DIM, pair=2)
        self.assertEqual(list(screen), [' ' * 6] * 2)
        screen.update_panels()
        self.assertEqual(list(screen), [' ' * 6, ' hi   '])
        self.assertEqual(screen.line(1), ' hi   ')
        self.assertEqual(screen.row(1)[:2], [curspan.Shown(' '), curspan.Shown('h', Attr.DIM, Color.RED, Color.GREEN)])
        for y in (2, -1, 2**40):
            with self.assertRaises(curspan.OutsideWindow):
                screen.row(y)

    def test_what_there_is(self):
        screen = Screen(9, 9)
        windows = [screen.stdscr, screen.newwin(2, 2), screen.newpad(2, 2), screen.newwin(3, 3)]
        self.assertEqual(screen.windows, windows)
        self.assertIsInstance(screen.windows[2], curspan.Pad)
        panels = [windows[3].new_panel(), windows[1].new_panel()]
        panels[0].top()
        self.assertEqual(screen.panels, panels)
        self.assertEqual(screen.stack, panels[::-1])
        self.assertIs(screen.top_panel(), panels[0])
        self.assertIs(screen.bottom_panel(), panels[1])
        panels[0].hide()
        self.assertEqual((screen.panels, screen.stack), (panels, [panels[1]]))
        panels[1].hide()
        self.assertEqual((screen.top_panel(), screen.bottom_panel(), screen.stack), (None, None, []))


if __name__ == '__main__':
    unittest.main()
