"""What is made is given back: the memory of the process stays, whatever is done again and again. And screens of several threads."""
import gc
import importlib
import io
import os
import resource
import subprocess
import sys
import threading
import unittest

import curspan
from curspan import Attr, Cell, Screen


def refused(call, *arguments, **names):
    """A call that raises."""
    try:
        call(*arguments, **names)
    except (curspan.Error, TypeError, AttributeError, OSError, ZeroDivisionError):
        return
    raise AssertionError(f'{call} is not refused')


def screens():
    screen = Screen(24, 80, io.BytesIO())
    refused(Screen, 0, 1)
    refused(Screen, 1, 1, io.StringIO())
    screen.update_panels()
    screen.doupdate()
    str(screen), list(screen), screen.row(0), screen.windows, screen.panels, screen.stack, screen.take(), repr(screen)
    screen.close()
    refused(screen.update_panels)


def windows(screen):
    with screen.newwin(5, 20, 1, 1) as window, window.new_panel() as panel, screen.newpad(3, 3) as pad:
        window.addstr(1, 1, 'text', Attr.BOLD, pair=2)
        window.addstr(b'text')
        window.addch(0, 0, 'x', attrs=Attr.DIM)
        window.move(y=1, x=1)
        window.attrs |= Attr.BOLD
        window.background = Cell('.', Attr.BOLD, 3)
        list(window), window.row(1), window.inch(1, 1), window.inch(), window.getyx(), window.region, window.parent, window.panel, repr(window)
        panel.above(), panel.window(), screen.top_panel(), panel.hide()
        pad.pnoutrefresh(0, 0, 0, 0, 1, 1)
        refused(window.move, 5, 5)
        refused(window.move, 5)
        refused(window.move, 'x', 1)
        refused(window.move, 1, y=3)
        refused(window.addstr, 'a\tb')
        refused(window.addstr, 0, 0, 'a', Attr.BOLD, pair=70)
        refused(window.addstr, 'a', attr=1)
        refused(window.addch, 'ab')
        refused(window.overlay, 3)
        refused(window.delete)
        refused(setattr, window, 'region', 3)
        refused(setattr, window, 'pair', 70)
    refused(window.erase)


class Failing:
    def write(self, data):
        raise OSError(len(data))


def failing():
    screen = Screen(2, 2, Failing())
    refused(screen.doupdate)
    refused(screen.doupdate)


class Memory(unittest.TestCase):
    def holds(self, job, *arguments):
        """After many turns there are as many blocks of memory as after some."""
        def blocks(turns):
            for _ in range(turns):
                job(*arguments)
            gc.collect()
            return sys.getallocatedblocks(), sys.gettotalrefcount() if hasattr(sys, 'gettotalrefcount') else 0
        blocks(200)
        before = blocks(10)
        after = blocks(1000)
        self.assertLess(after[0] - before[0], 500)
        self.assertLess(after[1] - before[1], 500)

    def test_screens(self):
        self.holds(screens)

    def test_windows(self):
        self.holds(windows, Screen(24, 80))

    def test_what_the_library_takes(self):
        """A screen of 500 by 500 takes megabytes."""
        def resident():
            with open('/proc/self/statm', encoding='ascii') as file:
                return int(file.read().split()[1]) * resource.getpagesize()
        Screen(500, 500).update_panels()
        before = resident()
        for turn in range(40):
            screen = Screen(500, 500)
            screen.update_panels()
            if turn % 2:
                screen.close()
        self.assertLess(resident() - before, 2e7)

    def test_failing_files(self):
        self.holds(failing)


class Threads(unittest.TestCase):
    def test_threads_of_one_screen(self):
        """Each call is whole: Python runs one at a time."""
        screen, failures = Screen(50, 20), []

        def work(y):
            try:
                window = screen.newwin(1, 20, y, 0)
                panel = window.new_panel()
                for turn in range(300):
                    window.addstr(0, 0, f'{y:02} {turn:03}')
                    panel.top()
                    if turn % 50 == 0:
                        screen.update_panels()
                        screen.doupdate()
            except BaseException as failure:
                failures.append(failure)
        threads = [threading.Thread(target=work, args=(y,)) for y in range(40)]
        interval = sys.getswitchinterval()
        sys.setswitchinterval(1e-5)
        try:
            for thread in threads:
                thread.start()
            for thread in threads:
                thread.join()
        finally:
            sys.setswitchinterval(interval)
        screen.update_panels()
        self.assertEqual(failures, [])
        self.assertEqual([line.rstrip() for line in screen][:40], [f'{y:02} 299' for y in range(40)])


class Interpreters(unittest.TestCase):
    def test_another_interpreter(self):
        """One interpreter of a process imports it, and another one is told so."""
        try:
            interpreters = importlib.import_module('_interpreters' if sys.version_info >= (3, 13) else '_xxsubinterpreters')
        except ImportError:
            self.skipTest('this Python has no module for interpreters')
        reading, writing = os.pipe()
        script = (f'import os, sys\nsys.path[:] = {sys.path!r}\ntry:\n    import curspan\n    said = "imported"\n'
                  f'except ImportError as why:\n    said = str(why)\nos.write({writing}, said.encode())')
        interpreter = interpreters.create()
        try:
            interpreters.run_string(interpreter, script)
            self.assertIn(b'interpreter', os.read(reading, 1000))
        finally:
            interpreters.destroy(interpreter)
            os.close(reading)
            os.close(writing)


class Importing(unittest.TestCase):
    def test_importing_anew(self):
        """A program may drop the package and import it again."""
        script = 'import curspan, sys\nfor name in [it for it in sys.modules if it.startswith("curspan")]: del sys.modules[name]\nimport curspan\n' \
                 'screen = curspan.Screen(2, 9)\nscreen.stdscr.addstr("x", curspan.Attr.BOLD)\nassert screen.stdscr.inch(0, 0) == curspan.Cell("x", curspan.Attr.BOLD)\n' \
                 'try: screen.stdscr.move(9, 9)\nexcept curspan.OutsideWindow: print("well")\n'
        done = subprocess.run([sys.executable, '-B', '-c', script], cwd='/', capture_output=True, text=True, check=False)
        self.assertEqual((done.stdout, done.stderr), ('well\n', ''))


if __name__ == '__main__':
    unittest.main()
