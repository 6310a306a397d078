"""Terminals in pseudoterminals: keys and pasted texts as values, what waits where a terminal takes no bytes, what one
descriptor tells of, and how terminals are given back. A test that hangs ends all."""
import asyncio
import contextlib
import faulthandler
import os
import pty
import select
import signal
import subprocess
import sys
import termios
import threading
import time
import unittest

import curspan
from curspan import Key, Paste, Terminal

SECONDS = 60
PASTED = b'\x1b[200~%b\x1b[201~'
# A handler closes the terminal after some seconds, in a long paste.
CLOSING = """import curspan, os, pty, signal, sys, threading
master, slave = pty.openpty()
terminal, length = curspan.Terminal(slave, signals=False), 1000000
def type(data):
    while data: data = data[os.write(master, data[:4000]):]
signal.signal(signal.SIGALRM, lambda *_: terminal.close())
text = b'\\x1b[200~' + b'x' * length + b'\\x1b[201~'
threading.Thread(target=type, args=(text,), daemon=True).start()
signal.setitimer(signal.ITIMER_REAL, float(sys.argv[1]) or 0.001)
try: said = 'whole' if getattr(terminal.key(5), 'text', '') == 'x' * length else 'other'
except curspan.TerminalError: said = 'closed'
print(said)
"""


class Over(unittest.TestCase):
    """A terminal that nobody reads, unless that is begun."""

    def setUp(self):
        faulthandler.dump_traceback_later(SECONDS, exit=True)
        self.addCleanup(faulthandler.cancel_dump_traceback_later)
        os.environ['TERM'] = 'xterm'
        self.master, self.slave = pty.openpty()
        self.addCleanup(os.close, self.slave)
        self.addCleanup(os.close, self.master)
        termios.tcsetwinsize(self.slave, (200, 200)) if hasattr(termios, 'tcsetwinsize') else self.set_size(200, 200)
        self.modes = termios.tcgetattr(self.slave)
        self.came = b''

    def set_size(self, lines, columns):
        subprocess.run(['stty', 'rows', str(lines), 'cols', str(columns)], stdin=self.slave, check=True)

    def read(self):
        """Reads what comes, until nothing does for a while."""
        while select.select([self.master], [], [], 0.2)[0]:
            self.came += os.read(self.master, 65536)
        return self.came

    def is_given_back(self):
        return termios.tcgetattr(self.slave) == self.modes

    def type(self, data):
        while data:
            data = data[os.write(self.master, data[:2000]):]


class Keys(Over):
    def test_keys_compare_with_their_names(self):
        with Terminal(self.slave) as terminal:
            self.type(b'q\x1b[A\x1b[1;5C\x01')
            keys = [terminal.key(5) for _ in range(4)]
        self.assertEqual(keys, ['q', 'up', 'ctrl+right', 'ctrl+a'])
        self.assertEqual(keys[1], Key.UP)
        self.assertEqual({'up': -1}.get(keys[1]), -1)
        self.assertEqual([type(it) for it in keys], [Key] * 4)
        self.assertEqual(keys[2].sent, b'\x1b[1;5C')
        self.assertFalse(hasattr(Key, 'PGUP'))

    def test_a_pasted_text_is_no_key(self):
        """Also where it is the text of one."""
        with Terminal(self.slave) as terminal:
            for text in ('q', 'up', 'ctrl+c', 'escape', ''):
                self.type(PASTED % text.encode())
                pasted = terminal.key(5)
                self.assertNotEqual(pasted, text)
                self.assertNotIn(pasted, (text, Key(text)))
                self.assertIsNone({text: 1}.get(pasted))
                self.assertEqual((pasted, pasted.text, pasted.ended, bool(pasted)), (Paste(text), text, True, True))

    def test_bytes_make_no_event(self):
        with Terminal(self.slave) as terminal:
            for last in (0x80, 0x81, 0x82, 0x84, 0x85, 0x86):
                self.type(bytes([0xf4, 0x90, 0x80, last]))
                self.assertEqual([terminal.key(5) for _ in range(4)], [Key.UNKNOWN] * 4)
            self.type(b'\x1b[9z')
            self.assertEqual(terminal.key(5).sent, b'\x1b[9z')

    def test_a_long_paste_cuts_no_character(self):
        text = 'x' + 'é' * 800000
        with Terminal(self.slave) as terminal:
            thread = threading.Thread(target=self.type, args=(PASTED % text.encode(),))
            thread.start()
            parts = [terminal.key(10)]
            while not parts[-1].ended:
                parts.append(terminal.key(10))
            thread.join()
        self.assertGreater(len(parts), 1)
        self.assertEqual(''.join(it.text for it in parts), text)

    def test_a_handler_closes_the_terminal_in_a_paste(self):
        """What was pasted is copied before handlers of signals run."""
        begun = [subprocess.Popen([sys.executable, '-B', '-c', CLOSING, str(0.01 * i)], stdout=subprocess.PIPE)
                 for i in range(6)]
        for process in begun:
            self.assertRegex(process.communicate()[0], rb'^(closed|whole)\n$')
            self.assertEqual(process.returncode, 0)

    @unittest.skipIf(sys.version_info < (3, 10), 'there is no match')
    def test_match(self):
        names = {'curspan': curspan}
        exec('def name(key):\n    match key:\n        case curspan.Key.UP: return "up"\n        case "q": return "q"\n'
             '        case curspan.Paste(text, True): return "pasted " + text\n'
             '        case curspan.Key(): return "key"',
             names)
        self.assertEqual([names['name'](it) for it in (Key('up'), Key('q'), Paste('q'), Key('x'), None)],
                         ['up', 'q', 'pasted q', 'key', None])

    def test_timeouts(self):
        with Terminal(self.slave) as terminal:
            with self.assertRaises(ValueError):
                terminal.key(float('nan'))
            for timeout in (0, -1, -1e300, float('-inf')):
                self.assertIsNone(terminal.key(timeout))
            for timeout in (1e300, float('inf'), None):
                self.type(b'x')
                self.assertEqual(terminal.key(timeout), 'x')


class OneDescriptor(Over):
    def is_ready(self, terminal, seconds=0.0):
        return bool(select.select([terminal], [], [], seconds)[0])

    def test_a_second_key_and_a_new_size(self):
        with Terminal(self.slave, signals=False) as terminal:
            self.assertFalse(self.is_ready(terminal))
            self.type(b'a\x1b[A')
            self.assertTrue(self.is_ready(terminal, 5))
            self.assertEqual(terminal.key(0), 'a')
            self.assertTrue(self.is_ready(terminal))
            self.assertEqual(terminal.key(0), 'up')
            self.assertIsNone(terminal.key(0))
            self.set_size(10, 20)
            self.assertTrue(self.is_ready(terminal, 5))
            self.assertEqual(terminal.key(0), Key.RESIZE)

    def test_zero_does_not_wait(self):
        with Terminal(self.slave) as terminal:
            for begun, key in ((b'\x1b', Key.ESCAPE), (b'\x1b[200~half', Paste('half', False))):
                self.type(begun)
                begin, keys = time.monotonic(), []
                while not keys:
                    self.assertTrue(self.is_ready(terminal, 5))
                    before = time.monotonic()
                    keys = [it for it in [terminal.key(0)] if it]
                    self.assertLess(time.monotonic() - before, 0.05)
                self.assertEqual(keys, [key])
                self.assertGreater(time.monotonic() - begin, 0.09)

    def test_asyncio(self):
        async def keys(terminal):
            return [key async for key in terminal]

        async def ticks():
            for _ in range(5):
                await asyncio.sleep(0.02)
            self.type(b'a\x1b[A' + PASTED % b'q')
            await asyncio.sleep(0.1)
            os.close(self.master)
            self.master = os.open(os.devnull, os.O_RDONLY)

        async def both(terminal):
            return (await asyncio.gather(keys(terminal), ticks()))[0]

        terminal = Terminal(self.slave)
        self.assertEqual(asyncio.run(asyncio.wait_for(both(terminal), 10)), ['a', 'up', Paste('q')])
        with self.assertRaises(OSError):
            terminal.close()


class Stalls(Over):
    """The terminal takes some thousand bytes, and then none."""

    @contextlib.contextmanager
    def reader(self):
        thread = threading.Thread(target=self.read)
        thread.start()
        yield
        thread.join()

    def draw(self, terminal, ch):
        screen = terminal.screen()
        for y in range(screen.lines):
            screen.stdscr.addstr(y, 0, ch * screen.columns)
        screen.update_panels()
        return screen

    def is_interrupted(self, call, *arguments):
        """Whether another thread runs meanwhile, and SIGINT ends it at once."""
        turns, sent = [], []

        def beat():
            for _ in range(10):
                time.sleep(0.02)
                turns.append(time.monotonic())
            sent.append(time.monotonic())
            os.kill(os.getpid(), signal.SIGINT)
        before = signal.signal(signal.SIGINT, signal.default_int_handler)
        thread = threading.Thread(target=beat)
        begin = time.monotonic()
        try:
            thread.start()
            call(*arguments)
        except KeyboardInterrupt:
            self.assertLess(time.monotonic() - sent[0], 1)
            self.assertGreater(len([it for it in turns if it > begin]), 5)
        else:
            self.fail(f'{call} is not interrupted')
        finally:
            thread.join()
            signal.signal(signal.SIGINT, before)

    def test_doupdate(self):
        terminal = Terminal(self.slave)
        self.is_interrupted(self.draw(terminal, 'a').doupdate)
        self.is_interrupted(self.draw(terminal, 'b').doupdate)
        with self.reader():
            self.draw(terminal, 'b').doupdate()
            terminal.close()
        self.assertEqual((self.came.count(b'a'), self.came.count(b'b')), (200 * 200, 200 * 200))
        self.assertTrue(self.came.endswith(b'\x1b[?1049l'))
        self.assertTrue(self.is_given_back())

    def test_write(self):
        terminal = Terminal(self.slave)
        self.is_interrupted(terminal.write, b'x' * 100000)
        with self.reader():
            self.assertEqual(terminal.write(b'y'), 1)
            terminal.close()
        self.assertEqual((self.came.count(b'x'), self.came.count(b'y')), (100000, 1))

    def test_suspend_and_close(self):
        for name in ('suspend', 'close'):
            with self.subTest(name=name):
                terminal = Terminal(self.slave)
                self.is_interrupted(self.draw(terminal, 'a').doupdate)
                self.is_interrupted(getattr(terminal, name))
                self.assertTrue(self.is_given_back())
                with self.reader():
                    terminal.close()
                self.assertTrue(terminal.closed)

    def test_with(self):
        """Where an exception is on its way, the end of `with` waits no longer than a second."""
        begin = time.monotonic()
        with self.assertRaises(KeyboardInterrupt), Terminal(self.slave) as terminal:
            screen = self.draw(terminal, 'a')
            threading.Timer(0.2, os.kill, (os.getpid(), signal.SIGINT)).start()
            screen.doupdate()
        self.assertLess(time.monotonic() - begin, 5)
        self.assertTrue(terminal.closed and self.is_given_back())


class GivenBack(Over):
    def run_script(self, script, size=65536):
        """Runs a script over the terminal, of which so many bytes are read at a time."""
        words = [sys.executable, '-B', '-c', script]
        process = subprocess.Popen(words, stdout=self.slave, stderr=self.slave, pass_fds=[self.slave],
                                   env={**os.environ, 'NO_COLOR': '1'})
        self.came = b''
        while process.poll() is None:
            if select.select([self.master], [], [], 0.01)[0]:
                self.came += os.read(self.master, size)
        self.read()
        self.assertTrue(self.is_given_back())

    def test_the_page_is_left_at_exit(self):
        """Also without `with`, and where the terminal is slow."""
        self.run_script(f'import curspan\nterminal = curspan.Terminal({self.slave})\nterminal.write(b"x" * 40000)', 500)
        self.assertEqual(self.came.count(b'x'), 40000)
        self.assertTrue(self.came.endswith(b'\x1b[?1049l'))

    def test_another_thread_drops_it(self):
        kept = [Terminal(self.slave)]
        thread = threading.Thread(target=kept.clear)
        thread.start()
        thread.join()
        self.assertTrue(self.is_given_back())
        self.assertTrue(self.read().endswith(b'\x1b[?1049l'))
        Terminal(self.slave).close()

    def test_another_thread_closes_it(self):
        """But not while its own thread waits in a call."""
        terminal, told = Terminal(self.slave), []

        def close():
            try:
                terminal.close()
            except curspan.TerminalError as error:
                told.append(str(error))
        thread = threading.Timer(0.1, close)
        thread.start()
        self.assertIsNone(terminal.key(0.5))
        thread.join()
        self.assertEqual(told, ['another thread opened the terminal'])
        thread = threading.Thread(target=close)
        thread.start()
        thread.join()
        self.assertTrue(terminal.closed and self.is_given_back())

    def test_an_exception_is_told_after_the_page(self):
        """Also without `with`, and by the hook that was there, which is there again where the terminal is closed."""
        script = ('import curspan, sys\nbefore = sys.excepthook\n{}\nterminal = curspan.Terminal({})\n'
                  'terminal.screen().doupdate()\n{}')
        own = 'def told(*what): print("told by", what[0].__name__, flush=True)\nsys.excepthook = before = told'
        for hook, end, text in (('', 'raise ValueError("who reads this")', b'ValueError: who reads this'),
                                (own, 'raise ValueError', b'told by ValueError'),
                                ('', 'terminal.close()\nprint(sys.excepthook is before)', b'True')):
            with self.subTest(end=end):
                self.run_script(script.format(hook, self.slave, end))
                self.assertGreater(self.came.find(text), self.came.find(b'\x1b[?1049l'))
                self.assertGreater(self.came.find(b'\x1b[?1049l'), 0)
                self.assertEqual(self.came.count(text), 1)


if __name__ == '__main__':
    unittest.main()
