"""The programs of examples/python, typed at on a terminal of tmux."""
import os
import pathlib
import subprocess
import sys
import tempfile
import time
import unittest

ROOT = pathlib.Path(__file__).resolve().parent.parent.parent
SECONDS = 20


class Terminal:
    """A terminal of 24 lines of 80 columns that runs a program of the examples."""

    def __init__(self, work, *words):
        self.tmux = ['tmux', '-S', os.path.join(work, 'tmux'), '-f', '/dev/null']
        command = ' '.join(["env", f"PYTHONPATH='{os.environ.get('PYTHONPATH', '')}'", sys.executable, '-B', *words])
        self.run('new-session', '-d', '-x', '80', '-y', '24', f'{command}; echo "status $?"; exec sleep 100')

    def run(self, *words):
        return subprocess.run([*self.tmux, *words], capture_output=True, text=True, check=True).stdout

    def picture(self):
        return self.run('capture-pane', '-p')

    def wait(self, *texts, gone=None):
        """Waits until the terminal shows some texts, and one no more, and answers its picture."""
        end = time.monotonic() + SECONDS
        while True:
            picture = self.picture()
            if all(text in picture for text in texts) and (gone is None or gone not in picture):
                return picture
            if time.monotonic() > end:
                raise AssertionError(f'{texts} never came, or {gone} stayed:\n{picture}')
            time.sleep(0.05)

    def type(self, *keys):
        for key in keys:
            self.run('send-keys', key)
            time.sleep(0.05)

    def close(self):
        self.run('kill-server')


class Examples(unittest.TestCase):
    def start(self, name, *words):
        work = tempfile.TemporaryDirectory()
        self.addCleanup(work.cleanup)
        terminal = Terminal(work.name, str(ROOT / 'examples/python' / name), *words)
        self.addCleanup(terminal.close)
        return terminal

    def test_installer(self):
        terminal = self.start('installer.py')
        terminal.wait('Welcome', '[ Yes ]')
        terminal.type('Enter')
        terminal.wait('What is installed', '[x] the program', '6 MB in all')
        terminal.type('Down', 'Space')
        picture = terminal.wait('[ ] the library for C', '4 MB in all')
        self.assertIn('Curspan', picture)
        terminal.type('Enter')
        terminal.wait('Installing', '%')
        terminal.wait('Done', '2 parts are installed.')
        terminal.type('Enter')
        terminal.wait('status 0', gone='Done')

    def test_installer_that_is_ended(self):
        terminal = self.start('installer.py')
        terminal.wait('[ Yes ]')
        terminal.type('Enter')
        terminal.wait('MB in all')
        terminal.type('Enter')
        terminal.wait('Installing')
        terminal.type('Escape')
        terminal.wait('End all the same?')
        terminal.type('y')
        terminal.wait('status 1')

    def test_monitor(self):
        terminal = self.start('monitor.py')
        picture = terminal.wait('load', 'MiB are used', 'memory of processes', 'MiB  ')
        self.assertIn('highest', picture)
        terminal.type('Down', 'Up', 'q')
        terminal.wait('status 0')

    def test_monitor_that_is_interrupted(self):
        terminal = self.start('monitor.py')
        terminal.wait('MiB are used')
        terminal.type('C-c')
        terminal.wait('status 130')

    def test_editor(self):
        with tempfile.NamedTemporaryFile('w+', suffix='.txt') as file:
            file.write('first line\nsecond caf\u00e9 line\n')
            file.flush()
            terminal = self.start('editor.py', file.name)
            terminal.wait('first line', 'second caf? line', '1:1')
            terminal.type('End', '!', 'Enter', 'x', 'y', 'BSpace', 'Down', 'Home', 'DC', 'Right', 'z')
            terminal.wait('first line!', '3:3')
            terminal.type('C-q')
            terminal.wait('Write it?')
            terminal.type('Escape')
            terminal.wait('.txt*', gone='Write it?')
            terminal.type('C-s')
            terminal.wait('.txt ', gone='.txt*')
            terminal.type('C-q')
            terminal.wait('status 0')
            self.assertEqual(pathlib.Path(file.name).read_text(), 'first line!\nx\nezcond caf\u00e9 line\n')

    def test_shopping(self):
        terminal = self.start('shopping.py')
        terminal.wait('Shopping', '[ ] apples', 'yoghurt', 'total   50.50')
        terminal.type('Down', 'Space', 'd')
        terminal.wait('[x] bread', 'Delete bread?')
        terminal.type('n', 'Down', 'd')
        terminal.wait('Delete butter?')
        terminal.run('resize-window', '-x', '50', '-y', '12')
        terminal.wait('Delete butter?', gone='yoghurt')
        terminal.type('y')
        terminal.wait('[x] bread', 'total   47.70', gone='butter')
        terminal.type('q')
        terminal.wait('status 0')

    def test_without_a_terminal(self):
        for name in ('installer.py', 'monitor.py', 'editor.py'):
            done = subprocess.run([sys.executable, '-B', str(ROOT / 'examples/python' / name), 'x'], stdin=subprocess.DEVNULL, capture_output=True, text=True, check=False)
            self.assertEqual((done.returncode, done.stdout), (1, ''))
            self.assertIn('this wants a terminal', done.stderr)


if __name__ == '__main__':
    unittest.main()
