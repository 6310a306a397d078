"""What documents show of Python is so: each example of docs/python.md is run, and so are its program and that of README.md."""
import doctest
import os
import pathlib
import pty
import re
import subprocess
import sys
import tempfile
import unittest

import curspan

ROOT = pathlib.Path(__file__).resolve().parent.parent.parent
PAGE, README = ROOT / 'docs/python.md', ROOT / 'README.md'


# Runs a program whose terminal that of the standard input is.
TAKING = 'import fcntl, runpy, sys, termios; fcntl.ioctl(0, termios.TIOCSCTTY, 0); runpy.run_path(sys.argv[1], run_name="__main__")'


def typed(program):
    """What a program puts out at a terminal, at which q was typed."""
    with tempfile.NamedTemporaryFile('w', suffix='.py') as file:
        file.write(program)
        file.flush()
        ours, theirs = pty.openpty()
        subprocess.run(['stty', 'rows', '24', 'columns', '80'], stdin=theirs, check=True)
        os.write(ours, b'q')
        done = subprocess.run([sys.executable, '-B', '-c', TAKING, file.name], stdin=theirs, stdout=theirs, stderr=subprocess.PIPE, timeout=30,
                              start_new_session=True, env={**os.environ, 'TERM': 'xterm'}, check=False)
        out = os.read(ours, 100000)
        os.close(ours)
        os.close(theirs)
    return out, done.stderr.decode()


class Documents(unittest.TestCase):
    def test_examples_of_the_page(self):
        text = PAGE.read_text().replace('```', '')
        if sys.version_info < (3, 11):      # another form of flags
            text = re.sub(r'<Attr: 0>', '<Attr.0: 0>', text).replace('<Attr.BOLD|UNDERLINE: 5>', '<Attr.UNDERLINE|BOLD: 5>')
        test = doctest.DocTestParser().get_doctest(text, {}, 'docs/python.md', str(PAGE), 0)
        said = []
        results = doctest.DocTestRunner(optionflags=doctest.IGNORE_EXCEPTION_DETAIL & 0).run(test, out=said.append)
        self.assertEqual(results.failed, 0, ''.join(said))
        self.assertGreater(results.attempted, 40)

    def shows(self, program, text):
        out, said = typed(program)
        self.assertEqual(said, '')
        self.assertIn(text, re.sub(rb'\x1b\[[0-9;]*[A-Za-z]', b'', out))

    def test_first_program_of_the_page(self):
        self.shows(re.search(r'```python\n(import curspan\n.*?)```', PAGE.read_text(), re.DOTALL)[1], b'above')

    def test_program_of_the_readme(self):
        shown = re.search(r'(?m)(^    import curspan\n(?:    .*\n|\n)*?)\n\S', README.read_text())[1]
        self.shows(re.sub('(?m)^    ', '', shown), b'from Python')

    def test_each_name_has_a_text(self):
        for name in curspan.__all__:
            with self.subTest(name=name):
                self.assertTrue(getattr(curspan, name).__doc__)
        for kind in (curspan.Terminal, curspan.Screen, curspan.Window, curspan.Pad, curspan.Panel):
            for name, value in vars(kind).items():
                if not name.startswith('_'):
                    with self.subTest(name=f'{kind.__name__}.{name}'):
                        self.assertTrue(value.__doc__)

    def test_stubs_have_each_name(self):
        """The stubs and the extension have the same methods and properties."""
        stubs = (pathlib.Path(curspan.__file__).parent / '_curspan.pyi').read_text()
        for kind in (curspan.Terminal, curspan.Screen, curspan.Window, curspan.Pad, curspan.Panel):
            body = re.search(rf'(?ms)^class {kind.__name__}\b.*?(?=^class |^@final|\Z)', stubs)[0]
            said = {name for name in re.findall(r'^    (?:def )?(\w+)[(:]', body, re.MULTILINE) if not name.startswith('_')}
            own = {name for name in vars(kind) if not name.startswith('_')}
            self.assertEqual(said, own, kind)


if __name__ == '__main__':
    unittest.main()
