"""What tools/calls writes for Python: the methods of the extension in C, their rows, their stubs, and the exceptions."""
import re
import textwrap

from calls_table import calls_of
from calls_text import fill, said_first

WIDTH = 140
# Of each type of argument: in C, what takes it from an object, and its hint.
TYPES = {
    'number': ('uint32_t', 'curspan_take_number({object}, &{name})', 'int'),
    'colour': ('uint32_t', 'curspan_take_number({object}, &{name})', 'int'),
    'signed': ('int32_t', 'curspan_take_signed({object}, &{name})', 'int'),
    'flag': ('bool', 'curspan_take_flag({object}, &{name})', 'bool'),
    'attributes': ('uint8_t', 'curspan_take_attributes({object}, &{name})', 'Attr'),
    'character': ('uint32_t', 'curspan_take_character({object}, &{name})', 'Character'),
    'text': (None, None, 'Text'),
    'window': ('uint32_t', 'curspan_take_window({object}, NUMBERED(self)->screen, &{name})', 'Window'),
}
# Of each answer: how a method makes an object of it, and its hint.
ANSWERS = {
    'nothing': ('nothing({answer})', 'None'),
    'window': ('curspan_found_window({screen}, {answer})', 'Window'),
    'new window': ('curspan_made_window({screen}, {answer})', 'Window'),
    'new pad': ('curspan_made_pad({screen}, {answer})', 'Pad'),
    'new_panel': ('curspan_made_panel({screen}, {answer})', 'Panel'),
    'panel_or_none': ('curspan_found_panel({screen}, {answer})', 'Optional[Panel]'),
    'flag': ('flag({answer})', 'bool'),
    'two_numbers': ('curspan_two_numbers({answer})', 'Tuple[int, int]'),
    'cell': (None, 'Cell'),
    'count_of_cells': ('number({answer})', 'int'),
    'count_of_bytes': ('number({answer})', 'int'),
}
# Methods that have another name than the call's word, as Python's curses has it, or as `del` is no name.
NAMES = {'wscrl': 'scroll', 'delwin': 'delete', 'del_panel': 'delete'}
# What an argument is that is left out, as the hint and as C have it.
SIZE = {'lines': '0', 'columns': '0', 'y': '0', 'x': '0'}
DEFAULTS = {'newwin': SIZE, 'derwin': SIZE, 'subwin': SIZE, 'subpad': SIZE, 'wscrl': {'n': '1'}, 'scrollok': {'flag': 'True'}, 'clearok': {'flag': 'True'},
            'wtouchln': {'flag': 'True'}, 'copywin': {'overlay': 'False'}, 'wbkgdset': {'attrs': 'None'}}
IN_C = {'True': 'true', 'False': 'false', 'None': '0'}
# Arguments in the order of Python's curses, where those that may be left out come last.
ORDER = {'wbkgdset': ['ch', 'attrs']}
# What is said of a method otherwise than of its call.
SENTENCES = {
    'panel_above': 'The panel right above a visible one, or None.',
    'panel_below': 'The panel right below a visible one, or None.',
    'winch': 'The cell at the cursor, or at a place. The cursor stays.',
    'doupdate': 'Sends the bytes that show the virtual screen on the terminal, to the file if there is one: little more than what changed, or all of it after '
                'a clear. It answers how many they are.',
}
# Calls that may be given a place first, and those whose function is written by hand for another reason.
PLACED = {'waddch', 'waddstr', 'winsch', 'wdelch', 'winch'}
BY_HAND = PLACED | {'doupdate', 'init_pair', 'delwin', 'del_panel'}


class Method:
    """The method of a call: its type, its name, and its parameters without the object that it is called on. `owner` is what the functions of
    the type in C are named after, which pads share with windows."""

    def __init__(self, call, words):
        self.call = call
        self.sentence = re.sub(r'`(\w+)`', lambda it: f'`{words.get(it[1], it[1])}`', SENTENCES.get(call.name, call.sentence))
        kinds = [kind for _, kind in call.arguments]
        self.owner = {'window': 'window', 'panel': 'panel', 'panel_or_none': 'panel'}.get(kinds[0] if kinds else '', 'screen')
        self.type = 'pad' if 'NotPad' in call.refusals else self.owner
        self.name = NAMES.get(call.name) or (re.sub('_?panel_?', '', call.word) if self.owner == 'panel' else call.word)
        self.parameters = call.arguments[0 if self.owner == 'screen' else 1:]
        if call.name in ORDER:
            self.parameters = [(name, dict(self.parameters)[name]) for name in ORDER[call.name]]
        self.defaults = DEFAULTS.get(call.name, {})
        self.function = f'curspan_{self.owner}_{self.name}' if call.name in BY_HAND else f'{self.owner}_{self.name}'
        self.answer = call.answer
        if call.answer == 'window' and not call.asks:
            self.answer = 'new pad' if call.name in ('newpad', 'subpad') else 'new window'

    def hint(self, name, kind):
        """The hint of a parameter, with what says that it may be left out."""
        default = self.defaults.get(name)
        hint = TYPES[kind][2]
        return hint if default is None else f'Optional[{hint}] = ...' if default == 'None' else f'{hint} = ...'

    def object(self, name, place):
        """The argument of a parameter in C."""
        return f'unless_none(given[{place}])' if self.defaults.get(name) == 'None' else f'given[{place}]'

    def takes_any(self):
        return bool(self.parameters) or self.call.name in PLACED

    def heads(self):
        """Its parameters as a docstring has them."""
        if self.call.name in PLACED:
            rest = ''.join(f', {name}' if index == 0 else '' for index, (name, _) in enumerate(self.parameters)).lstrip(', ')
            return f'{self.name}([y, x, ]{rest}, attrs=None, *, pair=None, y=None, x=None)' if rest else f'{self.name}([y, x])'
        words = ['$self', *(f'{name}={self.defaults[name]}' if name in self.defaults else name for name, _ in self.parameters)]
        return f'{self.name}({", ".join(words)})\n--\n'

    def entry(self):
        """The method in the page, with what it answers."""
        head = self.heads().replace('($self, ', '(').replace('($self', '(').split('\n')[0]
        hint = ANSWERS[self.answer][1]
        return f'`{head}`' if hint == 'None' else f'`{head} -> {hint}`'

    def about(self):
        """Its docstring."""
        refusals = f' Refused: {self.call.refusals}.' if self.call.refusals else ''
        return f'{self.heads()}\n{self.sentence.replace("`", "")}{refusals}'

    def stubs(self):
        """Its lines in the file of stubs."""
        hint = ANSWERS[self.answer][1]
        if self.call.name in PLACED:
            what = [f'{name}: {TYPES[kind][2]}' for name, kind in self.parameters]
            more = ['attrs: Optional[Attr] = ...', '*', 'pair: Optional[int] = ...'] if what else []
            place = ['y: int', 'x: int']
            return [line for before, after in [([], []), (place, []), ([], place)][:3 if what else 2]
                    for line in ('@overload', f'def {self.name}({", ".join(["self", *before, *what, *more, *after])}) -> {hint}: ...')]
        words = ['self', *(f'{name}: {self.hint(name, kind)}' for name, kind in self.parameters)]
        return [f'def {self.name}({", ".join(words)}) -> {hint}: ...']


def entries(name, methods):
    """The methods of a type in the page. A line breaks between two of them."""
    text = ', '.join(it.entry().replace(' ', '\xa0') for it in methods if it.type == name)
    return textwrap.fill(f'- `{name.capitalize()}`: {text}', 120, subsequent_indent='  ', break_on_hyphens=False, break_long_words=False).replace('\xa0', ' ')


def wrapped(text, indent):
    return textwrap.fill(text, WIDTH, initial_indent=indent, subsequent_indent=indent + '    ', break_on_hyphens=False, break_long_words=False)


def function(method):
    """The function of a method in C."""
    call, of_screen = method.call, method.owner == 'screen'
    names = [name for name, _ in call.arguments[0 if of_screen else 1:]]
    made = ', '.join(['&SCREEN(self)->handle' if of_screen else 'HANDLE(self), NUMBER(self)', *names])
    answer = ANSWERS[method.answer][0].format(screen='SCREEN(self)' if of_screen else 'NUMBERED(self)->screen', answer=f'curspan_{call.name}({made})')
    if not method.parameters:
        return '\n'.join([f'static PyObject *{method.function}(PyObject *self, PyObject *none) {{', '    (void)none;', wrapped(f'return {answer};', '    '), '}'])
    count = len(method.parameters)
    words = ', '.join(f'"{name}"' for name, _ in method.parameters)
    variables = {}
    for name, kind in method.parameters:
        value = method.defaults.get(name)
        variables.setdefault(TYPES[kind][0], []).append(name if value is None else f'{name} = {IN_C.get(value, value)}')
    taken = ' || '.join('!' + TYPES[kind][1].format(object=method.object(name, place), name=name) for place, (name, kind) in enumerate(method.parameters))
    return '\n'.join([
        f'static PyObject *{method.function}(PyObject *self, PyObject *const *given, Py_ssize_t count, PyObject *names) {{',
        wrapped(f'static const Parameters parameters = {{"{method.name}", {count - len(method.defaults)}, {count}, {{{words}}}}};', '    '),
        f'    PyObject *room[{count}];', *(f'    {kind} {", ".join(its)};' for kind, its in variables.items()),
        '    if (!(given = in_order(&parameters, given, count, names, room))) return NULL;',
        wrapped(f'if ({taken}) return NULL;', '    '), wrapped(f'return {answer};', '    '), '}'])


def row(method):
    """The row of a method in the table of its type."""
    flags = 'METH_FASTCALL | METH_KEYWORDS' if method.takes_any() else 'METH_NOARGS'
    text = method.about().split('\n')
    lines = [line + '\n' for line in text[:-1]] + textwrap.wrap(text[-1], 100, break_on_hyphens=False)
    lines = [line if line.endswith('\n') or number == len(lines) - 1 else line + '\n' for number, line in enumerate(lines)]
    quoted = '\n'.join('     "' + line.replace('\n', '\\n') + '"' for line in lines)
    return f'    {{"{method.name}", AS_FUNCTION({method.function}), {flags},\n{quoted}}},'


def error(number, name, words):
    bases = {'NoMemory': 'Refusal, MemoryError'}.get(name, 'Refusal')
    return f'class {name}({bases}):\n    """{said_first(words)}."""\n    status = {number}'


def errors(refusals):
    """The file of the exceptions."""
    classes = '\n\n\n'.join(error(number, *it) for number, it in enumerate(refusals, 1))
    exported = fill(', '.join(f"'{name}'" for name, _ in refusals) + ',', '    ')
    return f'"""The refusals. Written by tools/calls from calls.table."""\nfrom ._errors import Refusal\n\n__all__ = [\n{exported}\n]\n\n\n{classes}\n'


def table(name, methods):
    """The table of a type's methods in C. Those that are no calls come after."""
    return '\n'.join([f'PyMethodDef curspan_{name}_methods[] = {{', *map(row, (it for it in methods if it.type == name)),
                      f'    OTHER_METHODS_OF_{name.upper()}S', '    {NULL, NULL, 0, NULL},', '};'])


def methods_in_c(names, methods):
    """The file of the methods of some types in C."""
    functions = [function(it) for it in methods if it.type in names and it.call.name not in BY_HAND]
    head = f'/* The methods of {" and ".join(f"{name}s" for name in names)}. Written by tools/calls from calls.table. */\n#include "methods.h"'
    return '\n\n'.join([head, *functions, *(table(name, methods) for name in names)]) + '\n'


def methods_of(groups):
    words = {call.name: call.word for call in calls_of(groups)}
    return [Method(call, words) for call in calls_of(groups)]


def files(refusals, groups):
    """The text of each file that is written whole, by its path."""
    yield 'python/curspan/_written_errors.py', errors(refusals)
    yield 'python/src/written_windows.c', methods_in_c(('window', 'pad'), methods_of(groups))
    yield 'python/src/written_screens.c', methods_in_c(('screen', 'panel'), methods_of(groups))


def parts(refusals, groups):
    """The text of each part of a file, by the file and its name."""
    methods = methods_of(groups)
    for name in ('screen', 'window', 'pad', 'panel'):
        yield 'python/curspan/_curspan.pyi', f'{name} stubs', '\n'.join('    ' + line for it in methods if it.type == name for line in it.stubs())
    yield 'docs/python.md', 'methods', '\n'.join(entries(name, methods) for name in ('screen', 'window', 'pad', 'panel'))
    named = '\n'.join(textwrap.fill(f'- `{name}`: {words}', 120, subsequent_indent='  ', break_on_hyphens=False) for name, words in refusals)
    yield 'docs/python.md', 'refusals', named
