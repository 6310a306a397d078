"""The calls of calls.table, for what writes or makes them."""
import re
import sys

# Of each type: as an argument in Rattle, in a clause, in C, what an export hands on, in a clause of it, its form in
# scripts, and how it is taken from the arguments of a script's line. 0 is the argument's name, and 1 its place among
# those of its form.
TYPES = {
    'number': ('u16', '{0}', 'uint32_t {0}', 'saturated({0})', '(saturated {0})', 'Number', 'a.number({1})'),
    'colour': ('u16', '{0}', 'uint32_t {0}', 'saturated({0})', '(saturated {0})', 'Number', 'a.number({1})'),
    'signed': ('i16', '{0}', 'int32_t {0}', 'saturated_signed({0})', '(saturated_signed {0})', 'Signed', 'a.signed()'),
    'window': ('WinId', '{0}', 'uint32_t {0}', 'window_of({0})', '(window_of {0})', 'Number', 'a.window({1})'),
    'panel': ('PanelId', '{0}', 'uint32_t {0}', 'panel_of({0})', '(panel_of {0})', 'Number', 'a.panel({1})'),
    'panel_or_none': ('Option<PanelId>', '{0}', 'uint32_t {0}', 'panel_or_none_of({0})', '(panel_or_none_of {0})',
                      'NumberOrNone', 'a.panel_or_none()'),
    'character': ('u8', '{0}', 'uint32_t {0}', 'saturated_character({0})', '(saturated_character {0})', 'Character',
                  'a.character()'),
    'attributes': ('Attr', '{0}', 'uint8_t {0}', 'attrs_of({0})', '(attrs_of {0})', 'Attributes', 'a.attributes()'),
    'flag': ('bool', '{0}', 'bool {0}', '{0}', '{0}', 'Flag', 'a.flag()'),
    'text': ("&'a [u8]", '{0}.entry', 'const char *{0}, size_t length', '{0}', '{0}.entry', 'Text', 'a.text()'),
}
RATTLE, CLAUSE, C, HANDED, EXPORTED, FORM, TAKEN = range(7)
# The files of groups.
FILES = {'Making': 'making', 'Writing': 'writing', 'Copying': 'copying', 'Query': 'queries', 'Stacking': 'panels',
         'Refresh': 'refresh'}
# Of each answer: a method's, how a clause makes a reply of it, and what the header says of it, if the sentence doesn't.
ANSWERS = {
    'nothing': ('()', 'no_answer', ''),
    'window': ('WinId', 'Reply.Number', 'Answers its number.'),
    'new_panel': ('PanelId', 'its_panel', 'Answers its number.'),
    'panel_or_none': ('Option<PanelId>', 'Reply.Panel', '0 is none, also in the answer.'),
    'flag': ('bool', 'Reply.Flag', 'Answers 1 where it is so, and else 0.'),
    'two_numbers': ('(u16, u16)', 'two_numbers', ''),
    'cell': ('Cell', 'Reply.Cell', 'CURSPAN_CHARACTER, CURSPAN_ATTRIBUTES and CURSPAN_PAIR take it apart.'),
    'count_of_cells': (None, None, ''),  # its method is written by hand, as it is never refused
    'count_of_bytes': (None, None, 'CURSPAN_WRITE_FAILED where there was no memory for all of them: the first answer is how '
                                   'many were sent, and the next doupdate clears the terminal and sends all.'),
}


class Call:
    """A call of the table."""

    def __init__(self, group, head, refusals, sentence):
        left, self.asks, self.answer = re.fullmatch(r'(.*?)\s*(->|asks) (\w+)', head).groups()
        self.asks, self.draws = self.asks == 'asks', self.answer == 'drawing'
        self.answer = 'nothing' if self.draws else self.answer
        self.name, other, self.variant, rest = re.fullmatch(r'(\w+)(?: \((\w+)(?: (\w+))?\))?(.*)', left).groups()
        self.word = other or self.name
        self.arguments = [tuple(word.split(':')) for word in rest.split()]
        self.group, self.sentence = group, sentence
        self.refusals = '' if refusals == 'none' else refusals
        self.variant = self.variant or ''.join(part.capitalize() for part in self.word.split('_'))

    def each(self, part):
        """Each argument in one of the forms of its type."""
        numbers = [name for name, kind in self.arguments if TYPES[kind][FORM] == 'Number']
        places = {name: place for place, name in enumerate(numbers)}
        return [TYPES[kind][part].format(name, places.get(name)) for name, kind in self.arguments]

    def clause(self, part):
        """The call in a clause."""
        inner = ' '.join([f'{self.group}.{self.variant}', *self.each(part)])
        return f'Call.{self.group} ' + (f'({inner})' if self.arguments else inner)

    def value(self, fields):
        """The call as data, from its fields."""
        return f'Call::{self.group}({self.group}::{self.variant}' + (f' {{ {", ".join(fields)} }}' if fields else '') + ')'

    def data(self, values):
        """The call as data, of the values of its fields."""
        return self.value([name if name == value else f'{name}: {value}' for (name, _), value in zip(self.arguments, values)])

    def about(self):
        """What the header and the manual say of it, in C's words."""
        of_text = 'The text has `length` characters, and may be NULL where that is 0.' if self.has('text') else ''
        refused = re.sub(r'\b[A-Z]\w+(?:[A-Z]\w+)*\b', lambda it: status(it[0]), self.refusals)
        told = ' '.join(it for it in [self.sentence, ANSWERS[self.answer][2], of_text] if it)
        return told + (f' Refused: {refused}.' if refused else '')

    def has(self, kind):
        return any(it == kind for _, it in self.arguments)

    def has_method(self):
        """Whether its method is written."""
        return bool(ANSWERS[self.answer][0])


def status(name):
    """A refusal's name in C."""
    return re.sub(r'(?<=[a-z])(?=[A-Z])', '_', name).upper()


def read_table(path):
    """The refusals, each with its name and its words, and the calls by group, each group with what its calls are."""
    refusals, groups, group = [], {}, None
    for part in path.read_text().split('\n\n'):
        lines = [line.strip() for line in part.split('\n') if line and not line.startswith('#')]
        if lines and lines[0][0] == '1':
            refusals = [tuple(line.split(' ', 1)[1].split(': ')) for line in lines]
        elif lines and lines[0].startswith('=='):
            group, what = lines[0][3:].split(': ')
            groups[group] = (what, [])
        elif lines:
            if len(lines) != 3:
                sys.exit(f'calls: calls.table: three lines make a call, and these do not: {lines[0]}')
            groups[group][1].append(Call(group, *lines))
    refuse_unclear(calls_of(groups))
    return refusals, groups


def calls_of(groups):
    return [call for _, calls in groups.values() for call in calls]


def refuse_unclear(calls):
    """Ends where two variants differ in case alone, or a call has two arguments of a form that a line keeps once."""
    known = {}
    for call in calls:
        other = known.setdefault(call.variant.lower(), call)
        if other is not call:
            sys.exit(f'calls: the variants of {other.name} and {call.name} differ in case alone: name one in brackets')
        kept = ['Text' if form == 'Character' else form for form in call.each(FORM) if form != 'Number']
        if len(kept) != len(set(kept)):
            sys.exit(f'calls: {call.name} has two arguments of a form that a line of a script keeps once')
