"""What tools/calls writes for check: the names of each call's arguments, which calls are on windows or panels that no screen has, and from
curses.table what is said of names that are no calls, or no numbers."""
import re
import sys

from calls_table import calls_of
from calls_text import fill, laid_out

# How many calls a row may name, as MOST_CALLS in crates/checks/src/said.rt, and how long a name may be, as NAME_ROOM in suggest.rt.
MOST_CALLS, NAME_ROOM = 4, 32
# How many rows stand in a group.
GROUP = 9


class Row:
    """A row of the table: its line there, names, the calls to see, and a note."""

    def __init__(self, number, line):
        names, colon, rest = line.partition(':')
        see, _, note = rest.partition('(')
        self.number, self.names, self.see, self.note = number, names.split(), see.split(), note.strip().removesuffix(')')
        if not colon or not self.names or not (self.see or self.note):
            refuse(self, 'a row is names, a colon, and calls or a note in brackets')

    def said(self):
        """What is said after the name."""
        return (f': {self.note}' if self.note else '') + (f': see {", ".join(self.see)}' if self.see else '')


def refuse(row, why):
    sys.exit(f'calls: curses.table, line {row.number}: {why}')


def without_calls(text, calls):
    """The text of the table without names that are calls by now, and without rows that have no other."""
    words = {call.word for call in calls}
    for line in text.split('\n'):
        names, colon, rest = line.partition(':')
        kept = [name for name in names.split() if name not in words]
        if line.startswith(('#', '== ')) or not colon or kept == names.split():
            yield line
        elif kept:
            yield ' '.join(kept) + colon + rest


# The constant of Rattle that has a part's rows, by the part's first word.
TABLES = {'Curses': 'CURSES', 'Others': 'CURSES', 'Colours': 'COLOURS', 'Attributes': 'ATTRIBUTES'}


def read_rows(path, calls):
    """The rows by part, each part with the constant that has them."""
    words, seen, parts = {call.word for call in calls}, {it: {} for it in TABLES.values()}, []
    for number, line in enumerate(without_calls(path.read_text(), calls), 1):
        if line.startswith('== '):
            parts.append((TABLES[line[3:].partition(':')[0]], []))
        elif line and not line.startswith('#'):
            look_at(Row(number, line), parts[-1][1], words, seen[parts[-1][0]])
    return parts


def look_at(row, rows, words, seen):
    """Adds a row to those of its part, if it is right."""
    for name in row.names:
        if name in seen:
            refuse(row, f'{name} stands in line {seen[name]} too')
        if name != name.lower() or len(name) > NAME_ROOM:
            refuse(row, f'{name} has letters in upper case, or is longer than {NAME_ROOM} bytes')
        seen[name] = row.number
    for call in row.see:
        if call not in words:
            refuse(row, f'{call} is no call')
    if len(row.see) > MOST_CALLS:
        refuse(row, f'a row names {MOST_CALLS} calls at most')
    if row.names != sorted(row.names) or (rows and rows[-1].names[0] > row.names[0]):
        refuse(row, f'{row.names[0]} is out of order')
    rows.append(row)


def row_of_rattle(row, variants):
    rest = f'&[{", ".join(variants[it] for it in row.see)}], b"{escaped(row.note)}")'
    names = fill(f'b"{" ".join(row.names)}",', '       ', 154, '(').replace('\n', ' \\\n')
    return f'{names} {rest}' if len(names.split('\n')[-1] + rest) < 150 else f'{names}\n       {rest}'


def escaped(text):
    return text.replace('\\', '\\\\').replace('"', '\\"')


def rows_of(parts, table):
    return [row for name, rows in parts if name == table for row in rows]


def table(parts, name, calls):
    """The rows of a constant in groups, since a proof over one long list of rows takes much longer."""
    variants = {call.word: f'{call.group}({call.variant})' for call in calls}
    rows = [row_of_rattle(row, variants) for row in rows_of(parts, name)]
    groups = [',\n      '.join(rows[at:at + GROUP]) for at in range(0, len(rows), GROUP)]
    return '\n'.join(['#[rattlefmt::skip]', f'pub const {name}: [&[Advice]; {len(groups)}] = [',
                      *(f'    &[{group}],' for group in groups), '];'])


def entries(parts):
    """The rows of the first part as the manual has them, each in lines of its own: a space at a line's start begins one."""
    for row in parts[0][1]:
        said = row.note.replace('\\', '\\e').replace('-', '\\-')
        see = 'see ' + ', '.join(f'\\fB{name}\\fR' for name in row.see) if row.see else ''
        yield fill(f'{", ".join(row.names)}: {"; ".join(it for it in [said, see] if it)}', '', first=' ')


# What stands before a name of each constant in the case, and what is said before the name there.
BEFORE = {
    'CURSES': ('', 'unknown call '),
    'COLOURS': ('color_set 0 ', 'color_set wants a number from 0 to 65535, not '),
    'ATTRIBUTES': ('attrset 0 ', 'attrset wants two hexadecimal digits in lower case from 00 to 3f, not '),
}


def case(parts):
    """A case that has a line with each name."""
    said = [(*BEFORE[table], name, row.said()) for table, rows in parts for row in rows for name in row.names]
    lines = [f'line {number}, column {len(before) + 1}: {what}"{name}"{text}'
             for number, (before, what, name, text) in enumerate(said, 1)]
    return '\n'.join(['Each name of curses.table; tools/calls writes this case.', '--- words check', '--- script',
                      *(before + name for before, _, name, _ in said), '--- out', *lines,
                      f'{len(said)} faulty lines', '--- status 2', ''])


def names(group, calls):
    """The function that has the names of the arguments of a group's calls, those with the same in one arm."""
    of_names = {}
    for call in calls:
        of_names.setdefault(' '.join(name for name, _ in call.arguments), []).append(f'{group}Word::{call.variant}')
    arms = [fill(f'{" | ".join(words)} => b"{text}",'.replace('" | "', '"\xa0|\xa0"'), '        ', 150).replace('\xa0', ' ') for text, words in of_names.items()]
    return '\n'.join([*laid_out(any(len(arm) > 100 for arm in arms)), f'fn of_{group.lower()}(word: {group}Word) -> &\'static [u8]',
                      f'    ensures {{ HasNames (words.{group} word) result.now }}', '{', '    match word {', *arms, '    }', '}'])


def all_names(groups):
    arms = [f'        Word::{group}(word) => of_{group.lower()}(word),' for group in groups]
    whole = '\n'.join(['/// The names of a call\'s arguments, in their order, with a space between any two.', 'pub fn names_of_arguments(word: Word) -> &\'static [u8]',
                       '    ensures { HasNames word result.now }', '{', '    match word {', *arms, '    }', '}'])
    return '\n\n'.join([*(names(group, calls) for group, (_, calls) in groups.items()), whole])


def file_of_names(groups):
    """The file of the names of arguments."""
    words = ', '.join([*(f'{group}Word' for group in sorted(groups)[:-1]), 'Word', 'WritingWord'])
    return f'''//! The names of each call's arguments. Written by tools/calls from calls.table.

ghost use Rattle.checks.specs.Findings.{{HasNames}};
ghost use Rattle.script.specs.declared.words.Word.TheVariants as words;

use script::{{{words}}};

{all_names(groups)}
'''


# How many calls an arm has at most, since a proof over many together takes much longer.
ARM = 10


def of_numbers(call):
    """The call for each of its windows and panels by whose number it is refused first: with that refusal, the number's place, its test and the
    call's pattern."""
    for refusal, kinds, test in (('NoSuchPanel', ('panel', 'panel_or_none'), 'is_no_panel(panel)'), ('NoSuchWindow', ('window',), 'is_no_window(win)')):
        if re.match(r'(NoSuchPanel, )?' + refusal, call.refusals):
            bound, rest = test[:-1].split('(')[1], ', ..' if len(call.arguments) > 1 else ''
            for place, (name, kind) in enumerate(it for it in call.arguments if it[1] in kinds):
                taken = f'{name}: Some({bound})' if kind == 'panel_or_none' else bound if name == bound else f'{name}: {bound}'
                yield (refusal, place, test), f'{call.group}::{call.variant} {{ {taken}{rest} }}'


def missing(group, calls):
    """The function that refuses a group's calls on windows and panels that no screen has."""
    arms = {}
    for what, pattern in (it for call in calls for it in of_numbers(call)):
        arms.setdefault(what, []).append(pattern)
    lines = [fill(' | '.join(it.replace(' ', '\xa0') for it in patterns[at:at + ARM]) + f' if\xa0{test} => Some({refusal}),', '        ', 150).replace('\xa0', ' ')
             for (refusal, _, test), patterns in sorted(arms.items()) for at in range(0, len(patterns), ARM)]
    texts = "<'_>" if any(call.has('text') for call in calls) else ''
    return '\n'.join(['#[rattlefmt::skip]', f'fn of_{group.lower()}(call: &{group}{texts}) -> Option<Refusal>',
                      f'    ensures {{ IfSome result (IsRefusedEverywhere (calls.{group} call.now)) }}', '{', '    match *call {', *lines,
                      '        _ => None,', '    }', '}'])


def file_of_missing(groups):
    """The file of the calls on windows and panels that no screen has."""
    arms = '\n'.join(f'        Call::{group}(call) => of_{group.lower()}(call),' for group in groups)
    each = '\n\n'.join(missing(group, calls) for group, (_, calls) in groups.items())
    return f'''//! The calls on windows and panels that no screen has, by their numbers. Written by tools/calls from calls.table.

ghost use Rattle.std.specs.Prelude.{{IfSome}};
ghost use Rattle.checks.specs.Everywhere.{{IsRefusedEverywhere}};
ghost use Rattle.world.specs.declared.call.Call.TheVariants as calls;

use crate::everywhere::{{is_no_panel, is_no_window}};
use Refusal::*;
use cell::Refusal;
use world::{{{", ".join(sorted(["Call", *groups]))}}};

{each}

/// Why every screen refuses a call, where it is on a window or a panel of a number that none has.
pub(crate) fn refusal_by_number(call: &Call<'_>) -> Option<Refusal>
    ensures {{ IfSome result (IsRefusedEverywhere call.now) }}
{{
    match call {{
{arms}
    }}
}}
'''


def file_of_curses(rows, calls, groups):
    """The file of what is said of names that are no calls, or no numbers."""
    tables = '\n\n'.join(table(rows, name, calls) for name in dict.fromkeys(TABLES.values()))
    uses = ''.join(f'use script::{it}::*;\n' for it in sorted(['Word', *(f'{group}Word' for group in groups)]))
    return f'''//! Names that are no calls or no numbers, and what is said. Written by tools/calls from curses.table.

use crate::suggest::Advice;
{uses}
{tables}
'''


def files(path, groups):
    """The text of each file, by its path."""
    calls = calls_of(groups)
    rows = read_rows(path, calls)
    yield path.name, '\n'.join(without_calls(path.read_text(), calls))
    yield 'crates/checks/src/written_names.rt', file_of_names(groups)
    yield 'crates/checks/src/written_missing.rt', file_of_missing(groups)
    yield 'crates/checks/src/written_curses.rt', file_of_curses(rows, calls, groups)
    yield 'cases/check/names_of_curses_that_are_no_calls.case', case(rows)


def parts(path, groups):
    """The text of each part of a file, by the file and its name."""
    yield 'docs/curspan.1', 'curses', '\n'.join(entries(read_rows(path, calls_of(groups))))
