"""What tools/calls writes for scripts: the words of calls, each with its row."""
from calls_table import FORM, TAKEN, calls_of
from calls_text import code, fill, said_first


def by_letter(groups):
    """All calls by the first letters of their words. Those that scripts have most come first of each."""
    return sorted(calls_of(groups), key=lambda call: (call.word[0], call.group != 'Writing'))


def lists(groups):
    """Each word in the list of its first letter."""
    calls = by_letter(groups)
    for number in range(32):
        own = ', '.join(f'Word::{call.group}({call.variant})' for call in calls if ord(call.word[0]) % 32 == number)
        yield f'    &[{own}],' if len(own) < 100 else '    &[\n' + fill(own + ',', '        ') + '\n    ],'


def enum(group, what, calls):
    variants = fill(', '.join(it.variant for it in calls) + ',', '    ')
    return '\n'.join([f'/// {said_first(what)}, by their words.', '#[rattlefmt::skip]', '#[derive(Clone, Copy)]',
                      f'pub enum {group}Word {{', variants, '}'])


def row(call):
    start, forms = f'            Self::{call.variant} => Row {{', ', '.join(call.each(FORM))
    value = call.value([f'{name}: {taken}' for (name, _), taken in zip(call.arguments, call.each(TAKEN))])
    line = f'{start} word: b"{call.word}", forms: &[{forms}], call: {value} }},'
    if len(line) <= 120:
        return line
    made = code(f'call: {value},', ' ' * 16)
    return f'{start}\n                word: b"{call.word}", forms: &[{forms}],\n{made}\n            }},'


def rows(group, calls):
    return '\n'.join([f'impl {group}Word {{', "    /// The word's row, with the call that the arguments make.", '    #[rattlefmt::skip]',
                      '    #[inline(always)]', "    pub(crate) fn row(self, a: &Arguments) -> Row<'_>",
                      f'        ensures {{ IsRow result (entry_of (word.{group} self)) a.now }}', '    {', '        match self {',
                      *map(row, calls), '        }', '    }', '}'])


def words(groups):
    """The file of the words."""
    return '\n'.join([
        '//! The words of calls: by group, by first letter, and of each a row. Written by tools/calls from calls.table.', '',
        'ghost use Rattle.script.specs.Words.{entry_of};', 'ghost use Rattle.script.specs.steps.Rows.{IsRow};',
        'ghost use Rattle.script.specs.declared.words.Word.TheVariants as word;', '',
        'use crate::arguments::Arguments;', 'use crate::words::Form::*;', 'use crate::words::{Row, Word};',
        *(f'use {it}Word::*;' for it in sorted(groups)), f'use world::{{{", ".join(sorted(["Call", *groups]))}}};', '',
        '\n\n'.join(enum(group, *of_it) for group, of_it in groups.items()), '',
        '/// Each word, in the list of its first letter: `a` has the list 1, as the last five bits of its code say, and `z` the',
        '/// list 26.', '#[rattlefmt::skip]', 'pub const WORDS: [&[Word]; 32] = [', *lists(groups), '];', '',
        '\n\n'.join(rows(group, calls) for group, (_, calls) in groups.items()), ''])


def files(_, groups):
    yield 'crates/script/src/written_words.rt', words(groups)
