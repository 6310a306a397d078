"""What tools/calls writes for C: exports and numbers in Rattle, the header's prototypes and statuses, and the entries of
both manuals."""
import re

from calls_table import C, EXPORTED, FILES, HANDED, RATTLE, TYPES, calls_of, status
from calls_text import code, ensures, fill, laid_out, said_first

# How an argument of an export is passed, where that isn't as in a method.
PASSED = {'number': 'u32', 'colour': 'u32', 'signed': 'i32', 'window': 'u32', 'panel': 'u32', 'panel_or_none': 'u32',
          'character': 'u32', 'attributes': 'u8', 'text': '&[u8]'}


def export(call):
    """A call as an export for C."""
    taken = [f'{name}: {PASSED.get(kind, TYPES[kind][RATTLE])}' for name, kind in call.arguments]
    head = f'pub extern "C" fn curspan_{call.name}({", ".join(["alloc: Global", "screen: &mut Handle", *taken])}) -> Answer'
    said, does = ('Asked', 'ask') if call.asks else ('Called', 'call')
    told = f'{said} ⟦<Outlet as Sink>⟧ screen.old.value ({call.clause(EXPORTED)}) result screen.new.value'
    made = f'screen.{does}(alloc, &{call.data(call.each(HANDED))})'
    return '\n'.join([fill(call.sentence, '/// '), *laid_out(call.arguments), '#[unsafe(no_mangle)]', code(head, ''),
                      ensures(told, '    '), '{', code(made, ' ' * 4), '}'])


def exports(group, what, calls):
    """The file of a group's exports."""
    said = sorted({'Asked' if call.asks else 'Called' for call in calls})
    of = {TYPES[kind][HANDED].removesuffix('({0})') for call in calls for _, kind in call.arguments} - {'{0}'}
    numbers, attrs = sorted(of - {'attrs_of'}), 'attrs_of' in of
    return '\n'.join([
        fill(f'{said_first(what)}. Written by tools/calls from calls.table.', '//! '), '',
        'ghost use Rattle.world.specs.declared.call.Call.{Call};',
        f'ghost use Rattle.world.specs.declared.call.{group}.{{{group}}};',
        f'ghost use Rattle.capi.specs.Called.{{{", ".join(said)}}};',
        f'ghost use Rattle.capi.specs.Numbers.{{{", ".join(numbers)}}};',
        *(['ghost use Rattle.capi.specs.Answers.{attrs_of};'] if attrs else []), '',
        'use crate::answer::{Answer, attrs_of};' if attrs else 'use crate::answer::Answer;',
        'use crate::c_screen::Outlet;', 'use crate::handle::Handle;',
        'use crate::number::' + (f'{{{", ".join(numbers)}}};' if len(numbers) > 1 else f'{numbers[0]};'),
        'use desk::Sink;', 'use std::alloc::Global;', f'use world::{{Call, {group}}};', '',
        '\n\n'.join(map(export, calls)), ''])


def numbers(refusals):
    """The file of the refusals' numbers."""
    rows = ''.join(f'        Refusal::{name} => {number},\n' for number, (name, _) in enumerate(refusals, 1))
    return f'''//! The number of a refusal. Written by tools/calls from calls.table.

ghost use Rattle.std.specs.Prelude.{{◌≡◌}};
ghost use Rattle.capi.specs.Answers.{{number_of}};

use desk::Refusal;

pub(crate) fn number(refusal: Refusal) -> u32
    ensures {{ result ≡ number_of refusal }}
{{
    match refusal {{
{rows}    }}
}}
'''


def words_in_c(refusals):
    """The file of what each refusal says, as rows of a table."""
    return '/* What each refusal says. Written by tools/calls from calls.table. */\n' + ''.join(f'"{words}",\n' for _, words in refusals)


def files(refusals, groups):
    """The text of each file that is written whole, by its path."""
    for group, (what, calls) in groups.items():
        yield f'crates/capi/src/exports/written_{FILES[group]}.rt', exports(group, what, calls)
    yield 'crates/capi/src/written_numbers.rt', numbers(refusals)
    yield 'c/written_refusals.h', words_in_c(refusals)


# ---- the parts of the header and the manuals

def prototype(call):
    head = f'curspan_answer curspan_{call.name}('
    screen = 'const curspan *screen' if call.asks else 'curspan *screen'
    return fill(call.about(), '   ', first='/* ') + ' */\n' + fill(', '.join([screen, *call.each(C)]) + ');', ' ' * len(head), first=head)


def marked(call, text, words):
    """A text on a call as the manual has it: names of its arguments in italics, and those of calls in bold, as they are called there."""
    arguments = {name for name, _ in call.arguments}

    def mark(found):
        sign, name = found.groups()
        return f'\\fB{words[name]}\\fR' if name in words and name not in arguments else f'\\fI{sign and chr(92) + sign}{name}\\fR'
    return re.sub(r"(?m)^(?=[.'])", r'\\&', fill(re.sub(r'`(-?)(\w+)`', mark, text), ''))


def entry_of_header(call, words):
    """A function in the manual: its prototype, and what it does."""
    parameters = ', '.join(['const curspan *screen' if call.asks else 'curspan *screen', *call.each(C)])
    parameters = re.sub(r'(\w+)(?=,|$)', r'\\fI\1\\fB', parameters)
    return '.HP\n' + fill(f'\\fBcurspan_answer curspan_{call.name}({parameters});\\fR {marked(call, call.about(), words)}', '')


def entry_of_script(call, words, of_refusals):
    names = ' '.join(name for name, _ in call.arguments)
    head = f'.BI {call.word} " {names}"' if names else f'.B {call.word}'
    refused = re.sub(r'\b(?:' + '|'.join(of_refusals) + r')\b', lambda it: of_refusals[it[0]], call.refusals)
    return f'.TP\n{head}\n{marked(call, call.sentence + (f" Refused: {refused}." if refused else ""), words)}'


def parts(refusals, groups):
    """The text of each part of a file, by the file and its name."""
    calls, numbered = calls_of(groups), [(f'E{number}', *it) for number, it in enumerate(refusals, 1)]
    named = ''.join(f'{f"    CURSPAN_{status(name)} = {number[1:]},":<34}/* {words} */\n' for number, name, words in numbered)
    yield 'include/curspan.h', 'statuses', named.rstrip('\n')
    titled = [f'/* ---- {what} */\n\n' + '\n\n'.join(map(prototype, its)) for what, its in groups.values()]
    yield 'include/curspan.h', 'prototypes', '\n\n'.join(titled)
    names, words = {call.name: call.name for call in calls}, {call.name: call.word for call in calls}
    of_refusals = {name: number for number, name, _ in numbered}
    yield 'docs/curspan.3', 'calls', '\n'.join(f'.SS {said_first(what)}\n' + '\n'.join(entry_of_header(call, names) for call in its)
                                              for what, its in groups.values())
    for group, (_, its) in groups.items():
        yield 'docs/curspan.1', group, '\n'.join(entry_of_script(call, words, of_refusals) for call in its)
    told = ''.join(f'.TP\n.B line N: {number} {name}\n{said_first(words)}.\n' for number, name, words in numbered)
    yield 'docs/curspan.1', 'refusals', told.rstrip('\n')
