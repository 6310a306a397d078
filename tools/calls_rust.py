"""What tools/calls writes for Rust: the functions and the methods of the crate, and its refusals. And the lines of the programs of tests/replay,
in C and in Rust, which make the calls of a script.
"""
import re

from calls_table import calls_of
from calls_text import applied, fill, layout, said_first, signature

WRITTEN = 'Written by tools/calls from calls.table.'

# Of each type: as an argument of a method, in C's function, and how a method passes it on. A call that isn't for pads
# takes a window alone.
TYPES = {
    'number': ('u32', 'u32', '{0}'),
    'colour': ('Color', 'u32', 'u32::from({0})'),
    'signed': ('i32', 'i32', '{0}'),
    'window': ('impl Into<Window>', 'u32', 'self.windows.number({0}.into().0)'),
    'window alone': ('Window', 'u32', 'self.windows.number({0}.0)'),
    'pad': ('Pad', 'u32', 'self.windows.number({0}.0)'),
    'panel': ('Panel', 'u32', 'self.panels.number({0}.0)'),
    'panel_or_none': ('Option<Panel>', 'u32', '{0}.map_or(0, |{0}| self.panels.number({0}.0))'),
    'character': ('char', 'u32', 'u32::from({0})'),
    'attributes': ('Attributes', 'u8', '{0}.bits()'),
    'flag': ('bool', 'bool', '{0}'),
}
# Of each answer: its type, and how it is made of C's.
ANSWERS = {
    'nothing': ('()', 'Ok(())'),
    'made window': ('Window', 'self.added_window(answer.first)'),
    'made pad': ('Pad', 'self.added_window(answer.first).map(|pad| Pad(pad.0))'),
    'window': ('Window', 'Ok(self.window(answer.first))'),
    'new_panel': ('Panel', 'self.added_panel(answer.first)'),
    'panel_or_none': ('Option<Panel>', 'Ok(self.panel(answer.first))'),
    'flag': ('bool', 'Ok(answer.first != 0)'),
    'two_numbers': ('(u32, u32)', 'Ok((answer.first, answer.second))'),
    'cell': ('Cell', 'Ok(Cell(answer.first))'),
}
# The calls whose method is written by hand, and of them those whose function is.
BY_HAND = {'delwin', 'del_panel', 'update_panels', 'waddstr', 'doupdate'}
IN_SYS = {'waddstr', 'doupdate'}


def links(text, targets):
    """A text of documentation, in which each name of a refusal or a call leads to it."""
    text = re.sub(r'\b(?<!`)([A-Z][a-z]+(?:[A-Z][a-z]+)+|Hidden)\b', r'[`\1`](Refusal::\1)', text)
    return re.sub(r'`(\w+)`(?!\])', lambda it: f'[`{it[1]}`](Screen::{it[1]})' if it[1] in targets else it[0], text)


def function(call):
    arguments = [f'screen: &{"" if call.asks else "mut "}Screen', *(f'{name}: {TYPES[kind][1]}' for name, kind in call.arguments)]
    return f'    fn curspan_{call.name}({", ".join(arguments)}) -> Answer;'


def typed(call):
    """The arguments of a call, of which windows and pads are told apart."""
    window = 'window alone' if 'IsPad' in call.refusals else 'window'
    return [(name, 'pad' if name == 'pad' else window if kind == 'window' else kind) for name, kind in call.arguments]


def method(call, names):
    targets = names - {name for name, _ in call.arguments}
    parameters = ['&self' if call.asks else '&mut self', *(f'{name}: {TYPES[kind][0]}' for name, kind in typed(call))]
    made = f'made {"pad" if call.name.endswith("pad") else "window"}'
    answer, made = ANSWERS[made if call.answer == 'window' and not call.asks else call.answer]
    passed = [(name, TYPES[kind][2].format(name)) for name, kind in typed(call)]
    bound = ''.join(f'        let {name} = {value};\n' for name, value in passed if 'self' in value)
    handed = [f'&{"" if call.asks else "mut "}self.sys', *(name if 'self' in value else value for name, value in passed)]
    start = '' if call.answer == 'nothing' else 'let answer = '
    made_by = layout(f'{start}sys::curspan_{call.name}', handed, '?;', '        ', lambda _, items: len(', '.join(items)) <= 60)
    return '\n'.join([fill(links(call.sentence, targets), '    /// ', 100), '    ///', '    /// # Errors', '    ///',
                      fill(links(call.refusals, targets) + '.', '    /// ', 100), '    #[inline]',
                      signature(f'pub fn {call.name}', parameters, f' -> Result<{answer}, Refusal> {{', '    '),
                      f'{bound}{made_by}', f'        {made}', '    }'])


# ---- the programs of tests/replay, which make the calls of a script

# Of each answer: how the program in C tells it.
TOLD = {'window': 'window', 'new_panel': 'window', 'panel_or_none': 'panel', 'count_of_bytes': 'bytes', 'count_of_cells': 'nothing'}
# Of each type: how the program in Rust takes it from a line, where that isn't the type's own name.
TAKEN_IN_RUST = {'window': 'known.window(a.number({}))', 'window alone': 'known.window(a.number({}))',
                 'pad': 'known.pad(screen, a.number({}))?', 'panel': 'known.panel(a.number({}))',
                 'panel_or_none': 'known.panel_or_none(a.number({}))',
                 'colour': 'a.color({})?'}


def replay_in_c(call):
    passed = ['text, length' if kind == 'text' else f'n[{place}]' for place, (_, kind) in enumerate(call.arguments)]
    return f'CALL({", ".join([call.name, TOLD.get(call.answer, call.answer), *passed])})'


def replay_in_rust(call):
    taken = [TAKEN_IN_RUST.get(kind, f'a.{kind}({{}})').format(place) for place, (_, kind) in enumerate(typed(call))]
    refused = '' if call.answer == 'count_of_cells' else '?'
    return f'        "{call.name}" => screen.{call.name}({", ".join(taken)}){refused}.text(known),'


def refusal_enum(refusals):
    """The file of the refusals and their texts."""
    numbered = [(number, name, words) for number, (name, words) in enumerate(refusals, 1)]
    variants = '\n'.join(f'    /// {said_first(words)}.\n    {name} = {number},' for number, name, words in numbered)
    texts = ''.join(applied('', [f'Refusal::{name}', f'"{words}"'], '    ') + ',\n' for name, words in refusals)
    return f'''//! The refusals and what they say. {WRITTEN}
#![forbid(unsafe_code)]

/// Why a call is refused.
///
/// A refused call changes nothing and sends nothing. Where several reasons hold, the call's
/// documentation has the order of its tests.
#[derive(Clone, Copy, PartialEq, Eq, Hash, Debug)]
#[non_exhaustive]
pub enum Refusal {{
{variants}
}}

/// What each says, in the order of their numbers.
pub(crate) const TEXTS: [(Refusal, &str); {len(refusals)}] = [
{texts}];
'''


def functions(calls):
    """The file of C's functions of calls, which adds them to others."""
    lines = '\n'.join('    ' * 3 + function(call).strip() for call in calls if call.name not in IN_SYS)
    return f'''//! The functions of calls in `curspan.h`. {WRITTEN}
#![forbid(unsafe_code)]

/// Hands these functions, and others after them, to a macro.
macro_rules! with_calls {{
    ($macro:ident! {{ $($others:tt)* }}) => {{
        $macro! {{
{lines}
            $($others)*
        }}
    }};
}}
'''


def forwarding(calls):
    """The file of the methods that only hand on their call."""
    names = {call.name for call in calls}
    methods = '\n\n'.join(method(call, names) for call in calls if call.name not in BY_HAND)
    return f'''//! The methods that only hand on their call. {WRITTEN}
#![forbid(unsafe_code)]

use crate::{{sys, Attributes, Cell, Color, Pad, Panel, Refusal, Screen, Window}};

#[allow(clippy::similar_names, clippy::too_many_arguments)]
impl<W> Screen<W> {{
{methods}
}}
'''


def replay(calls):
    """The file of the calls that a program of tests/replay makes in Rust."""
    return f'''//! Each call by its name. {WRITTEN}

use crate::{{questions, Answer, Arguments, Known}};
use curspan::{{Error, Screen}};
use std::io::Stdout;

/// Makes a call or asks a question, and answers what the log says of its answer, if anything.
#[rustfmt::skip]
pub(crate) fn make(screen: &mut Screen<Stdout>, known: &mut Known, call: &str, a: &Arguments) -> Result<Option<String>, Error> {{
    Ok(match call {{
{chr(10).join(map(replay_in_rust, calls))}
        _ => questions::ask(screen, known, call, a)?,
    }})
}}
'''


def files(refusals, groups):
    """The text of each file, by its path."""
    calls = calls_of(groups)
    yield 'rust/src/written_refusal.rs', refusal_enum(refusals)
    yield 'rust/src/written_functions.rs', functions(calls)
    yield 'rust/src/written_calls.rs', forwarding(calls)
    yield 'tests/replay/rust/src/written_calls.rs', replay(calls)
    yield 'tests/replay/written_calls.h', f'/* Each call by its name. {WRITTEN} */\n' + ''.join(replay_in_c(call) + '\n' for call in calls)
