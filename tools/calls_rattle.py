"""What tools/calls writes in Rattle, each a file of its own: calls and refusals as data, methods, and the
dispatch of the calls that write."""
import re

from calls_table import ANSWERS, CLAUSE, FORM, RATTLE, TYPES, calls_of
from calls_text import code, ensures, fill, laid_out, said_first

WRITTEN = 'Written by tools/calls from calls.table.'


def fields(call):
    return ', '.join(f'{name}: {TYPES[kind][RATTLE]}' for name, kind in call.arguments)


def variant(call):
    """The call as a variant of its group, with what it does in a sentence."""
    sentence = fill(re.sub(r'(?<=\.) .*', '', call.sentence), '    /// ')
    return f'{sentence}\n' + code(f'{call.variant} {{ {fields(call)} }},' if call.arguments else f'{call.variant},', '    ')


def group_enum(group, what, calls):
    """A group as the enum of its calls."""
    texts = any(call.has('text') for call in calls)
    head = f'pub enum {group}' + ("<'a> {" if texts else ' {')
    long = any(len(fields(call)) > 35 for call in calls)
    return '\n'.join([f'/// {said_first(what)}.', *laid_out(long), '#[derive(Clone, Copy)]', head, *map(variant, calls), '}'])


def group_enums(groups):
    """The file of the groups."""
    return '\n'.join([f'//! The calls of each group. {WRITTEN}', '', 'use crate::panel::PanelId;', 'use cell::{Attr, WinId};', '',
                      '\n\n'.join(group_enum(group, *of_it) for group, of_it in groups.items()), ''])


def refusals_as_data(refusals):
    """The file of the refusals and their texts."""
    variants = ''.join(f'    /// {said_first(words)}.\n    {name},\n' for name, words in refusals)
    texts = ''.join(f'            Refusal::{name} => "E{number} {name}",\n' for number, (name, _) in enumerate(refusals, 1))
    return f'''//! The refusals, in the order of their numbers. {WRITTEN}

ghost use Rattle.std.specs.Prelude.{{◌≡◌, ◌≤◌, length}};

/// Why a call is refused. A refused call changed nothing and sent nothing.
#[derive(Clone, Copy, PartialEq, Eq, Debug)]
pub enum Refusal {{
{variants}}}

impl Refusal {{
    ghost use Rattle.cell.specs.Refusals.{{refusal_text}};

    /// The number and the name, as the log has them.
    pub fn text(self) -> &'static str
        ensures text {{ result.now ≡ refusal_text self }}
        ensures short {{ length result.now ≤ 20 }}
    {{
        match self {{
{texts}        }}
    }}
}}
'''


def errors(call):
    """What a method says of its errors."""
    told = '; '.join(re.sub(r'\b[A-Z]\w+', r'`\g<0>`', it) for it in call.refusals.split('; '))
    return ['    ///', '    /// # Errors', fill(told + '.', '    /// ')]


def method(call):
    """A call as a method, of all that makes calls."""
    names = [name for name, _ in call.arguments]
    taken = [f'{name}: {TYPES[kind][RATTLE]}'.replace("'a ", '') for name, kind in call.arguments]
    parameters = ', '.join(['&self' if call.asks else '&mut self', *taken])
    answer, reply, _ = ANSWERS[call.answer]
    old, new, makes = ('now', 'now', 'find') if call.asks else ('old', 'new', 'make')
    made = f'Self.made self.{old} ({call.clause(CLAUSE)}) (as_reply {reply} result) self.{new}'
    return '\n'.join([fill(call.sentence, '    /// '), *(errors(call) if call.refusals else []),
                      code(f'final fn {call.name}({parameters}) -> Result<{answer}, Self::Error>', ' ' * 4),
                      ensures(made, ' ' * 8), '    {', code(f'self.{makes}(&{call.data(names)})', ' ' * 8), '    }'])


def methods(groups):
    """The file of the methods."""
    calls = [call for call in calls_of(groups) if call.has_method()]
    replies = sorted({ANSWERS[call.answer][1] for call in calls if '.' not in ANSWERS[call.answer][1]})
    of_world = ', '.join(sorted(['Call', 'PanelId', *groups]))
    return '\n'.join([
        f'//! The methods. {WRITTEN}', '',
        'ghost use Rattle.std.specs.Prelude.{◌≡◌};',
        *(f'ghost use Rattle.world.specs.declared.call.{it}.{{{it}}};' for it in ['Call', 'Reply', *groups]),
        f'ghost use Rattle.world.specs.Replies.{{{", ".join(replies)}}};',
        'ghost use Rattle.calls.specs.Methods.{as_reply};', '',
        'use crate::making::Calls;', 'use cell::{Attr, Cell, WinId};', f'use world::{{{of_world}}};', '',
        '/// A method for each call, of all that makes calls. `Calls` itself has `update_panels`, and a screen `doupdate`.',
        '/// Each method lists why it may be refused.',
        '#[rattlefmt::skip]', 'pub trait Methods: Calls {', '\n\n'.join(map(method, calls)), '}', '', 'impl<C: Calls> Methods for C {}', ''])


def refused(call):
    """The rows of what a call is refused by; one that may be given no panel isn't refused then."""
    def clause(argument):
        names = ' '.join([f'{call.group}.{call.variant}', *(argument if kind == 'panel_or_none' else name for name, kind in call.arguments)])
        return f'refusals_of (calls.{call.group} {f"({names})" if call.arguments else names}) = '
    row = ' ∷ '.join([*re.findall(r'\b[A-Z]\w+', call.refusals), '[]'])
    if call.has('panel_or_none'):
        return clause('None') + '[]\n' + clause('(Some panel)') + row
    return clause('') + row


def rows_of_refusals(refusals, groups):
    """The file of what each call may be refused by."""
    path = 'use Rattle.cell.specs.declared.refusal.Refusal.TheVariants.'
    names = [path + '{' + line.removesuffix(',') + '}' for line in fill(', '.join(name for name, _ in refusals), '', 60).split('\n')]
    return '\n'.join([
        '-- By what a call may be refused, in the order of its tests; the neighbour of no panel is asked for without a test.',
        f'-- {WRITTEN}',
        'use Rattle.std.specs.Prelude.{List, [], ◌∷◌, None, Some}', 'use Rattle.cell.specs.declared.refusal.Refusal.{Refusal}',
        *names, 'use Rattle.world.specs.declared.call.Call.{Call}',
        'use Rattle.world.specs.declared.call.Call.TheVariants as calls',
        *(f'use Rattle.world.specs.declared.call.{group}.TheVariants as {group}' for group in groups), '',
        'abbrev pub refusals_of : Call → List Refusal', *map(refused, calls_of(groups)), ''])


def window(call):
    """The window that a call writes in, which is its first argument."""
    return f'        Writing::{call.variant} {{ win{", .." if len(call.arguments) > 1 else ""} }} => win,\n'


def made(call):
    """How a call is made that writes in a window."""
    names = ', '.join(name for name, _ in call.arguments)
    if not call.draws:
        return f'        Writing::{call.variant} {{ win, .. }} => without_frame(windows.set(win, writing)),\n'
    return f'        Writing::{call.variant} {{ {names} }} => windows.{call.name}({names}),\n'


def writing(groups):
    """The file of the calls that write."""
    calls = groups['Writing'][1]
    return f'''//! The calls that write in a window. {WRITTEN}

ghost use Rattle.std.specs.Prelude.{{◌≡◌}};
ghost use Rattle.world.specs.Effects.{{edits}};
ghost use Rattle.world.specs.calls.Writing.{{writing_refusal, writing_edit}};
ghost use Rattle.grids.specs.Tables.{{windows as windows_of}};
ghost use Rattle.windows.specs.Calls.{{Drew, its_frame}};
ghost use Rattle.compose.specs.steps.Outcomes.{{written_window}};

use crate::dispatch::without_frame;
use cell::{{Rect, Refusal, WinId}};
use windows::Windows;
use world::Writing;

/// The window that a call writes in, or of which it sets how it is written in.
pub(crate) fn window_of(writing: Writing<'_>) -> WinId
    ensures {{ result.0 ≡ written_window writing.entry }}
{{
    match writing {{
{''.join(map(window, calls))}    }}
}}

/// Makes a call that writes in a window, or sets how it is written in, and answers its frame.
#[rattlefmt::skip]
#[inline(always)]
#[tactic(auto, using(crate::proofs::OutcomeLaws::framed))]
pub(crate) fn draw(windows: &mut Windows, writing: Writing<'_>) -> Result<Option<Rect>, Refusal>
    ensures {{ Drew its_frame windows.old.table (writing_refusal (windows_of windows.old.table) writing.entry)
        (edits (writing_edit (windows_of windows.old.table) writing.entry)) result windows.new.table }}
{{
    match writing {{
{''.join(map(made, calls))}    }}
}}
'''


def files(refusals, groups):
    """The text of each file, by its path."""
    yield 'crates/cell/src/written_refusals.rt', refusals_as_data(refusals)
    yield 'crates/world/src/written_calls.rt', group_enums(groups)
    yield 'crates/calls/specs/WrittenRefusals.antt', rows_of_refusals(refusals, groups)
    yield 'crates/calls/src/written_methods.rt', methods(groups)
    yield 'crates/compose/src/written_dispatch.rt', writing(groups)
