"""The wrong bodies that tools/calls writes: one for each method, and for each writing call in the dispatch."""
import sys

from wrong_bodies import WrongBody, text_of


def neighbour(call, calls, is_like):
    """The next call of the group, after the last the first, with the same arguments; or nothing, if none is like it."""
    at = calls.index(call)
    return next((it for it in calls[at + 1:] + calls[:at] if it.arguments == call.arguments and is_like(it)), None)


def first_pair(call):
    """The first two arguments of one type, if there are two."""
    later = [(one, call.arguments[at + 1:]) for at, one in enumerate(call.arguments)]
    return next(((one, other) for (one, kind), others in later for other, like in others if like == kind), None)


def wrong_body(call, calls):
    """A wrong body: its name, what it does first, and the call that it makes. That is another one, which takes and
    answers the same; or else two arguments change places; or else the window is the standard screen; or else it is
    another one, which takes the same."""
    other = neighbour(call, calls, lambda it: (it.answer, it.asks, it.draws) == (call.answer, call.asks, call.draws))
    pair, window = first_pair(call), next((name for name, kind in call.arguments if kind == 'window'), None)
    if not other and pair:
        one, two = pair
        return f'swaps_{one}_and_{two}', f'let ({one}, {two}) = ({two}, {one}); ', call
    if not other and window:
        return 'takes_the_standard_screen', f'let {window} = WinId(0); ', call
    other = other or neighbour(call, calls, lambda it: it.asks == call.asks)
    if not other:
        sys.exit(f'calls: tools/calls_wrong.py knows no wrong body of {call.name}')
    return f'is_{other.name}', '', other


def asked_for(call):
    """How the body of a method begins, as far as no other one does."""
    made = f'Call::{call.group}({call.group}::{call.variant}'
    return f'self.{"find" if call.asks else "make"}(&{made}' + (' {' if call.arguments else ')')


def dispatched(call, names):
    """The call of `windows` that makes a call with these arguments."""
    if call.draws:
        return f'windows.{call.name}({", ".join(names)})'
    fields = [own if own == name else f'{own}: {name}' for (own, _), name in zip(call.arguments, names)]
    return f'windows.set({names[0]}, Writing::{call.variant} {{ {", ".join(fields)} }})'


def in_dispatch(call, fields, makes):
    """As much of a row of the dispatch as is there once."""
    return makes if call.draws else f'Writing::{call.variant} {{ {fields} }} => without_frame({makes})'


def wrong_dispatch(call, calls):
    """A wrong body of the dispatch: its name, the text of its row, and that of the wrong one."""
    name, first, made = wrong_body(call, calls)
    own = [name for name, _ in call.arguments]
    names = own[:]
    if first.startswith('let ('):
        one, two = map(names.index, first_pair(call))
        names[one], names[two] = names[two], names[one]
    elif first:
        names[0] = 'WinId(0)'
    makes = dispatched(call, own) if call.draws else 'windows.set(win, writing)'
    return f'{call.name}_{name}', in_dispatch(call, 'win, ..', makes), in_dispatch(call, ', '.join(own), dispatched(made, names))


def files(groups):
    """The text of each file of wrong bodies, by its path."""
    path, bodies = 'crates/calls/wrong/written_methods.written.edits', []
    for _, calls in groups.values():
        calls = [it for it in calls if it.has_method()]
        for call in calls:
            name, first, made = wrong_body(call, calls)
            bodies.append(WrongBody(path, f'{call.name}_{name}', False, [(asked_for(call), first + asked_for(made))]))
    yield path, text_of(bodies)
    path, calls = 'crates/compose/wrong/written_dispatch.written.edits', groups['Writing'][1]
    turned = [wrong_dispatch(call, calls) for call in calls]
    yield path, text_of([WrongBody(path, name, False, [(old, new)]) for name, old, new in turned])
