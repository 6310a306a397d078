"""How tools/calls lays out what it writes."""
import re
import textwrap


def fill(text, indent, width=120, first=None):
    """A text in lines, which begin with an indent."""
    return textwrap.fill(text, width, initial_indent=indent if first is None else first, subsequent_indent=indent, break_on_hyphens=False,
                         break_long_words=False)


def said_first(text):
    """A text as a sentence begins."""
    return text[0].upper() + text[1:]


def code(text, indent):
    """A text of Rattle in lines, those after the first further in. No line ends after a colon or before a brace."""
    kept = re.sub(r'(?<=:) | (?=})', '\xa0', text)
    return fill(kept, indent + ' ' * 4, first=indent).replace('\xa0', ' ')


def ensures(text, indent):
    return code(f'ensures {{ {text} }}', indent)


def laid_out(other):
    """What keeps `rt fmt` from an item that is laid out otherwise than it would be."""
    return ['#[rattlefmt::skip]'] if other else []


def layout(head, items, tail, indent, most, braces='()'):
    """A list between braces on a line, or where it is long a line for each item, as `rt fmt` has it."""
    space = ' ' if braces == '{}' else ''
    line = f'{head}{braces[0]}{space}{", ".join(items)}{space}{braces[1]}{tail}'
    if most(line, items):
        return indent + line
    inner = ''.join(f'{indent}    {item},\n' for item in items)
    return f'{indent}{head}{braces[0]}\n{inner}{indent}{braces[1]}{tail}'


def signature(head, parameters, tail, indent):
    return layout(head, parameters, tail, indent, lambda line, _: len(indent + line) <= 100)


def applied(head, items, indent):
    return layout(head, items, '', indent, lambda _, items: len(', '.join(items)) <= 60)
