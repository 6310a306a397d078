"""The functions of a file of Rattle, by its text alone."""
import re

HEAD = re.compile(r'( *)(?:pub(?:\([^)]*\))? )?(?:final )?(?:const )?(?:unsafe )?(?:extern "C" )?fn (\w+)')
TRAIT = re.compile(r'(?:pub )?trait (\w+)')
IMPL = re.compile(r'impl(?:<(.*?)>)? (?:(\w+(?:<.*?>)?) for )?(.+?)(?: where.*)?(?: \{)?$')


def function_at(text, at):
    """The name of the function in whose body a text is, if it is in one: between a line that is `{` or ends so and the
    line `}` below it. And the words of that body."""
    name, indent, is_body, begun = None, '', False, 0
    lines = text.split('\n')
    for number, line in enumerate(lines[:text.count('\n', 0, at)]):
        head = HEAD.match(line)
        if head and (name is None or len(head[1]) <= len(indent)):
            indent, name, is_body, begun = head[1], head[2], line.endswith('{'), number
        elif name and not is_body:
            is_body = line == indent + '{' or line.startswith(indent + ')') and line.endswith('{')
        elif name and line == indent + '}':
            name = None
    if not is_body:
        return None, set()
    whole = lines[begun + 1:lines.index(indent + '}', begun)]
    return name, set(re.findall(r'\w+', '\n'.join(whole)))


def path_of(file, text, at):
    """The end of the name of the function in whose body a text of a file is, as a check prints it: after its type, or
    its module."""
    modules = file.removeprefix('src/').removesuffix('.rt').split('/')
    modules = [it for it in modules if it not in ('lib', 'main', 'mod')]
    starts = ('impl', 'trait', 'pub trait', '}')
    outer = [name_of_block(line) for line in text[:at].split('\n') if line.startswith(starts)]
    return '::'.join([*([outer[-1]] if outer and outer[-1] else modules), function_at(text, at)[0] or ''])


def name_of_block(line):
    """What a check names the methods of a block after: the type of an `impl` and its trait, or a trait; nothing after a
    block's end."""
    impl, trait = IMPL.match(line), TRAIT.match(line)
    if impl:
        return type_name(impl[1], impl[3]) + type_name(impl[1], impl[2])
    return trait[1] if trait else ''


def type_name(parameters, text):
    """A type or a trait as a check names it, without the parameters of its `impl`: `Option<PanelId>` is OptionPanelId,
    `(u16, u16)` is Tuple2U16U16, and none is nothing."""
    if not text:
        return ''
    left_out = {it.partition(':')[0].strip() for it in (parameters or '').split(',')}
    words = [it for it in re.findall(r"'?\w+", text) if it not in left_out and it[0] != "'"]
    first = 'Ref' if text[0] == '&' else '' if text[0] != '(' else f'Tuple{len(words)}' if words else 'Unit'
    return first + ''.join(it[0].upper() + it[1:] for it in words)
