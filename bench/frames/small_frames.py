"""Small frames and whole ones, whose instructions are counted as the difference between some frames and twice as many: so the start falls
out. The lines that change the cells are in the count."""
import random

from sides import write

UPDATE = ['update_panels', 'doupdate']
LETTERS = 'abcdefghij'


def cells_changed(cells):
    """Frames in each of which so many cells change, anywhere."""
    def script(lines, columns, frames):
        chance = random.Random(3)
        calls = list(UPDATE)
        for _ in range(frames):
            for _ in range(cells):
                calls += [f'move 0 {chance.randrange(lines - 1)} {chance.randrange(columns - 1)}', 'addch 0 ' + chance.choice(LETTERS)]
            calls += UPDATE
        return calls
    return script


def whole_screen(lines, columns, frames):
    """Frames in which each line has another text."""
    script = list(UPDATE)
    for frame in range(frames):
        for line in range(lines):
            script += [f'move 0 {line} 0', 'addstr 0 ' + LETTERS[frame % 10] * (columns - 1)]
        script += UPDATE
    return script


def written_alone(lines, columns, frames):
    """What a whole screen's frames take without their update."""
    return [call for call in whole_screen(lines, columns, frames) if call not in UPDATE]


def repeated(calls):
    """Calls after an update, again and again."""
    return lambda lines, columns, frames: UPDATE + calls * frames


def each(script, frames, part=1):
    """What counts the instructions of a frame of a script, or of a part of it, from so many frames."""
    def count(bench, size, side):
        few, many = f'{bench.work}/few', f'{bench.work}/many'
        write(few, script(*size, frames))
        write(many, script(*size, 2 * frames))
        words = bench.programs(*size)[side]
        return (bench.count(words, many) - bench.count(words, few)) / frames / part
    return count


def whole_repaint(bench, size, side):
    """A whole screen's update_panels and doupdate, without the lines that write it."""
    return each(whole_screen, 4)(bench, size, side) - each(written_alone, 4)(bench, size, side)


# What changes, the screen, the most instructions, which are 30 percent over what was counted, and what counts them. Of one cell of the
# largest screen 4,000 are one `rep stosb`, which untouches the lines of its window: valgrind counts each byte that it stores.
ROWS = [
    ('one cell', (24, 80), 4600, each(cells_changed(1), 200)),
    ('one cell', (255, 255), 5030, each(cells_changed(1), 40)),
    ('one cell', (999, 999), 9880, each(cells_changed(1), 10)),
    ('ten cells', (24, 80), 25900, each(cells_changed(10), 100)),
    ('ten cells', (255, 255), 28000, each(cells_changed(10), 20)),
    ('ten cells', (999, 999), 29200, each(cells_changed(10), 6)),
    ('nothing: `doupdate` alone', (24, 80), 980, each(repeated(['doupdate']), 20)),
    ('nothing: `doupdate` alone', (999, 999), 980, each(repeated(['doupdate']), 20)),
    ('all: `update_panels` and `doupdate`', (255, 255), 1000000, whole_repaint),
    ('a character of `addstr`', (24, 80), 28, each(repeated(['move 0 0 0', 'addstr 0 ' + 'x' * 70]), 200, 70)),
    ('a short line, `move`', (24, 80), 415, each(repeated(['move 0 1 1']), 1000)),
]
