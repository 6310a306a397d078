"""The smallest script or stream of which a check still fails: pieces are left out, and texts and numbers made smaller."""
import re
import time

MOST_SECONDS = 60


class Search:
    """Goes on as long as something smaller still fails, and not for longer than MOST_SECONDS."""

    def __init__(self, fails):
        self.fails = fails
        self.end = time.monotonic() + MOST_SECONDS

    def still_fails(self, pieces):
        return time.monotonic() < self.end and self.fails(pieces)

    def without_pieces(self, pieces):
        """Leaves out halves, quarters and so on, down to single pieces."""
        count = max(len(pieces) // 2, 1)
        while count:
            at = 0
            while at < len(pieces):
                fewer = pieces[:at] + pieces[at + count:]
                if self.still_fails(fewer):
                    pieces = fewer
                else:
                    at += count
            count //= 2
        return pieces

    def with_smaller(self, pieces):
        """Puts a smaller line in the place of each."""
        for at in range(len(pieces)):
            is_smaller = True
            while is_smaller:
                is_smaller = False
                for line in smaller_lines(pieces[at]):
                    fewer = pieces[:at] + [line] + pieces[at + 1:]
                    if self.still_fails(fewer):
                        pieces, is_smaller = fewer, True
                        break
        return pieces


def smaller_lines(line):
    """A line with a shorter end, or a smaller number."""
    for length in (len(line) // 2, len(line) // 4, 1):
        if 10 < len(line) and length:
            yield line[:-length]
    for found in re.finditer(rb'(?<= )[0-9]+(?= |$)', line):
        value = int(found.group())
        for less in {0, value // 2, value - 1}:
            if 0 <= less < value:
                yield line[:found.start()] + b'%d' % less + line[found.end():]


def script_text(lines, ending):
    return b'\n'.join(lines) + ending if lines else b''


def smallest_script(text, fails):
    """The smallest script that still fails, with a newline at its end where it fails with one."""
    lines = text.split(b'\n')
    if lines[-1] == b'':
        lines.pop()
    for ending in (b'\n', b''):
        search = Search(lambda lines, ending=ending: fails(script_text(lines, ending)))
        if search.still_fails(lines):
            before = None
            while before != lines:
                before = lines
                lines = search.with_smaller(search.without_pieces(lines))
            return script_text(lines, ending)
    return text


def smallest_stream(text, fails):
    search = Search(lambda pieces: fails(b''.join(pieces)))
    return b''.join(search.without_pieces([text[at:at + 1] for at in range(len(text))]))
