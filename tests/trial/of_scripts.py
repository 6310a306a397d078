"""What must hold of a script, whatever it says."""
import random
from functools import cached_property

from oracle.economy import waste_of
from oracle.findings import findings
from oracle.printing import picture_text
from oracle.refreshing import OPENING
from oracle.running import run_script
from oracle.script import lines_of
from oracle.terminal import Terminal

from .differing import Differs, want, want_that
from .program import Came, cut
from .streams import rubbish

MOST_UPDATES = 6


class Script:
    """A script on a screen of a size, with chance for what a check itself chooses."""

    jobs = ('run', 'paint', 'check')

    def __init__(self, lines, columns, text):
        self.lines = lines
        self.columns = columns
        self.text = text
        self.chance = random.Random(0)
        self.replayed = None    # the calls and questions that programs of other languages make, once they are made

    @cached_property
    def wanted(self):
        """What the oracle says comes of it."""
        return run_script(self.lines, self.columns, self.text)

    def words(self, job):
        return [job] if job == 'check' else [job, '--lines', str(self.lines), '--cols', str(self.columns)]

    def first_lines(self, count):
        return b''.join(line + b'\n' for line in lines_of(self.text)[:count])

    def ends_updated(self):
        """Whether its last calls are update_panels and doupdate."""
        lines = [line for line in lines_of(self.text) if line and not line.startswith(b'#')]
        return not self.wanted.fault and lines[-2:] == [b'update_panels', b'doupdate']


def is_run(program, script):
    """The log and the status are the oracle's, and what was sent shows what the oracle has."""
    came = program.run(script.words('run'), script.text)
    want('the log of run', script.wanted.log_text().encode(), came.log)
    want('the status of run', script.wanted.status(), came.status)
    shown = program.run(script.words('show'), came.out)
    want('what show prints of what run sent', Came(script.wanted.shown().encode(), b'', 0), shown)


def is_painted(program, script):
    """The picture is the oracle's, the log and the status are those of run, and show prints the same where all was updated."""
    came = program.run(script.words('paint'), script.text)
    want('what paint prints', script.wanted.painted().encode(), came.out)
    ran = program.run(script.words('run'), script.text)
    want('the log of paint', ran.log, came.log)
    want('the status of paint', ran.status, came.status)
    if script.ends_updated():
        want('what show prints where all was updated', came.out, program.run(script.words('show'), ran.out).out)


# What check says of a call that every screen refuses, before the refusal.
REFUSES = ', column 1: every screen refuses this call: '


# What else may be why, before a reason that check tells, by the name of the call; and before any that a window isn't there.
SOONER = {
    'subwin': ('E8 IsPad',),
    'derwin': ('E8 IsPad',),
    'subpad': ('E9 NotPad',),
    'mvwin': ('E8 IsPad', 'E7 InPanel'),
    'mvderwin': ('E10 NotDerived',),
    'move_panel': ('E2 NoSuchPanel',),
    'replace_panel': ('E2 NoSuchPanel',),
    'pnoutrefresh': ('E9 NotPad', 'E5 OutsideWindow'),
}


def is_checked(program, script):
    """Each faulty line is reported with its column and its kind of fault, and run ends with the first of them. A call of which it is said
    that every screen refuses it is refused so by run, if run comes to it."""
    came = program.run(script.words('check'), script.text)
    faults = findings(script.text)[:-1]
    lines = came.out.decode().splitlines(keepends=True)
    refused = [line for line in lines if REFUSES in line]
    told = [line for line in lines[:-1] if REFUSES not in line]
    want('how many faults check tells', len(faults), len(told))
    for beginning, line in zip(faults, told):
        want('what check tells', beginning, line[:len(beginning)])
    count = len(faults) + len(refused)
    want('how many lines check says are faulty', [f'{count} faulty line{"s"[:count != 1]}\n'] if count else [], lines[-1:])
    want('the log and the status of check', (b'', 2 if count else 0), (came.log, came.status))
    ran = program.run(script.words('run'), script.text)
    want('whether run ends with a fault', bool(faults), ran.status == 2)
    log = ran.log.decode().splitlines()
    if faults:
        want('the line with whose fault run ends', faults[0].split(',')[0], log[-1].split(':')[0])
    last = int(faults[0].split(',')[0].split()[1]) if faults else None
    for line in refused:
        number, why = line.rstrip('\n').split(REFUSES)
        refusal, _, meaning = why.partition(': ')
        want_that('check says what the refusal means', meaning, line)
        place = int(number.split()[1])
        if last is None or place < last:
            word = script.text.split(b'\n')[place - 1].split(b' ')[0].decode()
            why = [f'{number}: {it}' for it in (refusal, 'E1 NoSuchWindow', *SOONER.get(word, ()))]
            want_that('run refuses what every screen refuses', any(it in log for it in why), ran.log)


def sizes_of_pieces(script):
    """Pieces of one byte, of another size, or of any."""
    kind = script.chance.randrange(3)
    if kind == 0:
        return [1]
    if kind == 1:
        return [script.chance.randint(2, 256)]
    return (script.chance.choice((1, 2, 3, 50, 256)) for _ in iter(int, 1))


def is_read_in_pieces(program, script):
    """However its text is cut, a script is read the same: in two, byte by byte, or in pieces of any size."""
    for job in ('run', 'check', 'paint')[:script.chance.choice((1, 2, 3))]:
        whole = program.run(script.words(job), script.text)
        pieces = cut(script.text, sizes_of_pieces(script))
        want(f'{job} of a script in pieces', whole, program.run_in_pieces(script.words(job), pieces))


def sent_before(program, script, number):
    """What was sent by the lines before one."""
    return program.run(script.words('run'), script.first_lines(number - 1)).out


def is_text_of(update, text, script):
    """What each text of an update must be."""
    want('whether a doupdate clears', update.clears, text.startswith(OPENING))
    want_that(f'a doupdate sends at most {update.most_bytes} bytes', len(text) <= update.most_bytes, text)
    terminal = Terminal(script.lines, script.columns)
    if update.clears:
        terminal.read(rubbish(script.chance, script.lines, script.columns))
    else:
        terminal.picture = [line[:] for line in update.before]
        terminal.cursor = update.cursor_before
    want_that('a doupdate sends what is in the profile', terminal.read(text) is None, text)
    want('what a doupdate shows', picture_text(update.after, update.cursor),
         picture_text(terminal.picture, terminal.cursor, terminal.rendition))
    if update.is_unchanged():
        position = b'' if update.cursor == update.cursor_before else b'\x1b[%d;%dH' % (update.cursor[0] + 1, update.cursor[1] + 1)
        want('what a doupdate sends where nothing changed', (OPENING if update.clears else b'') + position, text)
    opening = len(OPENING) if update.clears else 0
    want('what of a doupdate is not needed', None, waste_of(update, text[opening:], script.lines, script.columns))


def updates_rightly(program, script):
    """Each doupdate sends a text of its own: it clears where it must, shows what it must, from rubbish too, and is no longer than it
    may be. A run of the first lines of a script sends the first bytes of what the whole script does."""
    whole = program.run(script.words('run'), script.text).out
    rows = list(zip(script.wanted.update_lines, script.wanted.world.updates))
    first = script.chance.randint(0, max(len(rows) - MOST_UPDATES, 0))
    rows = rows[first:first + MOST_UPDATES]
    before = sent_before(program, script, rows[0][0]) if rows else b''
    for number, update in rows:
        after = sent_before(program, script, number + 1)
        want_that('the first lines of a script send the first bytes of it', after.startswith(before) and whole.startswith(after), after)
        try:
            is_text_of(update, after[len(before):], script)
        except Differs as differs:
            raise Differs(f'line {number}: {differs.what}', differs.wanted, differs.came) from None
        before = after


def reads_few_cells(probe, script):
    """Each update_panels reads no fewer cells than it changes, and no more than the lines have that were affected. A script with a fault
    is counted up to it."""
    fault = script.wanted.fault
    text = script.first_lines(fault[0] - 1) if fault else script.text
    came = probe.run([str(script.lines), str(script.columns)], text)
    want('the status of probe', 0, came.status)
    counts = [int(line) for line in came.out.split()]
    bounds = script.wanted.world.counts
    want('how many update_panels are counted', len(bounds), len(counts))
    for (fewest, most), count in zip(bounds, counts):
        want_that(f'an update_panels reads from {fewest} to {most} cells', fewest <= count <= most, count)


CHECKS = (is_run, is_painted, is_checked, is_read_in_pieces, updates_rightly)
