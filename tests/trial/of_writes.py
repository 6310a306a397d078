"""What must hold where a write fails. A run of the program ends with its first failure, so the next doupdate is another run's; that one
in the same run repairs the terminal too can only be tried on the library, which the tests of the crates do."""
import os

from oracle.running import run_script
from oracle.script import lines_of

from .differing import want, want_that
from .of_scripts import sent_before
from .streams import rubbish

OUTPUT_FAILED = b'writing failed\n'
HANDED_ON = 4096    # the most bytes of an update that are handed on at once
BUFFERED = 1024     # the most bytes that the buffer before standard output keeps


def failed_line(script, log):
    """Looks at the log of a run whose write of terminal bytes failed: the lines of the calls before that, and the failure. Answers the
    number of the line that failed, and how many bytes of its text were taken."""
    last = log.splitlines(keepends=True)[-1]
    parts = last.split()
    want('how the log of a failed write ends', [b'line', b'write', b'failed', b'after', b'bytes'], parts[:1] + parts[2:5] + parts[6:])
    number = int(parts[1][:-1])
    want_that('a write fails in a doupdate', number in script.wanted.update_lines, last)
    before = [line for line in script.wanted.log if int(line.split()[1][:-1]) < number]
    want('the log before a failed write', ''.join(before).encode(), log[:-len(last)])
    return number, int(parts[5])


def is_failed_run(program, script, came, limit):
    """Of a run of which so many bytes went out: they are the first ones, and the failure is reported of the doupdate that has the next. It
    counts these bytes, or as far as the pieces go that the buffer before standard output had taken: to the end of the write that fails, or to
    that of the text."""
    want('the status where a write failed', 3, came.status)
    number, taken = failed_line(script, came.log)
    start, end = len(sent_before(program, script, number)), len(sent_before(program, script, number + 1))
    want_that(f'the write that fails is that of byte {limit}', start <= limit < end, (number, start, end))
    gone = limit - start
    ends = [at for at in program.ends_of_writes(script.words('run'), script.text) if limit < at <= min(end, limit + BUFFERED)]
    counts = [gone, *(at - start for at in ends[:1] + ends[-1:])]
    want_that(f'as many bytes of the doupdate were taken as one of {counts}', taken in counts, taken)


def places_in(chance, text):
    """Where a text breaks off: at a place by chance, and of one that goes out in several pieces at its last byte too."""
    yield chance.randrange(HANDED_ON if len(text) > HANDED_ON and chance.random() < 0.5 else 0, len(text))
    if len(text) > HANDED_ON:
        yield len(text) - 1


def breaks_off(program, script):
    """Where a write of terminal bytes fails, a prefix went out. What goes on from it repairs the terminal, whatever was on it before."""
    words = script.words('run')
    whole = program.run(words, script.text).out
    if not whole:
        return
    for limit in places_in(script.chance, whole):
        came = program.run_limited(words, script.text, limit)
        want('the bytes that went out before a write failed', whole[:limit], came.out)
        is_failed_run(program, script, came, limit)
        before = rubbish(script.chance, script.lines, script.columns)
        wanted = script.wanted.shown().encode()
        shown = program.run(script.words('show'), before + came.out + whole)
        want('what show prints of rubbish, a text that broke off, and a whole run', (wanted, b'', 0), tuple(shown))


def is_silent_run(script, came):
    """Of a run whose output nobody reads: it ends with the first doupdate, and nothing is said of that."""
    wanted = [line for line in script.wanted.log if int(line.split()[1][:-1]) < min(script.wanted.update_lines)]
    want('a run whose output nobody reads', (b'', ''.join(wanted).encode(), 3), tuple(came))


def fails_at_once(program, script):
    """A full device takes nothing, and no more does a pipe that nobody reads."""
    words = script.words('run')
    whole = program.run(words, script.text).out
    if not whole:
        return
    if script.chance.random() < 0.5:
        with open('/dev/full', 'wb', buffering=0) as full:
            is_failed_run(program, script, program.run_into(words, script.text, full), 0)
    else:
        read_end, write_end = os.pipe()
        os.close(read_end)
        with open(write_end, 'wb', buffering=0) as closed:
            is_silent_run(script, program.run_into(words, script.text, closed))


def has_picture_broken_off(program, script):
    """Where the picture, or what check tells, can't be written, a prefix went out, and the log says so after its other lines."""
    job = script.chance.choice(('paint', 'check', 'show'))
    text = program.run(script.words('run'), script.text).out if job == 'show' else script.text
    whole = program.run(script.words(job), text)
    if not whole.out:
        return
    limit = script.chance.randrange(len(whole.out))
    came = program.run_limited(script.words(job), text, limit)
    want(f'what {job} puts out before a write fails', (whole.out[:limit], whole.log + OUTPUT_FAILED, 3), tuple(came))


def has_log_broken_off(program, script):
    """Where the log can't be written, its first bytes are there, and the calls after that were not made."""
    whole = program.run(script.words('run'), script.text)
    if not whole.log:
        return
    limit = script.chance.randrange(len(whole.log))
    came = program.run_limited(script.words('run'), script.text, limit, is_log=True)
    want('the log before a write of it fails', whole.log[:limit], came.log)
    last_line = len(script.wanted.log[-1]) if script.wanted.fault else 0
    is_of_fault = script.wanted.fault and limit >= len(whole.log) - last_line
    want('the status where the log failed', 2 if is_of_fault else 3, came.status)
    number = failing_call(script, limit)
    want('what was sent before the log failed', sent_before(program, script, number + 1), came.out)


def failing_call(script, limit):
    """The number of the line whose words in the log have the byte after the limit."""
    for line in script.wanted.log:
        if limit < len(line):
            return int(line.split()[1][:-1])
        limit -= len(line)
    return len(lines_of(script.text))


def is_repaired_by_another(program, script):
    """Another script goes on from a prefix of what this one sent."""
    whole = program.run(script.words('run'), script.text).out
    other = b'addstr 0 %d\nupdate_panels\ndoupdate\n' % script.chance.randrange(10)
    sent = program.run(script.words('run'), other).out
    wanted = run_script(script.lines, script.columns, other).shown().encode()
    shown = program.run(script.words('show'), whole[:script.chance.randint(0, len(whole))] + sent)
    want('what show prints of a text that broke off and of another run', (wanted, b'', 0), tuple(shown))


CHECKS = (breaks_off, fails_at_once, has_picture_broken_off, has_log_broken_off, is_repaired_by_another)
