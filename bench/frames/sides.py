"""The two sides of a comparison: Curspan, and the same calls through ncurses on a terminal of exactly Curspan's profile."""
import os
import re
import shutil
import subprocess

import workloads

HERE = os.path.dirname(os.path.realpath(__file__))
BUILT = os.path.join(HERE, '../../crates/curspan/out/curspan')
SIZES = {'24x80': (24, 80), '60x200': (60, 200), '255x255': (255, 255)}
TIMED_FRAMES = {'24x80': 800, '60x200': 240, '255x255': 80}
COUNTED_FRAMES = {'24x80': 60, '60x200': 30, '255x255': 12}
MISSING, NO_PROGRAM = 77, 125


class Failure(Exception):
    """What ends the whole run, with its status."""

    def __init__(self, text, status=1):
        super().__init__(text)
        self.status = status


def build_reference(work):
    """Builds what makes the calls through ncurses, and the terminal's entries, in the folder of this run."""
    for tool in ('cc', 'tic'):
        if not shutil.which(tool):
            raise Failure(f'{tool} is not installed: apt-get install -y gcc libc6-dev ncurses-bin libncurses-dev', MISSING)
    built = subprocess.run(['cc', '-O2', '-o', f'{work}/ncurses_run', f'{HERE}/ncurses_run.c', '-lpanel', '-lncurses'],
                           capture_output=True, text=True)
    if built.returncode != 0:
        raise Failure('ncurses_run.c was not built (apt-get install -y libncurses-dev?):\n' + built.stderr, MISSING)
    subprocess.run(['tic', '-x', '-o', f'{work}/terminals', f'{HERE}/profile.ti'], check=True)


class Bench:
    def __init__(self, program, work, entry):
        if not os.access(program, os.X_OK) or os.path.isdir(program):
            raise Failure(f'there is no program {program}: ./curspan builds it', NO_PROGRAM)
        self.program, self.work = os.path.realpath(program), work
        self.environment = dict(os.environ, TERMINFO=f'{work}/terminals', TERM=entry)

    def curspan(self, job, size, given):
        lines, columns = SIZES[size]
        ran = subprocess.run([self.program, job, '--lines', str(lines), '--cols', str(columns)], input=given, capture_output=True)
        if ran.returncode != 0:
            raise Failure(f'curspan {job} ended with status {ran.returncode}: {ran.stderr.decode()[-300:]}')
        return ran.stdout

    def curspan_frames(self, script, size, every):
        """The text of each frame: what a script up to it sends, less what one up to the frame before does."""
        ends = [i + 1 for i, call in enumerate(script) if call == 'doupdate']
        whole = self.curspan('run', size, as_text(script))
        if not every:
            return whole, None
        sent = [len(self.curspan('run', size, as_text(script[:end]))) for end in ends]
        return whole, [0] + sent

    def ncurses_frames(self, script, size):
        """What ncurses sent, and how much of it at the start and after each frame."""
        out, frames = f'{self.work}/out', f'{self.work}/frames'
        subprocess.run(self.reference(size, out) + [frames], input=as_text(script), env=self.environment, check=True)
        with open(out, 'rb') as sent, open(frames) as offsets:
            return sent.read(), [int(line) for line in offsets]

    def reference(self, size, out):
        lines, columns = SIZES[size]
        return [f'{self.work}/ncurses_run', str(lines), str(columns), out]

    def compare_pictures(self, size, ours, our_ends, theirs, their_ends):
        """Both must show the same after some frames, the last one among them."""
        last = len(their_ends) - 1
        for frame in sorted({max(1, last * part // 5) for part in range(1, 6)}):
            left = self.curspan('show', size, ours[:our_ends[frame]]) if our_ends else None
            if left is None and frame == last:
                left = self.curspan('show', size, ours)
            right = self.curspan('show', size, theirs[:their_ends[frame]])
            if left is not None and left != right:
                raise Failure(f'after frame {frame} the pictures differ')

    def spend(self, words, script):
        """The processor time of a program on a script, in seconds."""
        with open(script, 'rb') as given, open(os.devnull, 'wb') as out:
            running = subprocess.Popen(words, stdin=given, stdout=out, stderr=out, env=self.environment)
            _, status, used = os.wait4(running.pid, 0)
            running.returncode = os.waitstatus_to_exitcode(status)
        if running.returncode != 0:
            raise Failure(f'{words[0]} ended with status {running.returncode}')
        return used.ru_utime + used.ru_stime

    def count(self, words, script):
        """The instructions of a program on a script, by callgrind: the same on any machine."""
        told = f'{self.work}/callgrind'
        with open(script, 'rb') as given, open(os.devnull, 'wb') as out:
            ran = subprocess.run(['valgrind', '--tool=callgrind', f'--callgrind-out-file={told}', *words], stdin=given, stdout=out, stderr=out,
                                 env=self.environment)
        if ran.returncode != 0:
            raise Failure(f'{words[0]} ended with status {ran.returncode} under valgrind')
        with open(told) as counted:
            return int(re.search(r'^(?:summary|totals): (\d+)', counted.read(), re.M)[1])

    def programs(self, lines, columns):
        """The words that run a script on a screen of this size, of Curspan and of ncurses."""
        size = [str(lines), str(columns)]
        return ([self.program, 'run', '--lines', size[0], '--cols', size[1]], [f'{self.work}/ncurses_run', *size, os.devnull])

    def of_frame(self, name, size, measure, frames, runs, sides):
        """What a frame takes of Curspan, side 0, and of ncurses, side 1: a run of the whole script less one without its updates."""
        script = workloads.script_of(name, *SIZES[size], frames)
        whole, without = f'{self.work}/whole', f'{self.work}/without'
        write(whole, script)
        write(without, [call for call in script if call not in ('update_panels', 'doupdate')])
        programs = self.programs(*SIZES[size])
        spent = {}
        for _ in range(runs):
            for key in ((side, text) for side in sides for text in (whole, without)):
                spent.setdefault(key, []).append(measure(programs[key[0]], key[1]))
        return [(min(spent[side, whole]) - min(spent[side, without])) / frames for side in sides]

    def time_of_frame(self, name, size, runs):
        """Microseconds a frame."""
        return [each * 1e6 for each in self.of_frame(name, size, self.spend, TIMED_FRAMES[size], runs, (0, 1))]

    def instructions_of_frame(self, name, size, sides=(0, 1)):
        """Thousands of instructions a frame."""
        return [each / 1e3 for each in self.of_frame(name, size, self.count, COUNTED_FRAMES[size], 1, sides)]


def has_valgrind():
    return shutil.which('valgrind') is not None


def as_text(script):
    return ('\n'.join(script) + '\n').encode()


def write(place, script):
    with open(place, 'wb') as file:
        file.write(as_text(script))
