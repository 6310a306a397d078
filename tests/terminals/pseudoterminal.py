"""A pseudoterminal in which a program runs: what is typed into it, what it shows, and whether it is as it was before."""
import fcntl
import os
import select
import signal
import struct
import termios
import time


def lead(slave, words, environment, statuses, commands):
    """Leads a session as a shell does: runs a program in front, tells how it stops and ends, and lets it go on where that is wanted."""
    os.setsid()
    fcntl.ioctl(slave, termios.TIOCSCTTY, 0)
    signal.signal(signal.SIGTTOU, signal.SIG_IGN)
    job = os.fork()
    if job == 0:
        os.setpgid(0, 0)
        os.tcsetpgrp(slave, os.getpid())
        for number in (signal.SIGTTOU, signal.SIGINT, signal.SIGQUIT, signal.SIGHUP):
            signal.signal(number, signal.SIG_DFL)    # whoever runs the tests may ignore some
        for descriptor in range(3):
            os.dup2(slave, descriptor)
        os.closerange(3, 256)
        os.execvpe(words[0], words, {**os.environ, 'TERM': 'xterm', **environment})
    while os.tcgetpgrp(slave) != job:
        time.sleep(0.0005)
    os.write(statuses, f'{job}\n'.encode())
    while True:
        _, status = os.waitpid(job, os.WUNTRACED)
        os.tcsetpgrp(slave, os.getpid())
        if not os.WIFSTOPPED(status):
            os.write(statuses, f'{os.waitstatus_to_exitcode(status)}\n'.encode())
            os.read(commands, 1)    # it stays as long as the terminal does
            os._exit(0)
        os.write(statuses, b'stopped\n')
        os.read(commands, 1)
        os.tcsetpgrp(slave, job)
        os.killpg(job, signal.SIGCONT)


class Terminal:
    """A program with its words runs in it, in front, as a job of a shell."""

    def __init__(self, words, lines=24, columns=80, environment=None):
        self.master, self.slave = os.openpty()
        self.resize(lines, columns)
        self.before = termios.tcgetattr(self.slave)
        self.bytes = b''
        self.told = []
        statuses, self.commands = os.pipe(), os.pipe()
        self.leader = os.fork()
        if self.leader == 0:
            try:
                lead(self.slave, words, environment or {}, statuses[1], self.commands[0])
            finally:
                os._exit(1)
        os.close(statuses[1])
        self.statuses = os.fdopen(statuses[0])
        self.process = int(self.statuses.readline())

    def resize(self, lines, columns):
        fcntl.ioctl(self.master, termios.TIOCSWINSZ, struct.pack('HHHH', lines, columns, 0, 0))

    def read(self, seconds=0.0):
        """Reads what comes in some time, and answers whether something came."""
        if not select.select([self.master], [], [], seconds)[0]:
            return False
        try:
            self.bytes += os.read(self.master, 65536)
        except OSError:
            return False
        return True

    def type(self, keys):
        os.write(self.master, keys)

    def shows(self, text, seconds=10.0, since=0):
        """Whether a text is written in some time, after so many bytes."""
        end = time.monotonic() + seconds
        while text not in self.bytes[since:] and time.monotonic() < end and not self.has_ended():
            self.read(0.02)
        return text in self.bytes[since:]

    def hears(self):
        """Takes what the shell tells."""
        while select.select([self.statuses], [], [], 0)[0]:
            line = self.statuses.readline()
            if not line:
                break
            self.told.append(line.strip())
            while self.read(0.02):
                pass
        return self.told

    @property
    def status(self):
        return int(self.told[-1]) if self.told and self.told[-1] != 'stopped' else None

    def has_ended(self):
        self.hears()
        return self.status is not None

    def stops(self, seconds=10.0):
        """Whether the program is stopped in some time."""
        end = time.monotonic() + seconds
        while not (self.hears() and self.told[-1] == 'stopped') and time.monotonic() < end and not self.has_ended():
            self.read(0.01)
        return bool(self.told) and self.told[-1] == 'stopped'

    def goes_on(self):
        self.told.clear()
        os.write(self.commands[1], b'f')

    def ends(self, seconds=10.0):
        """Whether the program ends in some time."""
        end = time.monotonic() + seconds
        while not self.has_ended() and time.monotonic() < end:
            self.read(0.01)
        return self.has_ended()

    def differences(self, seconds=1.0):
        """What of the terminal isn't as it was before the program, after some time at most."""
        end = time.monotonic() + seconds
        while self.found_now() and time.monotonic() < end:
            self.read(0.02)
        return self.found_now()

    def found_now(self):
        found = []
        if termios.tcgetattr(self.slave) != self.before:
            found.append('its modes')
        if self.bytes.rfind(b'\x1b[?1049h') > self.bytes.rfind(b'\x1b[?1049l'):
            found.append('its page')
        if self.bytes.rfind(b'\x1b[?25l') > max(self.bytes.rfind(b'\x1b[?25h'), self.bytes.rfind(b'\x1b[?12l\x1b[?25h')):
            found.append('its cursor')
        return found

    def close(self):
        for process in (self.process, self.leader):
            try:
                os.kill(process, signal.SIGKILL)
            except ProcessLookupError:
                pass
        os.waitpid(self.leader, 0)
        self.statuses.close()
        for descriptor in (self.master, self.slave, *self.commands):
            os.close(descriptor)
