"""Runs the program: on a whole input or on pieces, each of which is one read, and with a limit on what a stream takes."""
import os
import resource
import signal
import socket
import subprocess
from typing import NamedTuple

SECONDS = 30
LARGEST_PIECE = 256
LARGEST_WRITE = 65536
MOST_KEPT = 100


class Came(NamedTuple):
    """What came of a run."""
    out: bytes
    log: bytes
    status: int


class Program:
    """A program, and a folder for what it reads and writes."""

    def __init__(self, path, work):
        self.path = path
        self.work = work
        self.kept = {}      # what came of the last runs on whole inputs, as several checks want the same

    def file(self, name):
        return os.path.join(self.work, name)

    def run(self, words, text):
        """Reads a whole input."""
        key = (*words, text)
        if key not in self.kept:
            if len(self.kept) == MOST_KEPT:
                self.kept.clear()
            with self.reading(text) as given:
                self.kept[key] = self.finish(words, given)
        return self.kept[key]

    def reading(self, text):
        """An open file that holds a text."""
        with open(self.file('input'), 'wb') as file:
            file.write(text)
        return open(self.file('input'), 'rb')

    def run_in_pieces(self, words, pieces):
        """Reads an input of which each piece is one read, however fast the program is."""
        given, ours = socket.socketpair(socket.AF_UNIX, socket.SOCK_SEQPACKET)
        with given, ours:
            return self.finish(words, given, lambda: feed(given, ours, pieces))

    def run_limited(self, words, text, limit, is_log=False):
        """Output, or the log, goes to a file that takes so many bytes and no more."""
        limits = resource.getrlimit(resource.RLIMIT_FSIZE)
        read_end, write_end = os.pipe()
        with self.reading(text) as given, open(self.file('limited'), 'w+b') as limited, open(write_end, 'wb') as other:
            streams = (other, limited) if is_log else (limited, other)
            resource.setrlimit(resource.RLIMIT_FSIZE, (limit, limits[1]))
            try:
                child = self.start(words, given, *streams, restore_signals=False)
            finally:
                resource.setrlimit(resource.RLIMIT_FSIZE, limits)
            other.close()
            with open(read_end, 'rb') as pipe:
                through_pipe = pipe.read()
            status = wait(child)
            limited.seek(0)
            through_file = limited.read()
        return Came(through_pipe, through_file, status) if is_log else Came(through_file, through_pipe, status)

    def run_into(self, words, text, out, log=None):
        """Output, or the log, goes to an open file that fails. Only the other one comes back."""
        with self.reading(text) as given, open(self.file('other'), 'w+b') as other:
            child = self.start(words, given, out or other, log or other, restore_signals=False)
            status = wait(child)
            other.seek(0)
            came = other.read()
        return Came(came, b'', status) if log else Came(b'', came, status)

    def ends_of_writes(self, words, text):
        """After how many bytes of output each write of a run ends."""
        ours, theirs = socket.socketpair(socket.AF_UNIX, socket.SOCK_SEQPACKET)
        ends, at = [], 0
        with self.reading(text) as given, ours, open(self.file('log'), 'w+b') as log:
            with theirs:
                child = self.start(words, given, theirs, log)
            while came := ours.recv(LARGEST_WRITE):
                at += len(came)
                ends.append(at)
            wait(child)
        return ends

    def finish(self, words, given, while_running=lambda: None):
        with open(self.file('out'), 'w+b') as out, open(self.file('log'), 'w+b') as log:
            child = self.start(words, given, out, log)
            while_running()
            status = wait(child)
            out.seek(0)
            log.seek(0)
            return Came(out.read(), log.read(), status)

    def start(self, words, given, out, log, **how):
        return subprocess.Popen([self.path, *words], stdin=given, stdout=out, stderr=log, **how)


def feed(given, ours, pieces):
    """Sends each piece as one message. The program may end before it has read them all."""
    given.close()
    try:
        for piece in pieces:
            ours.send(piece)
    except (BrokenPipeError, ConnectionResetError):
        pass
    ours.close()


def wait(child):
    """The status of a child, which may not go on for longer than SECONDS."""
    def end(*_):
        child.kill()
    before = signal.signal(signal.SIGALRM, end)
    signal.alarm(SECONDS)
    try:
        return child.wait()
    finally:
        signal.alarm(0)
        signal.signal(signal.SIGALRM, before)


def cut(text, sizes):
    """The pieces of a text of these sizes, the last size again and again."""
    pieces, at = [], 0
    sizes = iter(sizes)
    size = 1
    while at < len(text):
        size = min(next(sizes, size), LARGEST_PIECE)
        pieces.append(text[at:at + size])
        at += size
    return pieces
