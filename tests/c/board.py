"""Connects to a board many times, with sizes and keys by chance, and looks at what each connection is shown."""
import random
import re
import socket
import struct
import subprocess
import sys
import time

from oracle.cells import PLAIN, Shown, blank_picture
from oracle.printing import picture_text
from oracle.terminal import Terminal

SECONDS = 60
PAGE_LINES, PAGE_COLUMNS = 100, 200
ARROWS = {'up': (b'\x1b[A', -1, 0), 'down': (b'\x1b[B', 1, 0), 'right': (b'\x1b[C', 0, 1), 'left': (b'\x1b[D', 0, -1)}
REDRAW, END = b'\x0c', b'\x03'
NOISE = b'\x1b[2J\x1b[5;5Hnoise\x1b[7;1'
REVERSE = PLAIN._replace(attributes=0x10)


class Board:
    """What is written on it, and how many see it."""

    def __init__(self, port):
        self.port = port
        self.letters = {}
        self.peers = 0


class Peer:
    """A connection, with a terminal that reads what comes."""

    def __init__(self, board, lines, columns, room=None):
        self.board, self.lines, self.columns = board, lines, columns
        self.last = (min(lines - 1, PAGE_LINES) - 1, min(columns, PAGE_COLUMNS) - 1)     # the last place of the page that it sees
        self.place = (0, 0)
        self.terminal = Terminal(lines, columns)
        self.rest = b''     # what came and is no whole item yet
        self.count = 0
        self.socket = socket.socket()
        if room:
            self.socket.setsockopt(socket.SOL_SOCKET, socket.SO_RCVBUF, room)
        self.socket.connect(('127.0.0.1', board.port))
        self.socket.setblocking(False)
        self.send(b'%d %d\n' % (lines, columns))
        board.peers += 1

    def send(self, data):
        while data:
            try:
                data = data[self.socket.send(data):]
            except BlockingIOError:
                time.sleep(0.001)

    def type(self, keys):
        """Types letters, and arrows by their names."""
        self.send(b''.join(ARROWS[key][0] if key in ARROWS else key.encode() for key in keys))
        for key in keys:
            self.note(key)

    def note(self, key):
        """What a key does: a letter is written, and the cursor moves within what the screen shows of the page."""
        y, x = self.place
        if key not in ARROWS:
            self.board.letters[self.place] = key
        _, down, right = ARROWS[key if key in ARROWS else 'right']
        self.place = (min(max(y + down, 0), self.last[0]), min(max(x + right, 0), self.last[1]))

    def read(self):
        """Reads what came, up to the last whole item."""
        try:
            while came := self.socket.recv(65536):
                self.count += len(came)
                self.rest += came
        except BlockingIOError:
            pass
        end = re.search(rb'(\x1b(\[[0-9;]*)?)?\Z', self.rest).start()
        if self.terminal.read(self.rest[:end]) is not None:
            sys.exit(f'board: what came is not in the profile: {self.rest!r}')
        self.rest = self.rest[end:]

    def shown(self):
        return picture_text(self.terminal.picture, self.terminal.cursor, self.terminal.rendition)

    def wanted(self):
        picture = blank_picture(self.lines, self.columns)
        for (y, x), letter in self.board.letters.items():
            if y <= self.last[0] and x <= self.last[1]:
                picture[y][x] = Shown(ord(letter), PLAIN)
        status = f' {self.board.peers} here, you at {self.place[0]} {self.place[1]}'.ljust(self.columns)
        picture[-1] = [Shown(ord(letter), REVERSE) for letter in status]
        return picture_text(picture, self.place)

    def is_up_to_date(self):
        self.read()
        return self.shown() == self.wanted()

    def close(self, at_once=False):
        """Ends the connection, at once where what wasn't read is lost."""
        if at_once:
            self.socket.setsockopt(socket.SOL_SOCKET, socket.SO_LINGER, struct.pack('ii', 1, 0))
        self.socket.close()
        self.board.peers -= 1


def see(what, peers):
    """Waits until each is shown the newest picture."""
    ends = time.monotonic() + SECONDS
    behind = peers
    while behind := [peer for peer in behind if not peer.is_up_to_date()]:
        if time.monotonic() > ends:
            sys.exit(f'board: {what}: this is wanted:\n{behind[0].wanted()}and this is shown:\n{behind[0].shown()}')
        time.sleep(0.01)
    print(f'board: {what}: {len(peers)} of {len(peers)} are shown the newest picture')


def see_many(board, chance, count):
    """Some write, each in a line of its own, else it isn't known whose letter is the last."""
    peers = [Peer(board, min(count, 90) + chance.randint(2, 50), chance.randint(40, 250)) for _ in range(count)]
    see('sizes of their own', peers)
    for number, peer in enumerate(peers):
        letters = 'abcdefghij' if number < 90 else ''
        keys = [chance.choice(('left', 'right', *letters)) for _ in range(chance.randint(1, 40))]
        peer.type(['down'] * number + keys)
    see('cursors of their own', peers)
    return peers


def see_slow(board, chance, peers):
    """One reads nothing, while another writes. Then it gets the newest picture, and few of those before."""
    slow = Peer(board, 24, 80, room=4096)
    see('one more', [*peers, slow])
    before = (slow.count, peers[0].count)
    for _ in range(300):
        peers[0].type(['left'] * 30 + [chance.choice('ABCDEFGHIJ') for _ in range(30)])
        while not peers[0].is_up_to_date():
            time.sleep(0.001)
    see('while one reads nothing', peers)
    see('where it reads again', [slow])
    slow_count, count = slow.count - before[0], peers[0].count - before[1]
    print(f'board: it got {slow_count} bytes, and who wrote {count}')
    if slow_count > count / 2:
        sys.exit('board: it got old pictures too')
    return slow


def serve(board, chance, count):
    peers = see_many(board, chance, count)
    slow = see_slow(board, chance, peers)
    first, broken, ended, noisy, *rest = peers
    first.type(['left'] * 30 + list('an end'))
    broken.send(b'\x1b[')
    broken.close(at_once=True)
    slow.close(at_once=True)
    ended.send(END)
    ended.close()
    see('where two broke off, in a key and in a picture, and one ended', [first, noisy, *rest])
    first.send(b'\x1b')
    see('where half a key came', [first])
    first.send(b'[D')
    first.note('left')
    see('where the rest of it came', [first])
    noisy.rest += NOISE
    noisy.send(REDRAW)
    see('where one had noise, and asked for all', [noisy])


def main():
    program, count = sys.argv[1], int(sys.argv[2])
    with socket.socket() as chosen:
        chosen.bind(('127.0.0.1', 0))
        board = Board(chosen.getsockname()[1])
    with subprocess.Popen([program, str(board.port)]) as running:
        try:
            for _ in range(200):
                try:
                    socket.create_connection(('127.0.0.1', board.port)).close()
                    break
                except ConnectionRefusedError:
                    time.sleep(0.05)
            serve(board, random.Random(1), count)
            if running.poll() is not None:
                sys.exit('board: the program ended')
        finally:
            running.kill()


main()
