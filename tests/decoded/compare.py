"""Compares the keys of the proved decoder with what libvterm's keyboard sends, with what libtermkey reads of the same
bytes and what its tests want, and with the capabilities of terminfo. What differs stands in lists here, with its
reason; anything else that differs is a fault, and so is a row of a list that differs no more. The words are the
programs `decode`, `libvterm` and `libtermkey`, and the table of libtermkey's tests."""
import collections
import pathlib
import re
import subprocess
import sys

DECODE, SENDS, READS, TABLE = sys.argv[1:]
TYPES = 'xterm-256color tmux-256color screen linux rxvt-unicode-256color konsole alacritty foot'.split()
MODIFIERS = ['', 'shift+', 'alt+', 'alt+shift+', 'ctrl+', 'ctrl+shift+', 'ctrl+alt+', 'ctrl+alt+shift+']

# Capabilities of keys. One in large letters, as kUP, has shift, and with a number after it, as kUP5, the modifiers of
# that number.
CAPABILITIES = {
    'kcuu1': 'up', 'kcud1': 'down', 'kcub1': 'left', 'kcuf1': 'right', 'khome': 'home', 'kend': 'end', 'kpp': 'pageup',
    'knp': 'pagedown', 'kich1': 'insert', 'kdch1': 'delete', 'kbs': 'backspace', 'kcbt': 'shift+tab', 'kent': 'enter',
    'kbeg': 'begin', 'ka1': 'a1', 'ka3': 'a3', 'kb2': 'b2', 'kc1': 'c1', 'kc3': 'c3', 'kri': 'shift+up',
    'kind': 'shift+down', 'kfnd': 'home', 'kslt': 'end', 'kp5': 'begin', 'kel': 'ctrl+end', 'kcbt2': 'shift+tab',
}
SHIFTED = {'UP': 'up', 'DN': 'down', 'LFT': 'left', 'RIT': 'right', 'HOM': 'home', 'END': 'end', 'PRV': 'pageup',
           'NXT': 'pagedown', 'IC': 'insert', 'DC': 'delete', 'FND': 'home'}
NO_KEYS = {
    'kspd': 'the signal to stop', 'ka2': 'of the keypad', 'kb1': 'of the keypad', 'kb3': 'of the keypad',
    'kc2': 'of the keypad', 'kpADD': 'of the keypad', 'kpCMA': 'of the keypad', 'kpDIV': 'of the keypad',
    'kpDOT': 'of the keypad', 'kpMUL': 'of the keypad', 'kpSUB': 'of the keypad', 'kpZRO': 'of the keypad',
}
# What differs, by bytes: which keys the decoder answers, and why.
TERMINFO = {
    '1b4f45': ('begin', 'alacritty names the middle of the keypad by kb2, others by kp5'),
    '1b09': (r'alt\+tab', 'the Linux console names it kcbt, and sends it for Alt-Tab too'),
}
LIBVTERM = {
    '1b1b': ('escape escape', 'an escape ends what an escape began'),
    '(1b)?08': (r'(alt\+)?backspace', 'Ctrl-H is the byte of a backspace'),
}
LIBTERMKEY = {
    '1b1b': LIBVTERM['1b1b'],
    '1b4f3[2-6]..': (r'.*f[1-4]', 'Konsole: a digit of modifiers after SS3'),
    '1b4f6[1-4]': (r'ctrl\+(up|down|right|left)', 'rxvt'),
    '1b4f(6[a-f]|7[0-9])': ('unknown|a1|a3|b2|c1|c3', 'the keypad: characters, and by terminfo of a vt100 F5 to F10'),
    '1b5b(3[1-8](24|40|5e)|6[1-4])': (r'(ctrl\+)?(shift\+)?[a-z]+', 'rxvt'),
    '1b5b(47|5b4[1-5])': ('b2|f[1-5]', 'the Linux console'),
}

def decoded(program, lines):
    """What a program names the keys of some bytes."""
    text = ''.join(f'{line}\n' for line in lines)
    answers = subprocess.run([program], input=text, capture_output=True, text=True, errors='replace', check=True).stdout
    return answers.split('\n')[:-1]


def named(text):
    """A name in which characters beyond ASCII, and those of a number, are written so."""
    return re.sub(r'U\+([0-9A-F]+)', lambda it: chr(int(it[1], 16)), text)


def compare(what, wanted, different):
    """Tells where the decoder names the keys of bytes otherwise than is wanted and a list has it; answers how often."""
    faults, seen = 0, set()
    for (key, want, sequence), found in zip(wanted, decoded(DECODE, [it[2] for it in wanted])):
        if found == named(want):
            continue
        reasons = [pattern for pattern in different if re.fullmatch(pattern, sequence)]
        seen.update(reasons)
        if not any(re.fullmatch(different[pattern][0], found) for pattern in reasons):
            print(f'{what}: {key}, {sequence}: wanted {named(want)}, and it is {found}', file=sys.stderr)
            faults += 1
    for pattern in different.keys() - seen:
        print(f'{what}: {pattern} differs no more', file=sys.stderr)
        faults += 1
    print(f'{what}: {len(wanted)} sequences, {faults} faults')
    return faults


def capabilities(terminal):
    """The `k` capabilities of a terminal: name, key, bytes. A key past kf12 is F1 to F12 with the modifiers that its
    sequence says, but where the sequence is a number of its own, up to F20."""
    listing = subprocess.run(['infocmp', '-1', '-x', terminal], capture_output=True, text=True, check=True).stdout
    for name, value in re.findall(r'^\t(k\w+)=(.*),$', listing, re.M):
        text = re.sub(r'\\E|\\\^|\^(.)', lambda it: '\x1b' if it[0] == '\\E' else '^' if it[0] == '\\^' else
                      chr(ord(it[1]) ^ 64), value)
        if name == 'kmous':
            text += ' !!' if text.endswith('M') else '0;1;1M'
        yield name, wanted_of(name, text), text.encode('latin-1').hex()


def wanted_of(name, text):
    function, shifted = re.fullmatch(r'kf(\d+)', name), re.fullmatch(r'k([A-Z]+)([3-7]?)', name)
    number = re.search(r'(?:;|O)(\d)[~P-S]$', text)
    if name in CAPABILITIES:
        return CAPABILITIES[name]
    if name == 'kmous':
        return 'press(1,0,0)'
    if function and number:
        return MODIFIERS[int(number[1]) - 1] + f'f{(int(function[1]) - 1) % 12 + 1}'
    if function:
        return f'f{function[1]}'
    if shifted and shifted[1] in SHIFTED:
        return MODIFIERS[int(shifted[2] or 2) - 1] + SHIFTED[shifted[1]]
    return 'unknown'


def main():
    lines = subprocess.run([SENDS], capture_output=True, text=True, check=True).stdout.splitlines()
    sent = [line.split('\t') for line in lines]
    infos = {(name, want, sequence) for terminal in TYPES for name, want, sequence in capabilities(terminal)}
    faults = compare('terminfo', sorted(it for it in infos if it[0] not in NO_KEYS), TERMINFO)
    faults += compare('libvterm', [(named(name), name, sequence) for name, sequence in sent], LIBVTERM)
    rows = [line.split('\t') for line in pathlib.Path(TABLE).read_text().splitlines() if not line.startswith('#')]
    faults += compare("libtermkey's tests", [(name, name, sequence) for sequence, name in rows], {})
    sequences = sorted({sequence for _, sequence in sent} | {it[2] for it in infos})
    read = [(name or 'nothing', name, sequence) for name, sequence in zip(decoded(READS, sequences), sequences)]
    faults += compare('libtermkey', read, LIBTERMKEY)
    kinds = collections.Counter(it[0] for it in infos if it[0] in NO_KEYS)
    print(f'terminfo: no keys of Curspan: {" ".join(sorted(kinds))}')
    sys.exit(faults > 0)


main()
