"""Puts the names of the keys that are typed into a file, a line each, up to Ctrl-D."""
import sys

import curspan

with open(sys.argv[1], 'w', encoding='utf-8') as file, curspan.Terminal('/dev/tty', raw=True, page=False, cursor=True, signals=True) as terminal:
    terminal.write(b'ready')
    key = ''
    while key != 'ctrl+d':
        key = terminal.key()
        file.write(f'paste {key.text}\n' if isinstance(key, curspan.Paste) else f'{key}\n')
