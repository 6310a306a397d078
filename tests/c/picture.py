"""Puts out, of what `tmux capture-pane -e -p -N` puts out with lines that tell the cursor after each screen, the pictures in the form of
`curspan paint`: each line between bars, and below it a line of attributes and one of colours where some cell has them. Blanks that
were written and those that weren't are the same, and so are blanks in other foregrounds. A character of the alternate set is its letter with a
bit of its own. One that isn't ASCII is its letter without marks, or a question mark, and after a wide one a blank.

usage: picture.py COLUMNS < CAPTURE"""
import re
import sys
import unicodedata

BITS = {1: 0x01, 2: 0x02, 4: 0x04, 5: 0x08, 7: 0x10, 8: 0x20}
ALTERNATE = 0x40
FOREGROUND_SEEN = 0x14  # underlined or reversed


def select(rendition, codes):
    attributes, foreground, background = rendition
    for code in codes:
        if code == 0:
            attributes, foreground, background = 0, "-", "-"
        elif code in BITS:
            attributes |= BITS[code]
        elif 30 <= code <= 37:
            foreground = str(code - 30)
        elif 40 <= code <= 47:
            background = str(code - 40)
        elif code == 39:
            foreground = "-"
        elif code == 49:
            background = "-"
        else:
            sys.exit(f"picture.py: rendition {code} is none of a picture")
    return attributes, foreground, background


def drawn(character):
    if character.isascii():
        return character
    letter = unicodedata.normalize("NFD", character)[0]
    if unicodedata.category(character) in ("Mn", "Me", "Cf"):
        return ""
    return (letter if letter.isascii() else "?") + " " * (unicodedata.east_asian_width(character) in "FW")


def main():
    columns = int(sys.argv[1])
    rendition = (0, "-", "-")
    alternate = 0
    for line in sys.stdin.read().split("\n")[:-1]:
        if line.startswith("--- cursor "):
            print(line[4:] + "\n")
            rendition = (0, "-", "-")
            alternate = 0
            continue
        cells = []
        for codes, other in re.findall(r"\x1b\[([0-9;]*)m|(.)", line):
            if other in ("\x0e", "\x0f"):
                alternate = ALTERNATE if other == "\x0e" else 0
            elif other:
                attributes, foreground, background = rendition
                if other == " " and not attributes & FOREGROUND_SEEN:
                    foreground = "-"
                cells += [(character, (attributes | (alternate if character != ' ' else 0), foreground, background)) for character in drawn(other)]
            else:
                rendition = select(rendition, [int(code or 0) for code in codes.split(";")])
        blank = (" ", (0, "-", "-"))
        while len(cells) > columns and cells[-1] == blank:
            cells.pop()
        cells += [blank] * (columns - len(cells))
        print("|" + "".join(character for character, _ in cells) + "|")
        if any(attributes for _, (attributes, _, _) in cells):
            print(":" + "".join(f"{attributes:02x}" for _, (attributes, _, _) in cells))
        if any(foreground + background != "--" for _, (_, foreground, background) in cells):
            print("%" + "".join(foreground + background for _, (_, foreground, background) in cells))


main()
