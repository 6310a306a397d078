"""What check says of a script. Of a line that explains itself at length only its beginning is said here."""
from .calls import CALLS
from .script import BAD_ARGUMENT, BAD_BYTE, LONGEST_LINE, TOO_LONG, UNKNOWN_CALL, faults_of, lines_of, pieces_of


def finding(number, line, fault):
    """How the line that tells of a fault begins."""
    if fault.kind == TOO_LONG:
        what = f'the line is longer than {LONGEST_LINE} bytes\n'
    elif fault.kind == BAD_BYTE:
        what = f'bad byte {line[fault.column - 1]:02x}: '
    elif fault.kind == UNKNOWN_CALL:
        begins = 'the line begins with a space, and not with a call or #\n'
        what = begins if line.startswith(b' ') else 'unknown call "'
    else:
        word = line.split(b' ')[0].decode()
        forms = CALLS[word][0]
        pieces = pieces_of(line, forms)
        wanted = f'{len(forms)} argument' + ('' if len(forms) == 1 else 's')
        what = f'{word} wants ' if fault.kind == BAD_ARGUMENT else f'{word} takes {wanted}, {len(pieces)} given'
    return f'line {number}, column {fault.column}: {what}'


def findings(script):
    """How each line that check tells begins."""
    lines, faults = lines_of(script), faults_of(script)
    told = [finding(number, lines[number - 1], fault) for number, fault in faults]
    if faults:
        told.append('1 faulty line\n' if len(faults) == 1 else f'{len(faults)} faulty lines\n')
    return told
