"""Reads a PNG, as https://www.w3.org/TR/png-3/ has it: one of 8 bits a channel, in colours, that isn't interlaced."""
import itertools
import operator
import re
import struct
import zlib

ZEROS = re.compile(b'\0*')


def paeth(left, above, corner):
    """The predictor of section 9.4."""
    by_left, by_above, by_corner = abs(above - corner), abs(left - corner), abs(left + above - 2 * corner)
    if by_left <= by_above and by_left <= by_corner:
        return left
    return above if by_above <= by_corner else corner


def unfiltered(kind, line, above, step):
    """A line without its filter (section 9.2). A pixel has as many bytes as a step."""
    low = (255).__and__
    if kind == 0:
        return line
    if kind == 1:
        its = bytearray(len(line))
        for channel in range(step):
            its[channel::step] = bytes(map(low, itertools.accumulate(line[channel::step])))
        return bytes(its)
    if kind == 2:
        return bytes(map(low, map(operator.add, line, above)))
    its, above, at = bytearray(step) + line, bytes(step) + above, step
    while at < len(its):
        end = at
        if kind == 4 and its[at - step:at] == above[at - step:at]:
            end = ZEROS.match(its, at).end()
            its[at:end] = above[at:end]     # where the left is as the corner, what is above is predicted
        if end == at:
            left, upper, end = its[at - step], above[at], at + 1
            its[at] = its[at] + ((left + upper) // 2 if kind == 3 else paeth(left, upper, above[at - step])) & 255
        at = end
    return bytes(its[step:])


def read_png(data):
    """The lines of a picture, each a list of pixels: their red, green and blue."""
    at, packed = 8, b''
    while at < len(data):
        length, kind = struct.unpack('>I4s', data[at:at + 8])
        body, at = data[at + 8:at + 8 + length], at + 12 + length
        if kind == b'IHDR':
            width, height, depth, colours, _, _, interlace = struct.unpack('>IIBBBBB', body)
        elif kind == b'IDAT':
            packed += body
    if depth != 8 or colours not in (2, 6) or interlace:
        raise ValueError('this PNG is of another kind')
    step, unpacked, lines = 3 if colours == 2 else 4, zlib.decompress(packed), []
    line = bytes(width * step)
    for at in range(0, height * (1 + len(line)), 1 + len(line)):
        line = unfiltered(unpacked[at], unpacked[at + 1:at + 1 + len(line)], line, step)
        lines.append(list(zip(line[0::step], line[1::step], line[2::step])))
    return lines
