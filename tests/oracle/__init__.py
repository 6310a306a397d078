"""A small, slow second opinion on what the program does, written from docs/DEFINITIONS.md and docs/curspan.1.

cells        limits, cells and colours
refusals     the refusals, and how a call's tests are written
world        windows, panels and the virtual screen; which cells windows share; the one way to write; the search from the top
making       the calls that make and place windows, and queries
writing      the calls that write, and settings
copying      copies and marks
stacking     the calls on panels
refreshing   what the virtual screen takes, and what each doupdate may send
calls        the table of all calls
script       reading a script
findings     what check says of a script
running      the run of a script: log, status and picture
terminal     what a stream of bytes leaves on a terminal
economy      which bytes of an update aren't needed
printing     the text of a picture
"""
