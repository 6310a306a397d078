"""The product's own trial: scripts and streams by chance, and what must hold whatever they are. tests/random starts it.

scripts      writes scripts: a walk that looks at the oracle's world, so that most calls are accepted
arguments    what follows each word of a script
spoiling     faulty lines, long lines and bytes of every kind
streams      writes streams of terminal bytes: valid, mutated, cut
program      runs the program: whole, in pieces, and with a write that fails
differing    how it is said that something doesn't hold
of_scripts   what must hold of a script
of_streams   what must hold of a stream
of_writes    what must hold where a write fails
shrinking    the smallest script or stream of which something still doesn't hold
__main__     goes through the seeds
"""
