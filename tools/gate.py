"""The libraries that the gate has just made, for what is built or checked over them. The gate leaves no stamp with a library, since it
holds statements without their proofs, so the kit's own commands would prove all of them again.

It calls the kit's own functions, which may be others in another kit: what is raised then says which.
"""
import importlib
import os
import shutil
import sys


class OtherGate(Exception):
    """Why something is not as the gate found it or left it."""


def load_kit():
    """What the kit's command `rt` is made of."""
    sys.dont_write_bytecode = True
    sys.path.insert(0, os.path.dirname(os.path.realpath(shutil.which('rt'))))
    return importlib.import_module('rtlib')


def is_of_gate(library, began):
    """Whether a library is of a gate that began then: made by it, or kept of an earlier one and put there anew. What any other command makes
    has a stamp beside it."""
    made = os.path.isfile(f'{library.rlib}/format') and os.path.getmtime(library.rlib) > began
    return made and not os.path.exists(f'{os.path.dirname(library.rlib)}/stamp')


def crates_over(rtlib, names, mark):
    """Some crates over the libraries of the gate that began right after a file was written. While they are held, no other command works in
    their folders or below."""
    root = os.path.dirname(os.path.dirname(os.path.realpath(__file__)))
    began = os.path.getmtime(mark)
    known = {}
    crates = [rtlib.Crate(f'{root}/crates/{name}', root, known) for name in names]
    below = list({it.folder: it for crate in crates for it in crate.below()}.values())
    held = rtlib.lock([*below, *crates])
    for crate in crates:
        crate.held = held
    for it in below:
        if not is_of_gate(it, began):
            raise OtherGate(f'the library {it.name} is not of this gate')
    for it in [f'{root}/crates.txt', *(file for it in [*below, *crates] for file in rtlib.files_of(it.folder))]:
        if os.path.getmtime(it) > began:
            raise OtherGate(f'{os.path.relpath(it, root)} has changed since the gate began')
    return crates
