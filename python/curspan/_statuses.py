"""The exceptions by their numbers in C. Each is one of the package to its users."""
from typing import Dict, Type

from . import _written_errors
from ._errors import Closed, Error, Refusal, TerminalError, WriteFailed

REFUSALS = [getattr(_written_errors, name) for name in _written_errors.__all__]
BY_STATUS: Dict[int, Type[Error]] = {it.status: it for it in [*REFUSALS, WriteFailed, Closed]}
for _it in (Error, Refusal, TerminalError, *BY_STATUS.values()):
    _it.__module__ = 'curspan'
