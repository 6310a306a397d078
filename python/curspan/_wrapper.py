"""Runs a function over a terminal."""
from typing import Any, Callable, TypeVar

from ._curspan import Terminal

T = TypeVar('T')


def wrapper(function: Callable[..., T], *arguments: Any, **names: Any) -> T:
    """Calls the function with a terminal and what else is given, and returns what it returns. The terminal is given back however that ends."""
    with Terminal() as terminal:
        return function(terminal, *arguments, **names)
