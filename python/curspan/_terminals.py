"""Which terminals are open, so that an exception is told after their pages are left, and keys for asyncio."""
import atexit
import contextlib
import sys
import weakref
from typing import TYPE_CHECKING, Any, AsyncIterator, Callable, Optional, Union

if TYPE_CHECKING:
    from ._curspan import Terminal
    from ._values import Key, Paste

_open: 'weakref.WeakSet[Terminal]' = weakref.WeakSet()
_hook_before: Optional[Callable[..., Any]] = None


@atexit.register
def _leave_pages() -> None:
    for terminal in list(_open):
        with contextlib.suppress(Exception):    # another thread has it, or it is gone
            terminal.suspend()


def _tell(*exception: Any) -> None:
    _leave_pages()
    if _hook_before:
        _hook_before(*exception)


def note(terminal: 'Terminal') -> None:
    """Notes that a terminal is open."""
    global _hook_before
    _open.add(terminal)
    if not _hook_before:
        _hook_before, sys.excepthook = sys.excepthook, _tell


def forget(terminal: 'Terminal') -> None:
    """Notes that it is closed. The hook goes with the last one, unless another is over it."""
    global _hook_before
    _open.discard(terminal)
    if not _open and _hook_before and sys.excepthook is _tell:
        sys.excepthook, _hook_before = _hook_before, None


async def keys(terminal: 'Terminal') -> 'AsyncIterator[Union[Key, Paste]]':
    """The keys of a terminal, until its input has ended."""
    import asyncio    # which takes long, and isn't wanted but here
    loop, descriptor = asyncio.get_running_loop(), terminal.fileno()
    with contextlib.suppress(EOFError):
        while True:
            key = terminal.key(0)
            if key is not None:
                yield key
                continue
            is_ready = asyncio.Event()
            loop.add_reader(descriptor, is_ready.set)
            try:
                await is_ready.wait()
            finally:
                loop.remove_reader(descriptor)
