"""Why a call did nothing. Each exception has its number in C, and `_written_errors` has those of refusals."""


class Error(Exception):
    """A call did nothing, and lost nothing. Its text says why."""
    status = 0


class Refusal(Error):
    """A call that the library refuses: nothing is changed, and nothing sent."""


class WriteFailed(Error, MemoryError):
    """There is no memory for the bytes of a doupdate. The next one clears the terminal and sends all."""
    status = 21


class Closed(Error):
    """The screen is closed."""
    status = 22


class TerminalError(Error):
    """A terminal can't be opened or used. Its text says why."""
