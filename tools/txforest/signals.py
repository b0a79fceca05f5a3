"""The signals of a process, by the words of the module signal.

That module makes enums of all its numbers, which costs each start of a tool; what it calls has no
need of them.
"""

from __future__ import annotations

TYPE_CHECKING = False
if TYPE_CHECKING:
    import signal
else:
    import _signal as signal

ENDING = (signal.SIGTERM, signal.SIGHUP, signal.SIGINT)  # they end a tool, if nobody ignores them
AGAIN = signal.SIGALRM  # raises once more one of them that Python has dropped
HELD = (*ENDING, AGAIN)  # they wait while a tool must not end

__all__ = ["AGAIN", "ENDING", "HELD", "end_at_once", "signal"]


def end_at_once() -> None:
    """Lets SIGINT end the process, without a traceback, until a tool takes its signals. Nothing is
    to be cleared while its modules load."""
    if signal.getsignal(signal.SIGINT) is signal.default_int_handler:
        signal.signal(signal.SIGINT, signal.SIG_DFL)
