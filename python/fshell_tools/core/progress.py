"""What is done of work that takes minutes, what is left, and the time: on standard error, for people.

On a terminal it is one line that is written over, and gone at the end; elsewhere a line each ten seconds at most, so that work which
takes less says nothing. Several threads may tell at once.
"""

import contextlib
import sys
import threading
import time
from collections.abc import Callable, Iterator
from typing import TextIO

ON_TERMINAL, ELSEWHERE = 0.1, 10.0


def clock(seconds: float) -> str:
    """Seconds as 7 s, 1:05 or 2:00:00."""
    whole = int(seconds)
    minutes, rest = divmod(whole, 60)
    if minutes < 1:
        return f"{rest} s"
    hours, minutes = divmod(minutes, 60)
    return f"{hours}:{minutes:02}:{rest:02}" if hours else f"{minutes}:{rest:02}"


class Progress:
    """Work in parts: `what` names the tool and what is counted, as `mcdc: decisions`."""

    def __init__(
        self, what: str, total: int, stream: TextIO | None = None, now: Callable[[], float] = time.monotonic
    ) -> None:
        self.what, self.total, self.done, self.told = what, total, 0, ""
        self.stream, self.now = stream or sys.stderr, now
        self.begun = now()
        self.is_terminal = self.stream.isatty()
        self.shown = self.begun if not self.is_terminal else self.begun - 2 * ON_TERMINAL
        self.is_shown = False
        self.lock = threading.RLock()

    def step(self, told: str = "", count: int = 1) -> None:
        """So many parts more are done; `told` says which."""
        self.at(self.done + count, told)

    def at(self, done: int, told: str = "", total: int | None = None) -> None:
        """So many parts are done, perhaps of another total."""
        with self.lock:
            self.done, self.told = done, told
            self.total = self.total if total is None else total
            self.tick()

    def of_total(self, done: int, total: int) -> None:
        """So many parts are done, of so many."""
        self.at(done, self.told, total)

    def tick(self) -> None:
        """Shows how far it is, where the last time is long enough ago."""
        with self.lock:
            now = self.now()
            if now - self.shown >= (ON_TERMINAL if self.is_terminal else ELSEWHERE):
                self.shown = now
                self._write(self.line(now))

    def line(self, now: float) -> str:
        """What is done, what is left and the time, in one line."""
        took, left = now - self.begun, self.total - self.done
        text = f"{self.what}: {self.done} of {self.total} done, {left} left, {clock(took)}"
        if self.done and left > 0:
            text += f", about {clock(took / self.done * left)} to go"
        return text + (f" ({self.told})" if self.told else "")

    def _write(self, text: str) -> None:
        with contextlib.suppress(OSError, ValueError):  # (what is told there is no answer)
            if self.is_terminal:
                self.stream.write(f"\r\033[K{text[:110]}")
                self.is_shown = True
            else:
                self.stream.write(text + "\n")
            self.stream.flush()

    def end(self) -> None:
        """Takes the line away."""
        with self.lock, contextlib.suppress(OSError, ValueError):
            if self.is_shown:
                self.stream.write("\r\033[K")
                self.stream.flush()
                self.is_shown = False


@contextlib.contextmanager
def shown(made: Progress) -> Iterator[Progress]:
    """Shows progress until the end, where it is taken away; it ticks by itself, so that the time goes on while a part takes long."""
    over = threading.Event()

    def ticking() -> None:
        while not over.wait(1.0):
            made.tick()

    thread = threading.Thread(target=ticking, daemon=True)
    thread.start()
    try:
        yield made
    finally:
        over.set()
        thread.join()
        made.end()
