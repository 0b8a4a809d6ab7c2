"""A line on standard error while work takes longer than a moment."""
from __future__ import annotations

import sys
import threading
import time
from types import TracebackType
from typing import Optional, Type


class Progress:
    """On a terminal one line that is kept up to date and taken away at the end; elsewhere a line every ten seconds."""

    def __init__(self, what: str, total: int) -> None:
        self.what, self.total, self.done = what, total, 0
        self.terminal = sys.stderr.isatty()
        self._start, self._ended = time.monotonic(), threading.Event()
        self._thread = threading.Thread(target=self._tick, daemon=True)

    def step(self, count: int = 1) -> None:
        self.done += count

    def __enter__(self) -> Progress:
        self._thread.start()
        return self

    def __exit__(self, kind: Optional[Type[BaseException]], error: Optional[BaseException], trace: Optional[TracebackType]) -> None:
        self._ended.set()
        self._thread.join()

    def _tick(self) -> None:
        shown = False
        while not self._ended.wait(0.5 if self.terminal else 10):
            share = 100 * self.done // max(1, self.total)
            line = f'{self.what}: {self.done} of {self.total}, {share} %, {time.monotonic() - self._start:.0f} s'
            sys.stderr.write(f'\r\x1b[K{line}' if self.terminal else f'{line}\n')
            sys.stderr.flush()
            shown = self.terminal
        if shown:
            sys.stderr.write('\r\x1b[K')
            sys.stderr.flush()
