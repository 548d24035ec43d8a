"""Ends a check that a signal interrupts: its scratch folders are removed, as at its normal end."""

from __future__ import annotations

import signal
import sys

# A shell's `&` or nohup has a check ignore some of these, and so would what it starts: a check of signals would wait for ever.
SIGNALS = (signal.SIGINT, signal.SIGQUIT, signal.SIGTERM, signal.SIGHUP)


def exit_by_signals() -> None:
    """Has each of these signals end this process as an exit does."""

    def stop(number: int, _frame: object) -> None:
        sys.exit(128 + number)

    for it in SIGNALS:
        signal.signal(it, stop)
