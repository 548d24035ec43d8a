"""The prompt of a dialogue: typed lines, their history, and completion."""

from __future__ import annotations

import signal
import sys
from types import ModuleType
from typing import Callable, List, Optional, Sequence

from ..refusals import Refused, put, tell
from .line_answers import Dialogue

PROMPT = "(bsp) "
# Letters of a line that is not typed.
MOST_LINE = 1 << 16


class Stopped(Exception):
    """Ctrl-Z was typed at the prompt, behind so much of a line."""

    def __init__(self, typed: str) -> None:
        super().__init__(typed)
        self.typed = typed


class Interrupts:
    """Ctrl-C: at the prompt it drops what was typed, and else what goes on is broken off. And Ctrl-Z: at the prompt it stops all when the
    terminal is as a shell wants it, and then the prompt is there once more, with what was typed."""

    def __init__(self, editor: Optional[ModuleType]) -> None:
        self._editor = editor
        self._is_at_prompt = self._has_come = False
        self._stop = signal.getsignal(signal.SIGTSTP)

    def take_signals(self) -> None:
        """From now on signals do so."""
        signal.signal(signal.SIGINT, self._take)
        if callable(self._stop):
            signal.signal(signal.SIGTSTP, self._take_stop)

    def _take(self, _number: int, _frame: object) -> None:
        self._has_come = True
        if self._is_at_prompt:
            raise KeyboardInterrupt

    def _take_stop(self, _number: int, _frame: object) -> None:
        if self._is_at_prompt:
            raise Stopped(self._editor.get_line_buffer() if self._editor else "")
        self._stop_all()

    def _stop_all(self) -> None:
        if callable(self._stop):
            self._stop(signal.SIGTSTP, None)

    def ask(self) -> bool:
        """Whether it has come since the last line was typed."""
        return self._has_come

    def typed(self) -> Optional[str]:
        """The next line; nothing at the end."""
        self._has_come = False
        before = ""
        while True:
            try:
                return self._behind(before)
            except Stopped as stopped:
                before = stopped.typed
                self._stop_all()
            except KeyboardInterrupt:
                put("\n")
                return ""
            except EOFError:
                put("\n")
                return None

    def _behind(self, before: str) -> str:
        """What is typed at a prompt that has so much of a line."""
        editor = self._editor
        if editor is not None:
            editor.set_startup_hook(lambda: editor.insert_text(before))
        self._is_at_prompt = True
        try:
            return input(PROMPT) if editor is not None else written()
        finally:
            self._is_at_prompt = False


def written() -> str:
    """The next line of a pipe or a file, which may be without an end."""
    put(PROMPT)
    line = sys.stdin.readline(MOST_LINE + 1)
    if len(line) > MOST_LINE:
        raise Refused(f"a line of the session has more than {MOST_LINE} letters")
    if not line:
        raise EOFError
    return line.rstrip("\n")


def talk(command: Sequence[str]) -> None:
    """Makes a session with the person at the terminal, or with who writes lines into a pipe, to its end."""
    is_terminal = sys.stdin.isatty()
    editor = line_editor() if is_terminal else None
    interrupts = Interrupts(editor)
    if is_terminal:
        interrupts.take_signals()
    dialogue = Dialogue(command, interrupts.ask)
    try:
        if editor is not None:
            complete(editor, dialogue.completing)
        if is_terminal:
            tell(["type the debugger's lines; help lists them, and Ctrl-D ends the session"], "bspgdb: ")
        while True:
            line = interrupts.typed()
            if line is None or not dialogue.answer(line):
                return
    finally:
        dialogue.close()


def line_editor() -> Optional[ModuleType]:
    """What edits lines at a terminal, and brings them back by the arrows, where Python has it."""
    try:
        import readline
    except ImportError:
        return None
    return readline


def complete(editor: ModuleType, completing: Callable[[List[str]], List[str]]) -> None:
    """Has a word completed by Tab, as it may stand behind those before it."""

    def found(text: str, state: int) -> Optional[str]:
        if state == 0:
            before = editor.get_line_buffer()[: editor.get_begidx()]
            # Behind a name and `+` there is a number.
            matching[:] = [it for it in completing(before.split()) if it.startswith(text)] if not before.endswith("+") else []
        return matching[state] if state < len(matching) else None

    matching: List[str] = []

    editor.set_completer_delims(" +")
    editor.set_completer(found)
    editor.parse_and_bind("tab: complete")
