"""Child processes, which end with this process, however it ends."""

from __future__ import annotations

import contextlib
import ctypes
import fcntl
import functools
import os
import pathlib
import re
import select
import shutil
import signal
import stat
import subprocess
import sys
import tempfile
import threading
import time
import zlib
from collections.abc import Callable, Iterator, Sequence
from typing import TYPE_CHECKING, Any, NoReturn

from . import memory_bound, own_folders
from .files import is_text
from .refusals import BY_SIGNAL, tell

if TYPE_CHECKING:
    import concurrent.futures

PR_SET_PDEATHSIG = 1
# Of a signal that no process has sent.
SI_KERNEL = 0x80
# For how many seconds a process may go on that was told to end, and after how many a stopped one looks whether it is to go on.
PATIENCE, POLL = 1, 0.1
# For how many seconds threads may go on that were told to end.
LAST = 10
# After how many seconds a process at the terminal is looked at.
LOOK = 0.25
# After how many seconds a signal is sent again that was lost.
SOON = 0.02
# What ends a tool from outside. Each comes to the same end as Ctrl-C: temporary folders are removed, and children are ended.
SIGNALS = (signal.SIGTERM, signal.SIGHUP, signal.SIGQUIT)
# What the names of folders for a while have of the host's: other hosts may have the folder above them too, and locks of their own.
HERE = f"{zlib.crc32(os.uname().nodename.encode()):08x}"
# How the names of folders end that are there for a while, and all such names; and for how many seconds one that is hidden is new.
ENDING, LEFT, HIDDEN_SECONDS = ".tmp", re.compile(rf"\.?bsp[a-z]+-{HERE}-[a-z0-9_]{{8}}\.tmp"), 60
# Where folders for a while go, unless the environment names another place.
PLACES = ("/tmp", "/var/tmp")
# How many times as long something may take where the host is busy.
MOST_BUSY = 4.0
_LIBC = ctypes.CDLL(None, use_errno=True)
_taken: list[signal.Signals] = []
# The signals that raised `Ended`, and the processes that took signals, of which this one is the last.
_came: list[int] = []
_own: list[int] = []
# Those that were started by `start`, and that `end` was not told of.
_running: list[subprocess.Popen[bytes]] = []


def patience(seconds: float) -> float:
    """How long something may take that takes so many seconds where a process has a processor: it has a part of one if there are more
    processes than processors."""
    busy = os.getloadavg()[0] / len(os.sched_getaffinity(0))
    return seconds * min(max(busy, 1.0), MOST_BUSY)


class Ended(BaseException):
    """A signal has ended this process. Where this is lost, the signal is sent again."""

    def __init__(self, number: int) -> None:
        super().__init__(number)
        self.number = number


def _end(number: int, _frame: object) -> NoReturn:
    memory_bound.lift()
    # What comes while all is cleared away must not break that off.
    for other in (signal.SIGINT, *SIGNALS):
        signal.signal(other, signal.SIG_IGN)
    _came.append(number)
    raise Ended(number)


def _lost(lost: sys.UnraisableHookArgs) -> None:
    """Sends a signal again whose exception was lost: Python drops one that is raised as it frees something or loads a module, tells of it, and
    goes on."""
    error = lost.exc_value
    if isinstance(error, Ended):
        if os.getpid() != _own[-1]:
            # What was split off is about to be another program, which the signal would end.
            os._exit(BY_SIGNAL + error.number)
        end_by_signals_again()
        threading.Thread(target=_send_again, args=(error.number,), daemon=True).start()
    elif not isinstance(error, memory_bound.Late):
        sys.__unraisablehook__(lost)


def _send_again(number: int) -> None:
    time.sleep(SOON)
    os.kill(os.getpid(), number)


def came_last() -> int | None:
    """The signal that raised `Ended` last, if one did. A module of C that is loaded meanwhile may make an ImportError of that."""
    return _came[-1] if _came else None


def shut_down(pool: concurrent.futures.ThreadPoolExecutor) -> None:
    """Waits until the threads of a pool have ended. If a signal ends this process, its exception may have come between taking a lock and noting
    that, so that a thread waits for the lock for ever. Then this process ends without it; what removes its folders sees that."""
    number = came_last()
    if number is None:
        pool.shutdown()
        return
    waiting = threading.Thread(target=pool.shutdown, daemon=True)
    waiting.start()
    waiting.join(patience(LAST))
    if waiting.is_alive():
        os._exit(BY_SIGNAL + number)


@contextlib.contextmanager
def held() -> Iterator[None]:
    """A block in which the processes that this one has started are stopped."""
    running = tell_running(signal.SIGSTOP)
    try:
        yield
    finally:
        _signal_all(running, signal.SIGCONT)


def tell_running(number: int) -> list[subprocess.Popen[bytes]]:
    """Sends a signal to the processes that this one has started, with their groups, and answers which these are."""
    running = [child for child in list(_running) if child.poll() is None]
    _signal_all(running, number)
    return running


def _signal_all(children: Sequence[subprocess.Popen[bytes]], number: int) -> None:
    for child in children:
        with contextlib.suppress(ProcessLookupError):
            os.killpg(child.pid, number)


def _stop(_number: int, _frame: object) -> None:
    """What Ctrl-Z does: the processes that this one has started have groups of their own, and so would go on without it."""
    with held():
        stop_here()


def stop_here() -> None:
    """Stops this process as Ctrl-Z does, until a shell has it go on. If no shell looks after its group, nothing is done."""
    before = signal.signal(signal.SIGTSTP, signal.SIG_DFL)
    mask = signal.pthread_sigmask(signal.SIG_UNBLOCK, {signal.SIGTSTP})
    try:
        signal.raise_signal(signal.SIGTSTP)
    finally:
        signal.pthread_sigmask(signal.SIG_SETMASK, mask)
        signal.signal(signal.SIGTSTP, before)


def stop_by_signal(source: int) -> None:
    """Has SIGTSTP stop what this process has started until SIGCONT comes, or something to read from a pipe, as its end. So does a process of
    another session, which no shell would have go on."""
    has_come = threading.Event()

    def stop(_number: int, _frame: object) -> None:
        has_come.clear()
        with held():
            while not has_come.is_set() and not select.select([source], [], [], POLL)[0]:
                pass

    signal.signal(signal.SIGCONT, lambda _number, _frame: has_come.set())
    signal.signal(signal.SIGTSTP, stop)


def end_by_signals() -> None:
    """Has each signal that ends this process raise `Ended`, but those that it was started to ignore; and Ctrl-Z stop what it has started."""
    if signal.getsignal(signal.SIGTSTP) != signal.SIG_IGN:
        signal.signal(signal.SIGTSTP, _stop)
    _taken.extend(number for number in (signal.SIGINT, *SIGNALS) if signal.getsignal(number) != signal.SIG_IGN)
    end_by_signals_again()


def end_by_signals_again() -> None:
    """The same once more, where `Ended` was caught and this process goes on."""
    _own.append(os.getpid())
    sys.unraisablehook = _lost
    for number in _taken:
        signal.signal(number, _end)


@contextlib.contextmanager
def looking_for_signals() -> Iterator[None]:
    """A block in which this process wakes up each second, and looks for signals: one that comes just before it waits for something does
    Python put off until that is over."""
    signal.signal(signal.SIGALRM, lambda _number, _frame: None)
    signal.setitimer(signal.ITIMER_REAL, 1, 1)
    try:
        yield
    finally:
        signal.setitimer(signal.ITIMER_REAL, 0)


class TooLate(memory_bound.Late):
    """The time of a block is over."""


@contextlib.contextmanager
def within(seconds: float) -> Iterator[None]:
    """A block that is left by `TooLate` after so long, whatever it does."""

    def stop(_number: int, _frame: Any) -> NoReturn:
        memory_bound.lift()
        raise TooLate

    before = signal.signal(signal.SIGALRM, stop)
    signal.setitimer(signal.ITIMER_REAL, seconds, memory_bound.AGAIN)
    try:
        yield
    finally:
        signal.setitimer(signal.ITIMER_REAL, 0)
        signal.signal(signal.SIGALRM, before)


def end_with_parent(number: int, parent: int) -> None:
    """Has this process get a signal when its parent has ended, which had this number."""
    _LIBC.prctl(PR_SET_PDEATHSIG, number)
    if os.getppid() != parent:
        os.kill(os.getpid(), number)


@contextlib.contextmanager
def put_off() -> Iterator[None]:
    """A block at whose end the signals come that end this process, so that they find all noted that it has made."""
    mask = signal.pthread_sigmask(signal.SIG_BLOCK, (signal.SIGINT, *SIGNALS))
    try:
        yield
    finally:
        signal.pthread_sigmask(signal.SIG_SETMASK, mask)


def start(words: Sequence[str], by: int = signal.SIGKILL, keeper: int = -1, **given: Any) -> subprocess.Popen[bytes]:
    """Starts a process with a group of its own, so that Ctrl-C at a terminal is for this one alone. If this one is killed, that one
    gets the signal `by` from the kernel, and a keeper at the other end of a pipe has read the number of its group."""
    parent = os.getpid()

    def prepare() -> None:
        end_with_parent(by, parent)
        if keeper >= 0:
            os.write(keeper, b"%d\n" % os.getpid())
        for number in (signal.SIGINT, *SIGNALS):
            signal.signal(number, signal.SIG_DFL)
        # One that came meanwhile ends this process.
        signal.pthread_sigmask(signal.SIG_UNBLOCK, (signal.SIGINT, *SIGNALS))

    child = subprocess.Popen(list(words), start_new_session=True, preexec_fn=prepare, **given)
    _running.append(child)
    return child


def processor_seconds(child: subprocess.Popen[bytes]) -> float:
    """The processor time that a process has taken, or 0 once it has ended. A busy host does not change it, unlike the time of a clock."""
    clock = ctypes.c_int()
    if _LIBC.clock_getcpuclockid(child.pid, ctypes.byref(clock)) != 0:
        return 0.0
    try:
        return time.clock_gettime(clock.value)
    except OSError:
        return 0.0


def has_ended(child: subprocess.Popen[bytes]) -> bool:
    """Whether a process has ended. It is not waited for, so that its number stays its own, and is that of its group."""
    with contextlib.suppress(ChildProcessError):
        return child.returncode is not None or os.waitid(os.P_PID, child.pid, os.WEXITED | os.WNOHANG | os.WNOWAIT) is not None
    return True


def end_group(child: subprocess.Popen[bytes]) -> None:
    """Ends what goes on of a process, which nobody has waited for yet, and of what it has started."""
    if child.returncode is None:
        with contextlib.suppress(ProcessLookupError):
            os.killpg(child.pid, signal.SIGKILL)


def end(child: subprocess.Popen[bytes], by: int = signal.SIGKILL) -> None:
    """Ends a process with its group where it goes on, waits for it, and closes the pipes to it. One that takes no notice, lets others end
    first, or writes what nobody reads, is told again, and then killed. If it has ended by itself, what it has left is killed."""
    if has_ended(child):
        end_group(child)
    for number in (by, by, signal.SIGKILL):
        if child.poll() is None:
            os.killpg(child.pid, number)
            with contextlib.suppress(subprocess.TimeoutExpired):
                child.wait(patience(PATIENCE))
    child.wait()
    # Threads may end others meanwhile.
    with contextlib.suppress(ValueError):
        _running.remove(child)
    for stream in (child.stdin, child.stdout, child.stderr):
        with contextlib.suppress(BrokenPipeError):
            if stream is not None:
                stream.close()


@contextlib.contextmanager
def running(words: Sequence[str], by: int = signal.SIGKILL, **given: Any) -> Iterator[subprocess.Popen[bytes]]:
    """A process that is over at the end of the block, also if a signal comes as it is started."""
    child = None
    try:
        with put_off():
            child = start(words, by, **given)
        yield child
    finally:
        if child is not None:
            end(child, by)


def at_terminal(
    words: Sequence[str], note: Callable[[], None], tell: Callable[[int], None], look: Callable[[int], None], env: dict[str, str]
) -> int:
    """Runs a process in this environment that has this one's terminal, and gets Ctrl-C by itself, which is noted here. What ends this one ends
    it, also if the terminal has stopped it, as one in the background: this one is not stopped so. Ctrl-Z stops both; what else is to stop then
    is told of SIGTSTP, and of SIGCONT. Each `LOOK` seconds its number is looked at: an exception ends it. Answers what it ended with, as Popen
    has it."""
    stops = {signal.SIGTSTP} if signal.getsignal(signal.SIGTSTP) != signal.SIG_IGN else set()
    parent, waited = os.getpid(), {signal.SIGCHLD, *_taken, *stops}
    mask = signal.pthread_sigmask(signal.SIG_BLOCK, {signal.SIGTTIN, signal.SIGTTOU, *waited})

    def prepare() -> None:
        end_with_parent(signal.SIGKILL, parent)
        signal.pthread_sigmask(signal.SIG_SETMASK, mask)

    try:
        with subprocess.Popen(list(words), preexec_fn=prepare, env=env) as child:
            while child.poll() is None:
                got = signal.sigtimedwait(waited, LOOK)
                if got is None:
                    with _killed_by_exceptions(child):
                        look(child.pid)
                elif got.si_signo in (signal.SIGINT, signal.SIGQUIT):
                    # That of a terminal comes to both.
                    if got.si_code != SI_KERNEL:
                        child.send_signal(got.si_signo)
                    note()
                elif got.si_signo == signal.SIGTSTP:
                    tell(signal.SIGTSTP)
                    stop_here()
                    tell(signal.SIGCONT)
                elif got.si_signo != signal.SIGCHLD:
                    _end_stopped(child)
                    raise Ended(got.si_signo)
            return child.returncode
    finally:
        # Those that came are dropped.
        for number in (signal.SIGTTIN, signal.SIGTTOU):
            signal.signal(number, signal.SIG_IGN)
            signal.signal(number, signal.SIG_DFL)
        signal.pthread_sigmask(signal.SIG_SETMASK, mask)


@contextlib.contextmanager
def _killed_by_exceptions(child: subprocess.Popen[bytes]) -> Iterator[None]:
    try:
        yield
    except BaseException:
        child.kill()
        raise


def _end_stopped(child: subprocess.Popen[bytes]) -> None:
    """Ends a process that may be stopped, or may not take notice."""
    for number in (signal.SIGTERM, signal.SIGCONT):
        child.send_signal(number)
    try:
        child.wait(PATIENCE)
    except subprocess.TimeoutExpired:
        child.kill()
        child.wait()


def place() -> str:
    """Where folders for a while are made. The emulator takes no name that is no text. In a folder where others may rename what is there, they
    could put a folder of theirs in its place, with commands in it."""
    found = tempfile.gettempdir()
    chosen = found if is_text(found) else PLACES[0]
    if own_folders.is_held_throughout(chosen):
        return chosen
    held = next(filter(own_folders.is_held_throughout, PLACES), chosen)
    if held != chosen:
        _tell_of_place(chosen, held)
    return held


@functools.lru_cache(maxsize=None)
def _tell_of_place(chosen: str, held: str) -> None:
    """Says once that the folder for such things is another one than that of TMPDIR."""
    tell([f"temporary files are in {held}, because other users may rename files in {chosen}"])


@contextlib.contextmanager
def folder(name: str, above: str = "") -> Iterator[pathlib.Path]:
    """A folder for a while, which none but this user may enter, below the one for such things if no other is named. A shell waits until this
    process closes a pipe, and removes it: also if this one is killed. If the shell is killed, this process removes it, and if both are,
    the next one that makes a folder there."""
    above = above or place()
    # A signal that comes between these would leave the folder.
    with put_off():
        _remove_left(above)
        path, lock = _locked_folder(name, above)
        words = ["sh", "-c", 'read -r _; exec rm -rf -- "$1"', "sh", path]
        try:
            keeper = subprocess.Popen(words, stdin=subprocess.PIPE, start_new_session=True)
        except (OSError, subprocess.SubprocessError):
            os.rmdir(path)
            os.close(lock)
            raise
    try:
        with keeper:
            yield pathlib.Path(path)
    finally:
        if os.path.lexists(path):
            shutil.rmtree(path, ignore_errors=True)
        os.close(lock)


def _locked_folder(name: str, above: str) -> tuple[str, int]:
    """A new folder, and the number of a file that holds its lock as long as this process is there. It has a hidden name until it is locked."""
    hidden = tempfile.mkdtemp(prefix=f".{name}-{HERE}-", suffix=ENDING, dir=above)
    path = os.path.join(above, os.path.basename(hidden)[1:])
    try:
        lock = os.open(hidden, os.O_RDONLY | os.O_DIRECTORY)
    except OSError:
        # As with a umask that takes this user's own rights away.
        os.rmdir(hidden)
        raise
    # Some file systems have no locks. What is left there stays.
    with contextlib.suppress(OSError):
        fcntl.flock(lock, fcntl.LOCK_EX | fcntl.LOCK_NB)
    os.rename(hidden, path)
    return path, lock


def _remove_left(above: str) -> None:
    """Removes the folders of processes of this host that are gone: nobody holds their locks. A hidden one may not be locked yet."""
    with contextlib.suppress(OSError):
        for name in os.listdir(above):
            if LEFT.fullmatch(name) is None:
                continue
            with contextlib.suppress(OSError), _opened(os.path.join(above, name)) as place:
                found = os.fstat(place)
                is_new = name.startswith(".") and time.time() - found.st_mtime < HIDDEN_SECONDS
                if found.st_uid == os.geteuid() and stat.S_IMODE(found.st_mode) == 0o700 and not is_new:
                    fcntl.flock(place, fcntl.LOCK_EX | fcntl.LOCK_NB)
                    shutil.rmtree(os.path.join(above, name), ignore_errors=True)


@contextlib.contextmanager
def _opened(path: str) -> Iterator[int]:
    place = os.open(path, os.O_RDONLY | os.O_DIRECTORY | os.O_NOFOLLOW)
    try:
        yield place
    finally:
        os.close(place)


@contextlib.contextmanager
def _waiting(command: str, what: str) -> Iterator[int]:
    """A block during which a shell waits, which does this to something where this process is killed. The number of the pipe to it is
    answered."""
    with subprocess.Popen(["sh", "-c", command, "sh", what], stdin=subprocess.PIPE, stderr=subprocess.DEVNULL, start_new_session=True) as keeper:
        assert keeper.stdin is not None
        try:
            yield keeper.stdin.fileno()
        finally:
            # It may have been killed.
            with contextlib.suppress(BrokenPipeError):
                keeper.stdin.write(b"over\n")
                keeper.stdin.close()


def kept(child: subprocess.Popen[bytes]) -> contextlib.AbstractContextManager[object]:
    """A block at whose end nothing of a child's group is left also if this process is killed: a compiler has children. The shell's own
    `kill` does it, since a small system has no other one."""
    return _waiting('read -r word; [ -n "$word" ] || kill -s KILL -- "$1"', f"-{child.pid}")


@contextlib.contextmanager
def kept_running(words: Sequence[str], by: int = signal.SIGTERM, **given: Any) -> Iterator[subprocess.Popen[bytes]]:
    """A process that is over at the end of the block, of whose group nothing is left where this process is killed at any time in it: the
    process itself says its number to the shell."""
    with _waiting('read -r group; read -r word; [ -n "$word" ] || kill -s KILL -- "-$group"', "") as keeper:
        with running(words, by, keeper=keeper, **given) as child:
            yield child


def removed(path: str) -> contextlib.AbstractContextManager[object]:
    """A block during which a file is written, which goes where this process is killed."""
    return _waiting('read -r word; [ -n "$word" ] || rm -f -- "$1"', path)


def call(words: Sequence[str], by: int = signal.SIGTERM, **given: Any) -> subprocess.CompletedProcess[bytes]:
    """Runs a process to its end, with nothing to read. Signals are looked for each second: one that comes as this process reads, or just before
    it waits, does Python put off until that is over."""
    with kept_running(words, by, stdin=subprocess.DEVNULL, **given) as child:
        while True:
            with contextlib.suppress(subprocess.TimeoutExpired):
                stdout, stderr = child.communicate(timeout=1)
                return subprocess.CompletedProcess(list(words), child.returncode, stdout, stderr)
