# Settings of gdb for a machine whose ranks are threads. bspgdb reads this; with an editor that starts gdb by itself, source it.

# Memory and registers are read only.
set may-write-memory off
set may-write-registers off
# What is watched is watched in the rank that is looked at where it is typed: it has to be told then.
set breakpoint always-inserted on
# Each rank has a memory of its own, so what was read of one says nothing of another.
set stack-cache off
set code-cache off
# A node has no operating system. gdb would take a program for one of Linux that says so of itself, and open the loader that it names.
set osabi none
# The emulator may be busy for longer than gdb waits by itself.
set remotetimeout 3600
# An editor's gdb reads -exec-interrupt while the program runs.
set mi-async on

# What `next` passes in a call, it passes with its rank alone. gdb takes this where there is a target.
define target hookpost-remote
set scheduler-locking step
end

# gdb says which rank it looks at only where it reads something of it: after `info threads` that is the last one. So a byte is read before
# what is asked of this rank, and before what may stop at none and is told at this one. `dump` reads it in every language of programs.
define tell-rank
if $_thread
dump binary memory /dev/null 0 1
end
end
document tell-rank
Has gdb tell the machine which rank it looks at.
end
define hook-monitor
tell-rank
end
define hook-continue
tell-rank
end

# So also as it goes back. And so the bridge is told that a command begins: what gdb took away before that, it has not taken away for it.
define hook-reverse-continue
tell-rank
end
define hook-reverse-stepi
tell-rank
end
define hook-reverse-step
tell-rank
end
define hook-reverse-next
tell-rank
end
define hook-reverse-nexti
tell-rank
end
define hook-reverse-finish
tell-rank
end

# gdb would start the program on this host, which cannot run it. What fails here, keeps the command from being made.
define hook-run
refuse the program is not run anew: continue goes on, and reverse-continue back to the start; after its end start bspgdb again
end
define hook-start
refuse the program has been started: break main, and continue, stops there; after its end start bspgdb again
end
define hook-starti
refuse the program has been started: reverse-continue goes back to the start; after its end start bspgdb again
end

define wrote
if $argc == 1
eval "monitor wrote %u %u", (unsigned)&($arg0), (unsigned)sizeof($arg0)
else
echo bspgdb: wrote takes one expression, without blanks, as wrote total or wrote parts[i+1]\n
end
end
document wrote
Who wrote a variable of this rank last, byte by byte: wrote EXPRESSION, without blanks.
end

# The functions of the library have no debugging information. Where one is about to return, gdb would look for its caller by the room on the
# stack that it has already given back, and so reverse-next would stop there. This is last: a gdb without Python reads no further.
python
import gdb
import gdb.unwinder


class FrameId:
    """What tells a frame from others: the stack behind it, and its function."""

    def __init__(self, sp, pc):
        self.sp, self.pc = sp, pc


class Returning(gdb.unwinder.Unwinder):
    """The innermost frame, where it is of a function without lines, and its next instruction is RET."""

    RET = (bytes.fromhex("8280"), bytes.fromhex("67800000"))
    SAVED = ["sp"] + ["s%d" % number for number in range(12)]

    def __init__(self):
        super().__init__("returning")

    def __call__(self, frame):
        word = gdb.lookup_type("unsigned int")
        pc = int(frame.read_register("pc").cast(word))
        # Before gdb 11 frames do not tell their level.
        level = frame.level() if hasattr(frame, "level") else 0
        if level > 0 or gdb.find_pc_line(pc).line or not self.returns_at(pc):
            return None
        symbol = gdb.execute("info symbol %d" % pc, to_string=True).split()
        if symbol[1:2] != ["+"]:
            return None
        info = frame.create_unwind_info(FrameId(frame.read_register("sp"), gdb.Value(pc - int(symbol[2])).cast(word)))
        info.add_saved_register("pc", frame.read_register("ra"))
        for name in self.SAVED:
            info.add_saved_register(name, frame.read_register(name))
        return info

    def returns_at(self, pc):
        try:
            return gdb.selected_inferior().read_memory(pc, 4).tobytes().startswith(self.RET)
        except gdb.error:
            return False


gdb.unwinder.register_unwinder(None, Returning(), replace=True)

class Refuse(gdb.Command):
    """Fails with a line."""

    def __init__(self):
        super().__init__("refuse", gdb.COMMAND_RUNNING)

    def invoke(self, text, _is_at_terminal):
        raise gdb.GdbError("bspgdb: " + text)


Refuse()

WATCHES = (gdb.BP_HARDWARE_WATCHPOINT, gdb.BP_READ_WATCHPOINT, gdb.BP_ACCESS_WATCHPOINT)


def watch_on(_stop):
    """Where it has met what is watched, gdb watches nothing until it goes on. So what is deleted before that and watched anew would be taken
    for the same, of the rank that it was of. A new breakpoint has gdb watch at once; this one is where no node has memory."""
    if any(it.type in WATCHES for it in gdb.breakpoints() or ()):
        try:
            gdb.Breakpoint("*0xfffffffe", internal=True).delete()
        except gdb.error:
            pass


gdb.events.stop.connect(watch_on)


def forget_registers(_stop):
    """gdb takes it that what was not resumed has the registers that it had. Where one rank goes over the end of a superstep by itself, the
    others do, too."""
    for command in ("maint flush register-cache", "flushregs"):
        try:
            gdb.execute(command, to_string=True)
            return
        except gdb.error:
            pass


gdb.events.stop.connect(forget_registers)


def tell_rank(_event):
    """Over the machine interface no hook is made, so that a stop at no rank would be told at the one that was read last: before any rank goes
    on, the machine is told which of them gdb looks at."""
    thread = gdb.selected_thread()
    try:
        gdb.execute("maintenance packet QBsp.Rank:%x" % thread.ptid[1] if thread else "", to_string=True)
    except gdb.error:
        pass


gdb.events.cont.connect(tell_rank)

WATCHED = {}
# The rank of each, and whether it is enabled.
RANKS = {}


def watch_begins(watch):
    """gdb takes what is watched at one address for one, and knows nothing of ranks: a line says where that is not what it looks like."""
    if watch.type not in WATCHES:
        return
    thread = gdb.selected_thread()
    if watch.thread is not None and thread is not None and watch.thread != thread.num:
        print("bspgdb: this is watched in rank %d, and never stops rank %d: " % (thread.num - 1, watch.thread - 1), end="")
        print("type `thread %d` first, and leave it out here" % watch.thread)
    try:
        place = gdb.parse_and_eval("&(%s)" % watch.expression.replace("-location ", "", 1))
        address = int(place.cast(gdb.lookup_type("unsigned int")))
    except gdb.error:
        return
    there = {it.number for it in gdb.breakpoints()}
    RANKS[watch.number] = (thread.num - 1 if thread else 0, True)
    WATCHED[watch.number] = (watch.type, address, place.type.target().sizeof)
    if any(WATCHED[it] == WATCHED[watch.number] for it in WATCHED if it in there and it != watch.number):
        print("bspgdb: this is watched already, and stays of the rank for which it was typed first: for a second rank type awatch")


def watch_changes(watch):
    """What is enabled is watched in the rank that is looked at then: a line says where it was of another one."""
    if watch.number not in RANKS or not gdb.selected_thread():
        return
    rank, was_enabled = RANKS[watch.number]
    here = gdb.selected_thread().num - 1
    RANKS[watch.number] = (here if watch.enabled and not was_enabled else rank, watch.enabled)
    if RANKS[watch.number][0] != rank:
        number = watch.number
        print("bspgdb: watchpoint %d was of rank %d, and is of rank %d from now on; " % (number, rank, here), end="")
        print("to have it back type `disable %d`, `thread %d`, `enable %d`" % (number, rank + 1, number))


if hasattr(gdb.events, "breakpoint_created"):
    gdb.events.breakpoint_created.connect(watch_begins)
    gdb.events.breakpoint_modified.connect(watch_changes)
end
