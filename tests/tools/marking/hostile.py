"""Hostile hand-ins, which try to read other files, to use up all memory or disk, or to pass as something else."""

from __future__ import annotations

import html
import os
import pathlib
import re
import shlex
import subprocess
import sys
import time
import xml.dom.minidom
from typing import Dict, List, Tuple

sys.path.insert(0, str(pathlib.Path(__file__).resolve().parents[1]))

from checks import COMPILER, PYELFTOOLS, REPO, SECONDS, Part, Tally, Tool  # noqa: E402
from marked import ALL_RIGHT, NOT_ALL_RIGHT, NOT_MARKED, Bench  # noqa: E402

from bsptools.marking import bounded_run, confinement, hidden_warnings, sheet_marking  # noqa: E402
from bsptools.refusals import printable  # noqa: E402

LANDLOCK = Tool("Landlock", "linux-image-amd64", lambda _: confinement.version() > 0)
SECRET = "kept from hand-ins"
SHEET = """title = "Secrets <b>&\\u001b[2J"
nodes = [1, 2]
expected = "secret.txt"
seconds = 20
"""
PROGRAM = """#include <bsp.h>
#include <stdio.h>
%s
int main(void)
{
    bsp_begin(bsp_nprocs());
    %s
    bsp_end();
    return 0;
}
"""
INCBIN = '__asm__(".section .rodata\\n.global stolen\\nstolen: .incbin \\"%s\\"\\n.byte 0\\n.text");\nextern const char stolen[];'
SECTION = '__attribute__((section(".note\\n.incbin \\"%s\\"\\n#"))) int stolen;'
MACRO = '__asm__(".macro take how\\n.\\\\how\\\\()bin \\"%s\\"\\n.endm\\ntake inc");'
# A mark of the library, as it stands in front of standard error and of records, with a number behind it that leads back to it.
MARKED = "extern struct { char front[16], mark[16]; } bsp_settings;"
BACK = "int back = -20; fwrite(bsp_settings.mark, 1, 16, stdout); fwrite(&back, sizeof back, 1, stdout);"
# What is printed in each form of the marks, where it would be more than a text.
WILD = "<script>document.title='taken'</script>&amp;\\\"'=1+1\\x1b[31m\\x01]]>"


def programs(secret: str, sheet: str) -> Dict[str, Tuple[str, str, str]]:
    """Hand-ins by their names, with the verdict and a part of what is told."""
    quoted = secret.replace("\\", "\\\\")
    return {
        "include.c": (f'#include "{quoted}"\n', "does not compile", "Permission denied"),
        "include_sheet.c": (PROGRAM % (f'#include "{sheet}"', ""), "does not compile", "Permission denied"),
        "has_include.c": (PROGRAM % ("", f'#if __has_include("{secret}")\nputs("{SECRET}");\n#endif'), "does not compile", "Permission denied"),
        "incbin.c": (PROGRAM % (INCBIN % secret, "fputs(stolen, stdout);"), "does not compile", "file not found"),
        "section.c": (PROGRAM % (SECTION % secret, ""), "does not compile", "file not found"),
        "macro.c": (PROGRAM % (MACRO % secret, ""), "does not compile", "file not found"),
        "fopen.c": (PROGRAM % ("", f'FILE *f = fopen("{secret}", "r"); if (f) puts("{SECRET}");'), "wrong output", "nothing was printed"),
        "other.c": ('#include "fopen.c"\n', "does not compile", "No such file"),
        "line.c": (PROGRAM % ("", f'\n#line 1 "{secret}"\nint *volatile p = (int *)0x7fffff00; *p = 1;'), "stopped", "rank 0 stopped"),
        "tty.c": ('#include "/dev/stdin"\n', "does not compile", ""),
        "proc.c": (PROGRAM % (INCBIN % "/proc/self/environ", "fputs(stolen, stdout);"), "does not compile", "file not found"),
        "wild.c": (PROGRAM % ("", f'fputs("{WILD}\\n", stdout);'), "wrong output", "line 1 of the output is"),
        "wild_abort.c": (PROGRAM % ("", f'bsp_abort("{WILD}\\n");'), "stopped", "it gave up"),
        "nul.c": ("int main(void) { return 0; }\n\0", "no program", "the file is not text"),
        "large.c": ("/*" + "x" * (1 << 20) + "*/\n", "no program", "more than"),
        "bomb.c": ("char x[1 << 30] = {1};\n" + PROGRAM % ("", "putchar(x[5]);"), "does not compile", ""),
        "deep.c": (PROGRAM % ("#define A(x) x x x x x x x x\n#define B(x) A(A(A(x)))\n#define C(x) B(B(B(x)))\n", "C(C(puts(\"a\");))"), "does not compile", ""),
        "flood.c": (PROGRAM % ("", 'for (;;) puts("more");'), "too much output", "does not stop printing"),
        "syncs.c": (PROGRAM % ("", "for (;;) bsp_sync();"), "endless", "is it an endless loop?"),
        "sends.c": (PROGRAM % ("static char x[1 << 16];", "for (;;) bsp_send(0, NULL, x, sizeof x);"), "stopped", "bytes in a superstep"),
        "=1+1.c": (PROGRAM % ("", 'puts("=1+1");'), "wrong output", "line 1 of the output is `=1+1`"),
        "marks.c": (PROGRAM % (MARKED, BACK), "wrong output", "line 1 of the output is"),
        "report.c": (PROGRAM % ("", 'puts("superstep 0: w 1 h 0 m 0 last\\ntotal 1\\nended");'), "wrong output", "line 1 of the output is"),
    }


def tried(tally: Tally, folder: pathlib.Path) -> None:
    """Each of them is marked as it should be, and what it tried is in none of the forms of the marks."""
    bench = Bench(folder / "hostile")
    secret = bench.write("secret.txt", f"{SECRET}\n")
    sheet = bench.write("sheet.toml", SHEET)
    known = programs(str(secret), str(sheet))
    for name, (text, _, _) in known.items():
        bench.write(name, text)
    (bench.folder / "link.c").symlink_to(secret)
    names = [*known, "link.c"]
    began = time.monotonic()
    done = bench.run("sheet.toml", *names, words=["-o", "m.csv", "--html", "m.html", "--junit", "m.xml"])
    tally.expect("hostile hand-ins take no half an hour", time.monotonic() - began < 1000, time.monotonic() - began)
    rows = {it["hand-in"].lstrip("'"): it for it in bench.rows("m.csv")}
    for name, (_, verdict, what) in known.items():
        row = rows.get(name, {"verdict": "none", "fault": done.stderr})
        tally.expect(f"{name} is marked", row["verdict"] == verdict and what in row["fault"], f"{verdict}, {what}: {row}")
    tally.expect("a link is not followed", rows["link.c"]["verdict"] == "no program" and "is a link" in rows["link.c"]["fault"], rows["link.c"])
    texts(tally, bench, done.stdout)


# Stands for a compiler that was installed elsewhere.
ELSEWHERE = "#!/bin/sh\nexec /usr/bin/riscv64-unknown-elf-gcc \"$@\"\n"


# Marks on a host whose disk is full at first, or which kills each run.
SHORT = """
import sys
sys.path.insert(0, sys.argv[1])
from bsptools import start
from bsptools.marking import bounded_run, trial_pool
kind, run, each, tries = sys.argv[2], bounded_run.run, trial_pool.each, []
FULL = b"cc1: fatal error: error writing to /tmp/cc.s: No space left on device"
BUSY = b"gcc: fatal error: cannot execute 'cc1': posix_spawnp: Resource temporarily unavailable"
def count(*given):
    tries.append(given)
    each(*given)
def short(words, *rest, **given):
    if kind == "kills" and words[1] == "run":
        return bounded_run.Ran(bounded_run.ENDED, -9, b"", b"")
    if kind in ("full", "is busy") and len(tries) == 1 and "-o" in words:
        return bounded_run.Ran(bounded_run.ENDED, 1, b"", FULL if kind == "full" else BUSY)
    return run(words, *rest, **given)
bounded_run.run, trial_pool.each = short, count
sys.exit(start.process("bspcheck", sys.argv[3:]))
"""
# Ends soon, but is stopped for a while; and does not end.
STOPPED, LOOPS = ["sh", "-c", "(sleep 3; kill -CONT $$) & kill -STOP $$; echo over"], ["sh", "-c", "while :; do :; done"]


def short(tally: Tally, folder: pathlib.Path) -> None:
    """What the host does not give is no fault of a hand-in: it is tried again by itself, and else is not judged, and nothing of it is kept."""
    bench = Bench(folder / "short")
    bench.write("sheet.toml", SHEET)
    bench.write("secret.txt", "it\n")
    bench.write("right.c", PROGRAM % ("", 'if (bsp_pid() == 0) puts("it");'))
    bench.write("again.c", PROGRAM % ("", 'if (!bsp_pid()) puts("it");'))
    bench.write("says.c", "#error No space left on device\n")
    for kind, name, status, wanted in (
        ("full", "says.c", NOT_ALL_RIGHT, ("does not compile", "says.c, line 1: #error No space left on device")),
        ("kills", "right.c", NOT_MARKED, ("not judged", "it could not be tried: the run was killed, perhaps because memory ran out")),
        ("full", "right.c", ALL_RIGHT, ("right", "")),
        ("is busy", "again.c", ALL_RIGHT, ("right", "")),
    ):
        words = [sys.executable, "-I", "-B", "-c", SHORT, str(REPO / "tools"), kind, "--jobs", "1", "-o", "m.csv", "sheet.toml", name]
        done = subprocess.run(words, cwd=bench.folder, stdin=subprocess.DEVNULL, capture_output=True, text=True, timeout=SECONDS, check=False)
        row = bench.rows("m.csv")[0] if (bench.folder / "m.csv").exists() else {"verdict": done.stderr, "fault": ""}
        tally.expect(f"{name} where the host {kind}", (done.returncode, row["verdict"], row["fault"]) == (status, *wanted), (row, done.stderr))
    for words, how, is_busy in ((STOPPED, bounded_run.ENDED, True), (LOOPS, bounded_run.LATE, True), (["sleep", "9"], bounded_run.LATE, False)):
        found = bounded_run.run(words, 1, 99, is_busy=is_busy).how
        tally.expect(f"{shlex.join(words)} in a second", found == how, found)


# Marks with little patience for what takes long beside a run.
IMPATIENT = """
import sys, time
sys.path.insert(0, sys.argv[1])
from bsptools import start
from bsptools.marking import hand_in_trial
kind = sys.argv[2]
if kind != "is patient":
    hand_in_trial.PATIENCE = 1
if kind == "finds races slowly":
    hand_in_trial.contested_bytes.in_run = lambda *_: time.sleep(99)
sys.exit(start.process("bspcheck", sys.argv[3:]))
"""
# Loops where memory of malloc has other bytes, and ends where it is tried for that: there the compiler gets it by a whole path.
FILLED = "#include <stdlib.h>\n#define FILLED (((volatile char *)malloc(4096))[99] != 0)\n"
TAKES_LONG = PROGRAM % (FILLED, 'if (bsp_pid() == 0) puts("it");\nwhile (FILLED) bsp_sync();')
DODGES = PROGRAM % (FILLED, "if (__FILE__[0] == '/') abort();\nint is_filled = FILLED;\nif (bsp_pid() == 0) puts(is_filled ? \"no\" : \"it\");")


def unsearched(tally: Tally, folder: pathlib.Path) -> None:
    """A hand-in is not right because a search took too long, or because it does not run if it is tried."""
    bench = Bench(folder / "unsearched")
    bench.write("secret.txt", "it\n")
    bench.write("sheet.toml", SHEET.replace("seconds = 20", "seconds = 1\nportable = true"))
    bench.write("races.toml", SHEET.replace("seconds = 20", "seconds = 1"))
    bench.write("right.c", PROGRAM % ("", 'if (bsp_pid() == 0) puts("it");'))
    bench.write("long.c", TAKES_LONG)
    bench.write("dodges.c", DODGES)
    for kind, sheet, name, status, wanted in (
        ("finds races slowly", "races.toml", "right.c", NOT_MARKED, ("not judged", "the search for bytes that two requests write did not end in 3 s")),
        ("is impatient", "sheet.toml", "long.c", NOT_MARKED, ("not judged", "the trial of what BSPlib leaves open did not end in 3 s")),
        ("is patient", "sheet.toml", "dodges.c", NOT_ALL_RIGHT, ("not portable", "it fails if it is compiled for this trial")),
    ):
        (bench.folder / "m.csv").unlink(missing_ok=True)
        words = [sys.executable, "-I", "-B", "-c", IMPATIENT, str(REPO / "tools"), kind, "--jobs", "1", "-o", "m.csv", sheet, name]
        done = subprocess.run(words, cwd=bench.folder, stdin=subprocess.DEVNULL, capture_output=True, text=True, timeout=SECONDS, check=False)
        row = bench.rows("m.csv")[0] if (bench.folder / "m.csv").exists() else {"verdict": done.stderr, "fault": ""}
        right = (done.returncode, row["verdict"]) == (status, wanted[0]) and wanted[1] in row["fault"]
        tally.expect(f"{name} where bspcheck {kind}", right, (done.returncode, row, done.stderr))


# Two cases of which each compiles a hand-in with another constant, and what prints that by a function which is forbidden, or without it.
TWO_CASES = """nodes = [1]
solution = "right.c"
forbid = ["strtol"]
[[case]]
name = "one"
define = { N = 1 }
[[case]]
name = "two"
define = { N = 2 }
[[bound]]
rule = "w == solution"
"""
PLAIN, FORBIDDEN = 'printf("%d\\n", N); bsp_sync();', 'printf("%d\\n", (int)strtol(N == 1 ? "1" : "2", NULL, 10)); bsp_sync();'
SECTIONS = 'asm(".altmacro\\n.macro more n\\n.section .more\\\\n,\\"a\\"\\n.byte 0\\n.endm\\n.set i, 0\\n.rept %d\\nmore %%i\\n.set i, i + 1\\n.endr\\n.text");'


def chosen(condition: str) -> str:
    """A hand-in that calls what is forbidden only if it is compiled so."""
    return PROGRAM % ("#include <stdlib.h>", f"\n#if {condition}\n{FORBIDDEN}\n#else\n{PLAIN}\n#endif\n")


def hidden(tally: Tally, folder: pathlib.Path) -> None:
    """A call is found in what runs, whatever constants, files and sections there are, and by each name that the linker has for it."""
    bench = Bench(folder / "hidden")
    cases = {
        "right.c": (PROGRAM % ("", PLAIN), "right"), "calls.c": (PROGRAM % ("#include <stdlib.h>", FORBIDDEN), "not allowed"),
        "other_case.c": (chosen("N == 2"), "not allowed"),
        "compiled_again.c": (chosen('!(__has_include("program0.elf") && __has_include("program1.elf"))'), "not allowed"),
        "compiled_before.c": (chosen('!__has_include("program0.o")'), "not allowed"),
        "many_sections.c": (PROGRAM % (f"#include <stdlib.h>\n{SECTIONS % 300}", FORBIDDEN), "not allowed"),
        "too_many_sections.c": (PROGRAM % (f"#include <stdlib.h>\n{SECTIONS % 66000}", FORBIDDEN), "not allowed"),
        "wrapped.c": (PROGRAM % ("#include <stdlib.h>\nlong __wrap_strtol(const char *, char **, int);", FORBIDDEN.replace("strtol", "__wrap_strtol")), "not allowed"),
    }  # fmt: skip
    bench.write("sheet.toml", TWO_CASES)
    for name, (text, _) in cases.items():
        bench.write(name, text)
    done = bench.run("sheet.toml", *cases, words=["-o", "m.csv"])
    found = {it["hand-in"]: it["verdict"] for it in bench.rows("m.csv")} if done.returncode == NOT_ALL_RIGHT else {}
    for name, (_, wanted) in cases.items():
        tally.expect(f"calls of {name}", found.get(name) == wanted, (found.get(name), done.stderr))


# Calls that GCC replaces, or makes of others, by what a sheet says of them, with the verdicts.
REPLACED = {
    'require = ["printf"]': {"prints.c": "right", "puts.c": "not allowed", "built_in.c": "right"},
    'forbid = ["puts"]': {"prints.c": "right", "puts.c": "not allowed", "variable.c": "right"},
    'forbid = ["printf", "memcpy", "fabs", "malloc", "strlen"]': {
        "puts.c": "right", "prints.c": "not allowed", "built_in.c": "not allowed", "looks.c": "not allowed", "copies.c": "not allowed",
        "fabs.c": "not allowed", "malloc.c": "not allowed", "strlen.c": "not allowed", "first_value.c": "not allowed", "in_comment.c": "right",
        "learns.c": "not allowed", "guesses.c": "not allowed",
    },
}  # fmt: skip
CALLS = {
    "puts.c": 'puts("it");', "prints.c": 'printf("it\\n");', "built_in.c": '__builtin_printf("it\\n");',
    "looks.c": '\n#if __has_include("program0.o")\nputs("it");\n#else\nprintf("it\\n");\n#endif\n',
    "copies.c": 'char it[4]; memcpy(it, "it", 3); puts(it);', "fabs.c": 'volatile double it = -1; puts(fabs(it) > 0 ? "it" : "");',
    "malloc.c": 'char *it = malloc(3); it[0] = 0; free(it); puts("it");', "strlen.c": 'puts(strlen("it") == 2 ? "it" : "");',
    "first_value.c": 'puts(FIRST > 0 ? "it" : "");', "in_comment.c": '/* printf("it") */ puts(FIRST > 0 ? "it" : "");',
    "learns.c": 'static char it[4000]; COPY(it, "it", bsp_nprocs() + 2); puts(it);', "variable.c": 'int puts = 1; printf(puts ? "it\\n" : "");',
    "guesses.c": 'static char it[4000]; if (__builtin_constant_p(strcmp("a", "b"))) memcpy(it, "it", bsp_nprocs() + 2); else it[0] = 105, it[1] = 116; puts(it);',
}  # fmt: skip
# First values that are constants only where GCC knows what a function computes; and a name of bspcheck's where GCC replaces nothing.
LEARNS = "#ifdef __builtin_memcpy\n#define COPY(to, from, size) memmove(to, from, size)\n#else\n#define COPY memcpy\n#endif"
FIRST = {"learns.c": LEARNS, "first_value.c": "static double FIRST = fabs(-1.0);", "in_comment.c": "static double FIRST = sqrt(4.0);"}
# Ways to a function without a plain call, where the text is not compiled for bspcheck alone; and uses of its name for something else, where GCC
# calls the function by itself. Each with what is in front of main, and in it.
UNPLAIN, STRUCTURES = "\n#ifndef _MACHINE_MATH_H_\n%s\n#endif\n", "struct { char puts, memcpy[999]; } one = {1, {1}}, two, *at = &two;"
USES = {
    "parentheses.c": ("", UNPLAIN % '(puts)("it");'), "pointer.c": ("int (*print)(const char *) = puts;", UNPLAIN % 'print("it");'),
    "pasted.c": ("#define TWO(a, b) a##b", UNPLAIN % 'TWO(pu, ts)("it");'), "continued.c": ("", UNPLAIN % '__builtin_pu\\\nts("it");'),
    "label.c": ('int print(const char *) __asm__("puts");', UNPLAIN % 'print("it");'),
    "other_name.c": ("#pragma redefine_extname print puts\nint print(const char *);", UNPLAIN % 'print("it");'),
    "alias.c": ('static int print(const char *) __attribute__((weakref("puts")));', UNPLAIN % 'print("it");'),
    "assembly.c": ("", UNPLAIN % '__asm__("call pu" "ts");'),
    "in_macro.c": ("#define PRINT(it) __asm__(\"call \" #it)", UNPLAIN % "PRINT(puts);"), "table.c": ('__asm__(".word puts");', ""),
    "pasted_own.c": ("#define TWO(a, b) a %:%: b", UNPLAIN % 'TWO(__builtin_, puts)("it");'),
    "inline.c": ("extern inline __attribute__((gnu_inline)) int puts(const char *it) { return printf(\"%s\\n\", it); }", UNPLAIN % '(&puts)("it");'),
    "array.c": ("extern char array[] __asm__(\"puts\");", UNPLAIN % '((int (*)(const char *))array)("it");'),
}  # fmt: skip
HARMLESS = {
    "member.c": (STRUCTURES, '*at = one; printf(two.puts ? "it\\n" : "");'), "local.c": ("", 'int puts = 1; printf((puts) ? "it\\n" : "");'),
    "counter.c": ("", '__asm__ volatile("li a0, 1" : : : "a0"); int puts = "puts"[0]; printf(puts ? "it\\n" : "");'),
    "initial.c": ("", 'int it[400] = {1, 2, 3}; bsp_push_reg(it, sizeof it); bsp_sync(); printf(it[bsp_pid()] ? "it\\n" : "");'),
    "pastes.c": ("#define TWO(a, b) a##b", 'int TWO(pu, ts) = 1; TWO(print, f)(TWO(put, s) ? "it\\n" : "");'),
    "unused.c": ("#define PRINT(it) puts(it)\nstatic inline int unused(void) { return PRINT(\"no\"); }", 'printf("it\\n");'),
    "variable.c": (f"static int memcpy = 1; {STRUCTURES}", '*at = one; printf(memcpy == two.memcpy[0] ? "it\\n" : "");'),
}  # fmt: skip


def used(tally: Tally, folder: pathlib.Path) -> None:
    """A function that a sheet forbids may not be named in any way, and another thing may have its name. One that a sheet requires has to be the
    library's."""
    bench = Bench(folder / "used")
    bench.write("it.txt", "it\n")
    again = '\n#ifdef _MACHINE_MATH_H_\nbsp_put(0, "", NULL, 0, 0);\n#endif\nputs("it");'
    requires = {"sets.c": ('__asm__(".set bsp_put, 5");', 'puts("it");'), "compiled_again.c": ("", again)}
    for name, (front, text) in {**USES, **HARMLESS, **requires}.items():
        bench.write(name, PROGRAM % (front, text))
    none: Dict[str, Tuple[str, str]] = {}
    for rule, evil, good in (('forbid = ["puts", "memcpy", "memset"]', USES, HARMLESS), ('require = ["bsp_put"]', requires, none)):
        bench.write("sheet.toml", f'nodes = [1]\nexpected = "it.txt"\n{rule}\n')
        done = bench.run("sheet.toml", *{**evil, **good}, words=["-o", "m.csv"])
        found = {it["hand-in"]: it for it in bench.rows("m.csv")} if done.returncode != NOT_MARKED else {}
        for name in {**evil, **good}:
            row = found.get(name, {"verdict": done.stderr})
            tally.expect(f"{name} by {rule}", row["verdict"] == ("not allowed" if name in evil else "right"), row)


def replaced(tally: Tally, folder: pathlib.Path) -> None:
    """A call counts as the hand-in makes it, also where GCC replaces it by a call of another function, or by none."""
    bench = Bench(folder / "replaced")
    bench.write("it.txt", "it\n")
    for name, text in CALLS.items():
        bench.write(name, PROGRAM % ("#include <math.h>\n#include <stdlib.h>\n#include <string.h>\n" + FIRST.get(name, ""), text))
    for rule, wanted in REPLACED.items():
        bench.write("sheet.toml", f'nodes = [1]\nexpected = "it.txt"\n{rule}\n')
        done = bench.run("sheet.toml", *wanted, words=["-o", "m.csv"])
        rows = bench.rows("m.csv") if done.returncode == NOT_ALL_RIGHT else []
        found = {it["hand-in"]: it["verdict"] for it in rows}
        tally.expect(f"calls that GCC replaces, by {rule}", found == wanted, (rows, done.stderr))


# A sheet with points for warnings, what has one, and what hides it in a line, with what is told of that.
WARNS_SHEET = """nodes = [1]
expected = "it.txt"
[points]
warnings = 2
"""
UNUSED = PROGRAM % ("", 'int unused; puts("it");')
IGNORED = 'GCC diagnostic ignored \\"-Wunused-variable\\"'
IGNORES = '#pragma GCC diagnostic ignored "-Wunused-variable"\n'
HIDDEN = {
    "pragma.c": (IGNORES, 1), "digraph.c": (f"\n%:{IGNORES[1:].replace('nostic', chr(92) + chr(10) + 'nostic')}", 2),
    "operator.c": (f'_Pragma("{IGNORED}")\n', 1), "pasted.c": (f'#define TWO(a, b) a##b\nTWO(_Pra, gma)("{IGNORED}")\n', 2),
    "place.c": ('\n# 1 "x.c" 3\n', 2), "spelled.c": ('/* */ %: /* */ 1 "x.c" 3 4\n', 1), "begins.c": ('# 1 "/usr/include/x.h" 1 3\n', 1),
    "renamed.c": (f'#line 8 "/usr/include/stdio.h"\n{IGNORES}', 8),
    "raw.c": (f'const char *raw = R"x(\n# 1 "/usr/include/x.h" 1 3\n)x";\n{IGNORES}', 4),
    "includes_itself.c": ("#if __INCLUDE_LEVEL__ == 0\n#include __FILE__\n#define UNUSED\n#else\n#pragma GCC system_header\n#endif\n#ifndef UNUSED\n", 6),
}  # fmt: skip
FALLS = "int falls(int n)\n{\n    switch (n) {\n    case 1: n = 2;\n    case 2: return n;\n    }\n    return 0;\n}"
# What GCC finds only as it optimizes; and attributes that keep it from that, by their lines.
FLOWS = "%s\nint flows(int *o)\n{\n    int n;\n    if (o[0] > 5)\n        n = o[1];\n    return n + o[2];\n}"
ATTRIBUTES = {
    "attribute.c": ('__attribute__((optimize("O0")))', 3), "words.c": ("__attribute((\nnoinline, __optimize__\n(0)))", 4),
    "pasted_word.c": ('#define TWO(a, b) a##b\n__attribute__((TWO(opti, mize)("O0")))', 4), "brackets.c": ('[[gnu::optimize("O0")]]', 3),
    "digraphs.c": ('<:<:gnu::__optimize__("O0"):>:>', 3), "using.cpp": ('[ [using gnu: optimize("O0")] ]', 3),
    "continued.c": ('__attribute__((opti\\\nmize("O0")))', 3),
}  # fmt: skip
OPTIMIZES = """static int target[2] = {1}, others[2] __attribute__((unused, aligned(sizeof target)));
static void optimize(int *n) { *n += target[target[1]]; }"""
TOLD_HIDDEN = {
    **{
        name: (PROGRAM % (FLOWS % text, 'int o[4] = {9}; puts(flows(o) ? "no" : "it");'), f"it changes the compiler's options, which can hide warnings, at line {line}")
        for name, (text, line) in ATTRIBUTES.items()
    },
    **{name: (text + UNUSED + "#endif\n" * name.startswith("includes"), f"it hides warnings, at line {line}") for name, (text, line) in HIDDEN.items()},
    "level.c": ('#pragma GCC diagnostic warning "-Wimplicit-fallthrough=0"\n' + PROGRAM % (FALLS, 'puts("it");'), "it hides warnings, at line 1"),
    "options.c": (f'#pragma GCC optimize ("O0")\n#ifndef __OPTIMIZE__\n{IGNORES}#endif\n{UNUSED}', "it changes the compiler's options, which can hide warnings, at line 1"),
    "notes.c": ('#pragma message "x"\n' * 40 + UNUSED, "1 warning, the first: notes.c, line 47: unused variable 'unused'"),
    "notes_without_end.c": (f'#pragma message "{"x" * 1000}"\n' * 300 + UNUSED, "it could not be checked whether it hides warnings: the compiler prints too much"),
    "name.c": (f'#line 1 "{"a" * 5000}"\n{UNUSED}', "unused variable 'unused'"),
    "pedantic.c": (f"#define F{'x' * 300}(a...)\n" * 900 + "# 1 \"x.c\" 3\n" + UNUSED, "it could not be checked whether it hides warnings: the compiler prints too much"),
}  # fmt: skip
# Macros of the library in all places: in others, in their arguments, over lines, and in conditions.
MACROS = """#include <assert.h>
#include <ctype.h>
#include <errno.h>
#include <limits.h>
#include <math.h>
#include <stdbool.h>
#include <stdint.h>
#include <stdlib.h>
#define MAX(a, b) ((a) > (b) ? (a) : (b))
#define BIGGEST INT32_MAX
#define CALL(f, ...) f(__VA_ARGS__)
#define TEXT(x) #x
#if INT_MAX > LONG_MIN && defined NULL
#define ZERO NULL
#endif
static int32_t least = INT32_MIN, most = MAX(BIGGEST, CALL(MAX, EOF,
    INT_MIN
));
static bool is_all(const char *text, double x) { return text == ZERO && isnan(x) == false && x < INFINITY && isdigit('1')
    && errno != ERANGE; }"""
ALL_MACROS = """
    NULL
    == ZERO ? (void)errno : abort();
    assert(MAX(most,
        least) == INT32_MAX && CHAR_BIT == 8);
    if (is_all(NULL, HUGE_VAL > 0 ? M_PI : 0)) CALL(putchar, EOF < 0 ? 'i' : UCHAR_MAX);
    putchar('t'); fputs(TEXT(
        ) "\\n", stdout); if (errno) exit(EXIT_FAILURE);"""
SHOWN = {
    "plain.c": PROGRAM % ("", 'puts("it");'),
    "macros.c": PROGRAM % (MACROS, ALL_MACROS),
    "macros.cpp": PROGRAM.replace("#include <bsp.h>", 'extern "C" {\n#include <bsp.h>\n}') % (MACROS, ALL_MACROS),
    "pushes.c": '#pragma GCC diagnostic push\n#pragma GCC diagnostic error "-Wformat"\n#pragma GCC diagnostic pop\n' + PROGRAM % ("", 'puts("it");'),
    "library.cpp": "#include <algorithm>\n#include <memory>\n#include <string>\n" + PROGRAM.replace("#include <bsp.h>", 'extern "C" {\n#include <bsp.h>\n}')
    % ("", f"int n = 1'000; const char *raw = R\"x(\n{IGNORES})x\"; puts(n == 1000 && raw ? \"it\" : \"no\");"),
    "names.c": PROGRAM % (OPTIMIZES, '__attribute__((cleanup(optimize))) int n = 0; optimize(&n); puts(n == 1 ? "it" : "no");'),
    "line.c": '#line 9 "other.y"\n' + PROGRAM % ("", 'puts("it");'),
}  # fmt: skip


def hides(tally: Tally, folder: pathlib.Path) -> None:
    """Who hides warnings does not get the points for having none, however that is written; pragmas of the library and of the sheet's own files
    do no harm. Without such points nothing of that counts."""
    bench = Bench(folder / "hides")
    bench.write("it.txt", "it\n")
    bench.write("sheets.h", f"{IGNORES}static int sheets;\n")
    bench.write("sheet.toml", f'files = ["sheets.h"]\n{WARNS_SHEET}')
    bench.write("none.toml", WARNS_SHEET.partition("[points]")[0])
    shown = {**SHOWN, "sheets.c": '#include "sheets.h"\n' + PROGRAM % ("", 'puts("it");')}
    for name, text in [*((name, text) for name, (text, _) in TOLD_HIDDEN.items()), *shown.items()]:
        bench.write(name, text)
    done = bench.run("sheet.toml", *TOLD_HIDDEN, *shown, words=["-o", "m.csv"])
    rows = {it["hand-in"]: it for it in bench.rows("m.csv")} if done.returncode != NOT_MARKED else {}
    for name, (_, wanted) in TOLD_HIDDEN.items():
        row = rows.get(name, {"verdict": done.stderr, "fault": "", "points": ""})
        right = (row["verdict"], row["points"]) == ("warnings", "10") and wanted in row["fault"] and len(row["fault"]) < 300
        tally.expect(f"{name} hides warnings", right, (wanted, row))
    for name in shown:
        row = rows.get(name, {"verdict": done.stderr, "points": ""})
        tally.expect(f"{name} hides none", (row["verdict"], row["points"]) == ("right", "12"), row)
    for sheet, what, status in ((WARNS_SHEET.partition("[points]")[0], "no points for warnings", ALL_RIGHT), (WARNS_SHEET, "points later", NOT_ALL_RIGHT)):
        bench.write("none.toml", sheet)
        done = bench.run("none.toml", "pragma.c", "place.c", "options.c")
        tally.expect(what, done.returncode == status, done)
    long = hidden_warnings.fault(bounded_run.Ran(bounded_run.LONG, -9, b"", b""), "a.c")
    tally.expect("a text that is too long to be looked at", long.endswith("its macros make more than 16777216 bytes"), long)


# So many letters a program may have, or print, in which each piece without an end would be looked for from each letter on.
MANY = 300_000
ENDLESS = {
    "comment.c": "// \\\n" + "/*x" * MANY + "\n",
    "raw.cpp": 'const char *text = R"(\n' + "/*x" * MANY + ')";\n',
    "quotes.c": '#if 0\n"' + '\\"' * MANY + "\n#endif\n",
}
DIGITS = PROGRAM % ("", 'for (int i = 0; bsp_pid() == 0 && i < 60000; i++) putchar(i < 59999 ? \'7\' : \'x\');')
# Names that are as long: of a function that the linker does not find, and of one that is stopped.
NAMED = {
    "symbol.c": f'extern void f(void) __asm__("a${"b" * MANY}");\n' + PROGRAM % ("", "f();"),
    "function.c": PROGRAM % (f"static void f{'b' * MANY}(void) {{ *(volatile int *)0x7fffff00 = 1; }}", f"f{'b' * MANY}();"),
}
SOON = 150


def endless(tally: Tally, folder: pathlib.Path) -> None:
    """What reads a text or an output of very many pieces without an end, or a very long name, comes to an end."""
    bench = Bench(folder / "endless")
    bench.write("it.txt", "it\n")
    bench.write("1.txt", "1\n")
    bench.write("texts.toml", 'nodes = [1]\nexpected = "it.txt"\nforbid = ["strtol"]\n')
    bench.write("numbers.toml", 'nodes = [1]\nexpected = "1.txt"\ncompare = "numbers"\n')
    front = {".c": PRINTS, ".cpp": PRINTS.replace("#include <bsp.h>", 'extern "C" {\n#include <bsp.h>\n}')}
    cases = [("texts.toml", name, front[pathlib.Path(name).suffix] + text, ALL_RIGHT) for name, text in ENDLESS.items()]
    cases += [("texts.toml", name, text, NOT_ALL_RIGHT) for name, text in NAMED.items()]
    for sheet, name, text, wanted in [*cases, ("numbers.toml", "digits.c", DIGITS, NOT_ALL_RIGHT)]:
        bench.write(name, text)
        words = ["timeout", str(SOON), str(REPO / "bspcheck"), "--jobs", "1", sheet, name]
        done = subprocess.run(words, cwd=bench.folder, stdin=subprocess.DEVNULL, capture_output=True, text=True, timeout=SECONDS, check=False)
        tally.expect(f"{name} is marked soon", done.returncode == wanted, (done.returncode, done.stdout[-300:], done.stderr[-300:]))


# Two programs of which one prints nothing, and one in C++.
PRINTS, SILENT = PROGRAM % ("", 'if (bsp_pid() == 0) puts("it");'), PROGRAM % ("", "")
CLASSES = "#include <vector>\n" + PROGRAM.replace("#include <bsp.h>", 'extern "C" {\n#include <bsp.h>\n}') % (
    "", 'std::vector<int> found(1); if (found.size() == 1 && bsp_pid() == 0) puts("it");')  # fmt: skip


def names(tally: Tally, folder: pathlib.Path) -> None:
    """A hand-in is marked by its own text, in its own language, whatever its name is: also that of a file of the sheet."""
    bench = Bench(folder / "names")
    bench.write("secret.txt", "it\n")
    (bench.folder / "theirs").mkdir()
    cases = [
        ("theirs/prints.c", SILENT, "wrong output"), ("theirs/silent.c", PRINTS, "right"), ("theirs/hand_in.c", PRINTS, "right"),
        ("theirs/prints.cpp", CLASSES, "right"), ("theirs/a blank.cpp", CLASSES, "right"), ("theirs/-dash.cc", CLASSES, "right"),
        ("theirs/\u00fcber.cxx", CLASSES, "right"), ("theirs/M\udcfcller.c", PRINTS, "right"), ("theirs/M\udcf6ller.c", SILENT, "wrong output"),
        ("theirs/a\nline.c", PRINTS, "right"), ("theirs/a line.c", SILENT, "wrong output"),
    ]  # fmt: skip
    for name, text, _ in cases:
        bench.write(name, text)
    for name, text in (("prints.c", PRINTS), ("hand_in.c", SILENT), ("silent.c", SILENT), ("prints.cpp", SILENT)):
        bench.write(name, text)
    bench.write("sheet.toml", f'{SHEET}files = ["prints.c", "hand_in.c", "silent.c", "prints.cpp"]\n')
    done = bench.run("sheet.toml", *(it for it, _, _ in cases), words=["-o", "m.csv", "--html", "m.html", "--junit", "m.xml"])
    found = {it["hand-in"]: it["verdict"] for it in bench.rows("m.csv")} if done.returncode == NOT_ALL_RIGHT else {}
    suites = xml.dom.minidom.parse(str(bench.folder / "m.xml")).getElementsByTagName("testsuite") if found else []
    told = [done.stdout, (bench.folder / "m.html").read_text() if found else "", [it.getAttribute("name") for it in suites]]
    for name, _, wanted in cases:
        # A name that is no text, or that has a line feed, has one spelling, which tells it from others.
        spelled = printable(name)
        tally.expect(f"{spelled} by its own text", found.get(spelled) == wanted, (found, done.stderr))
        tally.expect(f"{spelled} by that name everywhere", all(spelled in it for it in told), told)


def links(tally: Tally, folder: pathlib.Path) -> None:
    """A folder that came with a hand-in may be a link to another one: it is not followed. The folder that all share may be one."""
    bench = Bench(folder / "links")
    for name in ("theirs", "mine"):
        (bench.folder / name).mkdir()
    bench.write("theirs/sum.c", "int x;\n")
    (bench.folder / "mine/lab").symlink_to("../theirs")
    (bench.folder / "all").symlink_to(".")
    stolen, whole = str(bench.folder / "mine/lab/sum.c"), str(bench.folder / "theirs/sum.c")
    there, before = str(bench.folder / "all"), os.getcwd()
    cases: List[Tuple[List[str], List[int]]] = [
        ([stolen, whole], [0]), ([whole, stolen], [1]), ([f"{there}/mine/lab/sum.c", f"{there}/theirs/sum.c"], [0]), ([whole], []),
        (["mine/lab/sum.c"], [0]), (["all/theirs/sum.c"], []), (["./all/mine/lab/sum.c"], [0]), ([".", "/", ".."], []),
    ]  # fmt: skip
    os.chdir(bench.folder)
    try:
        for names, wanted in cases:
            found = [at for at, it in enumerate(sheet_marking.hand_ins(names)) if "is a link, and not looked into" in it.why]
            tally.expect(f"links on the way to {' '.join(names)}", found == wanted, found)
    finally:
        os.chdir(before)


def compilers(tally: Tally, folder: pathlib.Path) -> None:
    """A compiler in a folder of a home, or of what scripts/toolchain has brought, marks as the system's does, and hand-ins read nothing that
    is beside it."""
    bench = Bench(folder / "compilers")
    home = bench.folder / "home"
    for place in (home / "bin", home / "brought/bin"):
        place.mkdir(parents=True)
        (place / "riscv64-unknown-elf-gcc").write_text(ELSEWHERE)
        (place / "riscv64-unknown-elf-gcc").chmod(0o755)
        for it in pathlib.Path("/usr/bin").glob("riscv64-unknown-elf-*"):
            if not os.path.lexists(place / it.name):
                os.symlink(it, place / it.name)
    secret = home / "secret.txt"
    secret.write_text(f"{SECRET}\n")
    (home / "brought/packages").write_text("it\n")
    bench.write("sheet.toml", SHEET.replace("secret.txt", "home/secret.txt"))
    bench.write("right.c", PROGRAM % ("", f'if (bsp_pid() == 0) puts("{SECRET}");'))
    bench.write("steals.c", f'#include "{secret}"\n')
    without = bench.folder / "without"
    without.mkdir()
    for it in pathlib.Path("/usr/bin").iterdir():
        if not it.name.startswith("riscv64-"):
            os.symlink(it, without / it.name)
    environments = {
        "a compiler of one's own": {"PATH": f"{home}/bin:{os.environ['PATH']}"},
        "a compiler that was brought": {"PATH": str(without), "BSPEMU_TOOLCHAIN": str(home / "brought")},
    }
    for at, (name, environment) in enumerate(environments.items()):
        done = bench.run("sheet.toml", "right.c", "steals.c", words=["-o", "m.csv", "--folder", f"kept{at}"], **environment)
        found = [(it["verdict"], "Permission denied" in it["fault"]) for it in bench.rows("m.csv")] if done.returncode == 1 else []
        tally.expect(name, found == [("right", False), ("does not compile", True)], (found, done))


# What replaces the solution if it is run where it may write files.
REPLACES = PROGRAM % ("", 'FILE *f = fopen("right.c", "w"); if (f) { fputs("int x;", f); fclose(f); } puts("taken");')


def repeated(tally: Tally, folder: pathlib.Path) -> None:
    """The commands that make a run of a hand-in again do so, also if its name is no text, and change no file of those who give them."""
    bench = Bench(folder / "repeated")
    bench.write("sheet.toml", 'nodes = [1]\nsolution = "right.c"\n')
    right = PROGRAM % ("", 'puts("it");')
    bench.write("right.c", right)
    for name in ("replaces.c", "it's \\ re\udcffplaces.c"):
        bench.write(name, REPLACES)
        done = bench.run("sheet.toml", name, words=["--html", "m.html"])
        page = (bench.folder / "m.html").read_text()
        lines = [*re.findall(r"(?m)^  to .*?: (.*bsprun .*)$", done.stdout), *map(html.unescape, re.findall(r"<pre>([^<]*bsprun [^<]*)</pre>", page))]
        commands = list(dict.fromkeys(lines))
        tally.expect(f"commands that make a run of {ascii(name)} again", len(commands) == 3, (commands, done))
        for command in commands:
            bench.write("right.c", right)
            words = ["bash", "-c", command]
            again = subprocess.run(words, cwd=bench.folder, stdin=subprocess.DEVNULL, capture_output=True, timeout=SECONDS, check=False)
            tally.expect(f"a run by {command}", b"No such file" not in again.stderr and b"bash:" not in again.stderr, again)
            found = (bench.folder / "right.c").read_text()
            tally.expect(f"the solution after {command}", found == right, found)


# What is dear, and prints that it is cheap.
FORGES = (pathlib.Path(__file__).resolve().parents[1] / "c/watched/forges.c").read_text()
CHEAP = """nodes = [1]
solution = "right.c"
[[bound]]
rule = "w <= 2*solution"
"""
# What prints that it is right and cheap, and then has the emulator run out of memory; and a host where it has less.
STARVES = (pathlib.Path(__file__).resolve().parents[1] / "c/watched/starves.c").read_text()
STARVED = """nodes = [60]
memory = "1536K"
expected = "it.txt"
races = false
[[bound]]
rule = "w <= 1"
"""
LITTLE = """
import sys
sys.path.insert(0, sys.argv[1])
from bsptools import start
from bsptools.marking import hand_in_trial
hand_in_trial.Plan.most_memory = 600 << 20
sys.exit(start.process("bspcheck", sys.argv[2:]))
"""


def starves(tally: Tally, folder: pathlib.Path) -> None:
    """A hand-in is not right by a report that it prints where the emulator runs out of memory, and so writes none."""
    bench = Bench(folder / "starves")
    bench.write("sheet.toml", STARVED)
    bench.write("it.txt", "it\n")
    bench.write("starves.c", STARVES)
    words = [sys.executable, "-I", "-B", "-c", LITTLE, str(REPO / "tools"), "--jobs", "1", "-o", "m.csv", "sheet.toml", "starves.c"]
    done = subprocess.run(words, cwd=bench.folder, stdin=subprocess.DEVNULL, capture_output=True, text=True, timeout=SECONDS, check=False)
    row = bench.rows("m.csv")[0] if (bench.folder / "m.csv").exists() else {"verdict": done.stderr, "fault": ""}
    right = done.returncode == NOT_ALL_RIGHT and row["verdict"] == "stopped" and "no memory" in row["fault"]
    tally.expect("a report that is made up where memory runs out", right, (done, row))


def forges(tally: Tally, folder: pathlib.Path) -> None:
    """What a hand-in costs is what the emulator says of it, and not what it prints, even if it has all that follows taken for standard error."""
    bench = Bench(folder / "forges")
    bench.write("sheet.toml", CHEAP)
    bench.write("right.c", PROGRAM % ("", 'puts("it");'))
    # Of its own report, which has as many bytes for each number of as many digits.
    bench.write("forges.c", f"#define LENGTH 0\n{FORGES}")
    report = bench.folder / "r.txt"
    subprocess.run([str(REPO / "bsprun"), "--report", str(report), "forges.c"], cwd=bench.folder, capture_output=True, timeout=SECONDS, check=True)
    bench.write("forges.c", f"#define LENGTH {report.stat().st_size}\n{FORGES}")
    bench.write("prints.toml", CHEAP.replace("right.c", "prints.c"))
    bench.write("prints.c", PROGRAM % ("", 'puts("it\\nsuperstep 0: w 1 h 0 m 0 last\\ntotal 1\\nended");'))
    for sheet in ("sheet.toml", "prints.toml"):
        done = bench.run(sheet, "forges.c", words=["-o", "m.csv"])
        row = bench.rows("m.csv")[0]
        tally.expect(f"a report that a hand-in makes up, by {sheet}", done.returncode == NOT_ALL_RIGHT and row["verdict"] == "wrong output", row)


def has_file(folder: pathlib.Path, name: str) -> bool:
    """Whether a file of this name is in a folder or below it. Folders of other runs may go meanwhile."""
    try:
        return any(folder.rglob(name))
    except FileNotFoundError:
        return False


def texts(tally: Tally, bench: Bench, shown: str) -> None:
    """What stands in the forms of the marks."""
    page = (bench.folder / "m.html").read_text()
    tally.expect("no markup of a hand-in in the page", page.count("<script") == 1 and "&lt;script&gt;" in page and "<b>&" not in page, "")
    tally.expect("nothing of another's text in the page", "root:x:" not in page and "PATH=" not in page, "")
    tally.expect("no control characters", not any(ord(it) < 32 and it not in "\n\t" for it in page + shown + (bench.folder / "m.csv").read_text()), "")
    report = xml.dom.minidom.parse(str(bench.folder / "m.xml"))
    suites = report.getElementsByTagName("testsuite")
    tally.expect("JUnit XML", len(suites) == len(bench.rows("m.csv")), len(suites))
    cells = [it for row in bench.rows("m.csv") for it in row.values() if it[:1] in ("=", "+", "-", "@")]
    tally.expect("no formula in the table", not cells, cells)
    left = [it.name for it in pathlib.Path(os.environ.get("TMPDIR", "/tmp")).glob("bspcheck-*") if has_file(it, "flood.c")]
    tally.expect("nothing is left of what they wrote", not left, left)


def parts(tally: Tally, folder: pathlib.Path) -> List[Part]:
    """The parts of this file."""
    wanted = (*COMPILER, PYELFTOOLS, LANDLOCK)
    return [
        Part("hostile", lambda: tried(tally, folder), wanted),
        Part("compilers", lambda: compilers(tally, folder), wanted),
        Part("a host that is short of all", lambda: short(tally, folder), wanted),
        Part("searches without an end", lambda: unsearched(tally, folder), wanted),
        Part("names of hand-ins", lambda: names(tally, folder), wanted),
        Part("calls that are hidden", lambda: hidden(tally, folder), wanted),
        Part("calls that are replaced", lambda: replaced(tally, folder), wanted),
        Part("names of functions", lambda: used(tally, folder), wanted),
        Part("warnings that are hidden", lambda: hides(tally, folder), wanted),
        Part("texts without an end", lambda: endless(tally, folder), wanted),
        Part("commands that make a run again", lambda: repeated(tally, folder), wanted),
        Part("reports that are made up", lambda: forges(tally, folder), wanted),
        Part("reports where memory runs out", lambda: starves(tally, folder), wanted),
        Part("links of hand-ins", lambda: links(tally, folder)),
    ]
