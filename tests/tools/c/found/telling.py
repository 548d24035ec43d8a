"""Files that programs write, files that they are given, and mistakes that other systems do not report."""

from __future__ import annotations

import pathlib
import subprocess
from typing import Callable, Dict, List, NamedTuple, Tuple

import forked
from checks import REPO, SECONDS, Tally

HERE = pathlib.Path(__file__).resolve().parent


class Case(NamedTuple):
    """A mistake of silent.c: the options of its run, what is said of it, of which parts are left out at ` .. `, and whether its line is
    named."""

    options: List[str]
    said: str
    has_line: bool = True


TOLD: Dict[int, Case] = {
    1: Case([], "malloc of 100000000 bytes was refused at main, "),
    2: Case(["--no-files"], "rank 0, superstep 0: life.pgm was not written at files, .. , because --no-files forbids it: run again .. ; the same on 1 more"),
    3: Case([], "rank 0, superstep 0: params.cfg was not found at files, .. : no file of this name was given, and none is in this folder; give --file"),
    4: Case(["--no-files"], "rank 0, superstep 0: here.cfg could not be read at files, .. : it was not given to the program, so give --file here.cfg"),
    5: Case([], "superstep 1: the last requests have no effect, because no bsp_sync follows; the last one is at messages, "),
    7: Case([], "10 bytes of malloc at 0x"),
    8: Case([], "memory that was freed before"),
    9: Case([], "an address that malloc did not return"),
    10: Case([], "memory at address 0 was written"),
    11: Case([], "rank 0, superstep 0: a number is read at main, .. , and the input is empty: give --input FILE"),
    12: Case(["--rate", "100000"], "bsp_time returns the cost of the run so far by the model, not the time of this computer: a second is 100,000 instructions", False),
    13: Case(["--warn"], "10 bytes of malloc at 0x"),
    14: Case(["--warn"], "line 1 of the output is '-910' instead of '0'; first in what is printed of rank 0 in superstep 0, at memory, silent.c:51", False),
    15: Case(["--warn"], "a message is read in superstep 3 although none is left, by rank 0"),
    16: Case(["--warn"], "its tag still has 0 bytes, and 4 from the next superstep on"),
    17: Case([], "offset 1 of bsp_put at messages, .. is not a multiple of 8, the size of an element of area: it counts bytes"),
    18: Case([], "rank 1, superstep 1: offset 1 of bsp_put at messages, .. is not a multiple of 8, the size of an element of area"),
    19: Case(["--warn"], "the target of a get is read in superstep 1, before bsp_sync, by rank 0 at messages, .. ; the get is that of rank 0 at "),
}
NOT_FOUND = "bsprun: checked for other likely mistakes, and found none: requests without effect, areas in different orders, puts that meet, offsets"
# What writes.c writes on three nodes, but for the picture.
WRITTEN = {
    "lines.txt": "line of rank 0\nline of rank 1\nline of rank 2\n",
    "log.txt": "log of rank 0\nlog of rank 1\nlog of rank 2\n",
    **{f"part{s}.txt.new": f"{s}\n2 bytes\n" for s in range(3)},
}
# A program that cannot fit, one that wants more than is said, and one with a deep stack.
# A pointer and a function that are read through NULL, which nobody but the compiler knows.
THROUGH_NULL = "#include <stdio.h>\nstruct it { NUMBER a[4]; struct it *next; } *volatile none;\n"
THROUGH_NULL += "int main(int argc, char **argv)\n{\n    if (argc == 1)\n        return none->next->a[1];\n"
THROUGH_NULL += '    return fputs("x", fopen("absent", "r"));\n}\n'
# A get whose target, a number of some type, is read early in one superstep of many.
OFTEN = "#include <bsp.h>\n#include <stdio.h>\nint main(void)\n{\n    TYPE x = 1, y = 0; int k;\n    bsp_begin(bsp_nprocs());\n"
OFTEN += "    bsp_push_reg(&x, sizeof x);\n    bsp_sync();\n    for (k = 0; k < 50; k++) {\n        bsp_get(0, &x, 0, &y, sizeof y);\n"
OFTEN += '        if (k == 40)\n            printf("%d\\n", (int)y);\n        bsp_sync();\n    }\n    bsp_end();\n    return 0;\n}\n'
# A get of no bytes, into the middle of what is read behind it.
NO_BYTES = "#include <bsp.h>\nint main(void)\n{\n    volatile int numbers[4] = {1, 2, 3, 4};\n    bsp_begin(bsp_nprocs());\n"
NO_BYTES += "    bsp_push_reg((void *)numbers, sizeof numbers);\n    bsp_sync();\n    bsp_get(0, (void *)numbers, 0, (char *)numbers + 2, 0);\n"
NO_BYTES += "    numbers[1] += numbers[0];\n    bsp_sync();\n    bsp_end();\n    return 0;\n}\n"
# Memory that is given back once more when it has become one with the block before it.
TWICE = "#include <stdlib.h>\nint main(void)\n{\n    char *blocks[3];\n    int i;\n    for (i = 0; i < 3; i++)\n        blocks[i] = malloc(40);\n"
TWICE += "    free(blocks[0]);\n    free(blocks[1]);\n    free(blocks[1]);\n    return malloc(40) == malloc(40);\n}\n"
# No processes, where rank 0 alone has the number.
NO_PROCESSES = "#include <bsp.h>\nvoid spmd(void)\n{\n    bsp_begin(0);\n    bsp_end();\n}\n"
NO_PROCESSES += "int main(int argc, char **argv)\n{\n    bsp_init(spmd, argc, argv);\n    spmd();\n    return 0;\n}\n"
# Reads a file of each rank, adds to one that is there, and makes others.
KEEP = """#include <bsp.h>
#include <stdio.h>
#include <stdlib.h>
#include <sys/stat.h>
int main(void)
{
    char name[40];
    FILE *file;
    int number;
    bsp_begin(bsp_nprocs());
    printf("rank %d began\\n", bsp_pid());
    sprintf(name, "in/part%d.txt", bsp_pid());
    if ((file = fopen(name, "r")) == NULL)
        exit(3);
    fscanf(file, "%d", &number);
    fclose(file);
    printf("rank %d read %d\\n", bsp_pid(), number);
    bsp_sync();
    file = fopen("log.txt", "a");
    fprintf(file, "added by %d\\n", number);
    fclose(file);
    mkdir("deep", 0777);
    sprintf(name, "deep/new%d.txt", bsp_pid());
    file = fopen(name, "w");
    fprintf(file, "%d\\n", number);
    fclose(file);
    bsp_end();
    return 0;
}
"""
# Shows a file whose name is an argument behind another one, so that bsprun does not give it, or is typed.
SHOW = """#include <stdio.h>
#include <stdlib.h>
int main(int count, char **words)
{
    char typed[200];
    FILE *file;
    int byte;
    if (count == 1 && scanf("%199s", typed) != 1)
        return 3;
    if ((file = fopen(count == 1 ? typed : words[2], "r")) == NULL)
        exit(4);
    while ((byte = getc(file)) != EOF)
        putchar(byte);
    return 0;
}
"""
# One rank reads what another has written, which would be that of the run before.
SHARE = """#include <bsp.h>
#include <stdio.h>
#include <stdlib.h>
int main(void)
{
    FILE *file;
    bsp_begin(bsp_nprocs());
    if (bsp_pid() == 0) {
        fputs("shared\\n", file = fopen("shared.txt", "w"));
        fclose(file);
    }
    bsp_sync();
    if (bsp_pid() == 1 && fopen("shared.txt", "r") == NULL)
        exit(4);
    bsp_end();
    return 0;
}
"""
ARRAYS = "#include <bsp.h>\ndouble table[SIZE], other[500];\nint main(void)\n{\n    bsp_begin(1);\n    bsp_end();\n    return table[1] != other[2];\n}\n"
ENDLESS = "static int deep(int n) { volatile char room[1000]; room[0] = n; return deep(n + 1) + room[0]; }\nint main(void) { return deep(0); }\n"
STACK = "int main(void)\n{\n    volatile char bytes[400000];\n    bytes[0] = 0;\n    return bytes[0];\n}\n"


class Telling:
    """Runs by bsprun in a folder of this part's own."""

    def __init__(self, tally: Tally, folder: pathlib.Path) -> None:
        self.tally, self.folder = tally, folder

    def build(self, name: str, *options: str) -> str:
        """The executable of a program of this folder, with lines."""
        source = next(it for it in (HERE / f"{name}.c", REPO / "examples/c" / f"{name}.c") if it.exists())
        words = [str(REPO / "bspcc"), "-g", "-O1", "-w", *options, "-o", f"{name}.elf", str(source), "-lm"]
        subprocess.run(words, cwd=self.folder, check=True, capture_output=True, timeout=SECONDS)
        return f"{name}.elf"

    def run(self, *words: str, given: str = "") -> "subprocess.CompletedProcess[str]":
        """A run by bsprun."""
        command = [str(REPO / "bsprun"), *words]
        return forked.run(command, given, self.folder)

    def expect(self, name: str, done: "subprocess.CompletedProcess[str]", status: int, *said: str) -> None:
        """A run has this status, and says all of this."""
        told = done.stdout + done.stderr
        missing = [it for it in said if it not in told]
        self.tally.expect(name, done.returncode == status and not missing, f"status {done.returncode}, without {missing}: {told}")

    def told(self) -> None:
        """Each mistake of examples/c/silent.c is told, with its line."""
        image = self.build("silent")
        (self.folder / "here.cfg").write_text("1\n")
        marked = (REPO / "examples/c/silent.c").read_text().splitlines()
        for number, case in TOLD.items():
            line = next(i for i, text in enumerate(marked, 1) if text.endswith(f"/* {number} */"))
            done = self.run("-n", "2", *case.options, image, str(number))
            self.expect(f"told {number}", done, done.returncode, *case.said.split(" .. "), *([f"silent.c:{line}"] if case.has_line else []))
        self.expect("no argument", self.run(image), 2, "atoi was called with NULL", "bsprun PROGRAM 100", "silent.c:")
        (self.folder / "often.c").write_text(OFTEN)
        said = "read in superstep 41, before bsp_sync, by rank 0 at main, often.c:12; the get is that of rank 0 at main"
        for kind in "int", "float", "double":
            self.expect(f"a get of {kind} among many", self.run("-n", "2", "--warn", f"-DTYPE={kind}", "often.c"), 0, said)
        (self.folder / "through.c").write_text(THROUGH_NULL)
        for kind in "int", "double":
            done = self.run(f"-DNUMBER={kind}", "through.c")
            self.expect(f"the {kind} of a pointer that is read through NULL", done, 2, "main, through.c:6", "the pointer was read through NULL")
        done = self.run("-DNUMBER=int", "through.c", "x")
        self.expect("a function that is read through NULL", done, 2, "through.c:7", "called by a pointer that was read through NULL")
        (self.folder / "bytes.c").write_text(NO_BYTES)
        self.expect("a get of no bytes", self.run("-n", "2", "--warn", "bytes.c"), 0, NOT_FOUND, "targets of gets read too early")
        (self.folder / "twice.c").write_text(TWICE)
        self.expect("free of what was merged", self.run("-O0", "twice.c"), 2, "memory that was freed before", "main, twice.c:10")
        (self.folder / "none.c").write_text(NO_PROCESSES)
        said = "bsp: rank 0: bsp_begin is called with 0 processes, and takes 1 or more\n"
        self.expect("no processes behind bsp_init", self.run("-n", "2", "none.c"), 2, said, "spmd, none.c:4")
        self.expect("nothing to warn of", self.run("-n", "2", "--warn", image, "0"), 0, NOT_FOUND)

    def written(self) -> None:
        """Files go where --out says, and nowhere else."""
        image = self.build("writes")
        before = sorted(self.folder.iterdir())
        (self.folder / "made").mkdir()
        (self.folder / "elsewhere").write_text("kept\n")
        (self.folder / "made/log.txt").symlink_to(self.folder / "elsewhere")
        done = self.run("-n", "3", "--out", "made", image)
        both = ["lines.txt was written by 3 ranks, 0 to 2: their parts follow one another", "log.txt was written by 3 ranks"]
        self.expect("files are written", done, 0, "rank 0 is done\nrank 1 is done\nrank 2 is done\n", *both)
        found = {it.name: it.read_text() for it in (self.folder / "made").iterdir() if it.is_file()}
        self.tally.expect("what is written", found == WRITTEN, found)
        picture = (self.folder / "made/out/life.pgm").read_bytes()
        self.tally.expect("a picture in a folder", picture == b"P5\n08 08\n255\n" + bytes(range(64)), picture)
        after = sorted(it for it in self.folder.iterdir() if it.name not in ("made", "elsewhere"))
        kept = (self.folder / "elsewhere").read_text() == "kept\n"
        self.tally.expect("nothing elsewhere", before == after and kept, (before, after))
        done = self.run("-n", "2", "--no-files", image)
        said = "out/life.pgm was not written at "
        self.expect("no files", done, 2, "out/life.pgm: Read-only file system", said, ", because --no-files forbids it: run again without --no-files")
        (self.folder / "place").mkdir()
        (self.folder / "place/log.txt").mkdir()
        done = self.run("--out", "place", image)
        self.expect("a file that cannot be written", done, 1, "place/log.txt: Is a directory (log.txt was not written)")
        source = self.folder / "out/life.pgm"
        source.parent.mkdir()
        source.write_text("an input\n")
        done = self.run("--out", ".", "--file", "out/life.pgm", image)
        self.expect("an output that is an input", done, 1, "out/life.pgm stays as it is: it is read as out/life.pgm (out/life.pgm was not written)")
        self.tally.expect("an input is kept", source.read_text() == "an input\n", source.read_bytes())
        self.placed()

    def placed(self) -> None:
        """What would be lost has a line and a status: another's place, a name without a place, two files of one place."""
        (self.folder / "more.c").write_text("int more;\n")
        (self.folder / "over.c").write_text(
            "#include <stdio.h>\nint main(int n, char **names)\n{\n    while (--n)\n        fputs(names[n], fopen(names[n], \"w\"));\n    return 0;\n}\n"
        )
        subprocess.run([str(REPO / "bspcc"), "-o", "over.elf", "over.c"], cwd=self.folder, check=True, timeout=SECONDS)
        (self.folder / "theirs").mkdir()
        (self.folder / "linked").mkdir()
        (self.folder / "linked/a").symlink_to("../theirs")
        names = ["/outside", "..", "../outside", "a/../../outside", "a/", ".", ""]
        for name in names:
            said = f"{name} was not written: that is not a file below p, where files go: use a name below it"
            self.expect(f"a file by the name {name}", self.run("--out", "p", "over.elf", name), 1, said)
        self.expect("a file here, from / on", self.run("--out", "from", "over.elf", str(self.folder.resolve() / "a/x")), 0)
        self.tally.expect("its place", (self.folder / "from/a/x").exists(), list(self.folder.glob("from/**/*")))
        done = self.run("--out", "p", "over.elf", "a/x", "b/x", "./c", "a/../d")
        found = {str(it.relative_to(self.folder / "p")): it.read_text() for it in (self.folder / "p").rglob("*") if it.is_file()}
        self.expect("files of one last name", done, 0)
        self.tally.expect("folders are kept", found == {"a/x": "a/x", "b/x": "b/x", "c": "./c", "d": "a/../d"}, found)
        done = self.run("--out", "p", "over.elf", "c", "e/../c")
        self.expect("one file by two names", done, 1, "c was not written: rank 0 wrote e/../c, which is the same file")
        self.expect("a folder that is a file", self.run("--out", "p", "over.elf", "c/x"), 1, "p/c/x: Not a directory (c/x was not written)")
        self.expect("a folder that is a link", self.run("--out", "linked", "over.elf", "a/x"), 1, "linked/a: it is a symbolic link, which is not followed (a/x was")
        self.tally.expect("nothing behind a link", not list((self.folder / "theirs").iterdir()), "there is something")
        (self.folder / "same.c").write_text('#include <stdio.h>\nint main(void) { return fputs("x", fopen("more.c", "w")) < 0; }\n')
        done = self.run("--out", ".", "same.c", "more.c")
        self.expect("an output that is a source", done, 1, "more.c stays as it is: it is read as more.c (more.c was not written)")
        for words in (["--report", "p/r.csv"], ["--profile", "p/r.csv"], ["--lines-as", "json=p/r.csv"]):
            done = self.run("--out", "p", *words, "over.elf", "r.csv")
            self.expect(f"an output of the tool, {words[0]}", done, 1, "p/r.csv stays as it is: bsprun itself writes p/r.csv (r.csv was not written)")
            self.tally.expect(f"what is there, {words[0]}", len((self.folder / "p/r.csv").read_text()) > 20, (self.folder / "p/r.csv").read_text())

    def here(self) -> None:
        """Without an option files are written below the current folder, and read from there, as the program on the host would."""
        (self.folder / "keep.c").write_text(KEEP)
        subprocess.run([str(REPO / "bspcc"), "-o", "keep.elf", "keep.c"], cwd=self.folder, check=True, timeout=SECONDS)
        (self.folder / "log.txt").write_text("before\n")
        (self.folder / "log.txt").chmod(0o640)
        (self.folder / "in").mkdir()
        for number in range(3):
            (self.folder / f"in/part{number}.txt").write_text(f"{number}\n")
        done = self.run("-n", "3", "keep.elf")
        self.expect("files are here", done, 0, "wrote log.txt, deep/new0.txt, deep/new1.txt, deep/new2.txt\n")
        self.tally.expect("output before and behind a file", done.stdout == "".join(f"rank {s} began\nrank {s} read {s}\n" for s in range(3)), done)
        again = [line for line in done.stderr.splitlines() if "it runs again" in line]
        wanted = ["bsprun: the program reads in/part0.txt and 2 more files: it runs again with these files, as with --file",
            "bsprun: the program reads log.txt: it runs again with that file, as with --file"]  # fmt: skip
        self.tally.expect("what it is run again for", again == wanted, done)
        found = {str(it.relative_to(self.folder)): it.read_text() for it in (self.folder / "deep").iterdir()}
        self.tally.expect("folders of files are kept", found == {f"deep/new{s}.txt": f"{s}\n" for s in range(3)}, found)
        log = self.folder / "log.txt"
        added = "before\n" + "".join(f"added by {s}\n" for s in range(3))
        self.tally.expect("what is added", (log.read_text(), log.stat().st_mode & 0o777) == (added, 0o640), (log.read_text(), log.stat()))
        before = {it: it.read_bytes() for it in self.folder.rglob("*") if it.is_file()}
        done = self.run("-n", "3", "--no-files", "keep.elf")
        after = {it: it.read_bytes() for it in self.folder.rglob("*") if it.is_file()}
        self.expect("nothing without files", done, 3, "in/part0.txt could not be read: it was not given to the program, so give --file")
        self.tally.expect("nothing changes without files", before == after and "again" not in done.stderr, done)
        self.expect("both options", self.run("--no-files", "--out", "x", "keep.elf"), 1, "leave out one of the two")
        self.spelled()

    def spelled(self) -> None:
        """A file is found by each path to it, and the one that is meant counts; one of another rank is no file of before."""
        (self.folder / "show.c").write_text(SHOW)
        (self.folder / "in/x.txt").write_text("in\n")
        (self.folder / "other").mkdir()
        (self.folder / "other/x.txt").write_text("other\n")
        subprocess.run([str(REPO / "bspcc"), "-o", "show.elf", "show.c"], cwd=self.folder, check=True, timeout=SECONDS)
        for name, text in {"x.txt": "in", "in/x.txt": "in", "./in//../in/x.txt": "in", "/far/in/x.txt": "in", "other/x.txt": "other",
                str(self.folder / "other/x.txt"): "other"}.items():  # fmt: skip
            done = self.run("--files", "in", "show.elf", "+", name)
            self.tally.expect(f"{name}, which is given", (done.returncode, done.stdout) == (0, f"{text}\n"), done)
        typed = self.run("show.elf", given="in/x.txt\n")
        self.tally.expect("a name that is typed", (typed.returncode, typed.stdout) == (0, "in\n") and "reads in/x.txt" in typed.stderr, typed)
        (self.folder / "share.c").write_text(SHARE)
        for _ in range(2):
            done = self.run("-n", "2", "share.c")
            self.expect("a file of another rank", done, 4, "rank 0 has written it, and ranks share no files", "wrote shared.txt")
        (self.folder / "link.txt").symlink_to("/proc/version")
        for name in ("/proc/version", "link.txt"):
            self.expect(f"a file of the system, {name}", self.run("show.elf", given=f"{name}\n"), 4, f"{name} could not be read")
        done = self.run("--files", ".", "show.elf", "link.txt")
        self.tally.expect("a link to one in a folder and among words", "Linux" not in done.stdout, done)

    def given(self) -> None:
        """Words that are files, and all files of a folder."""
        for name, text in (("in.txt", "12 5\n"), ("data/one.txt", "7\n"), ("data/two.txt", "8\n")):
            (self.folder / name).parent.mkdir(exist_ok=True)
            (self.folder / name).write_text(text)
        (self.folder / "reads.c").write_text(
            "#include <stdio.h>\nint main(int n, char **names)\n{\n    int i, number;\n    for (i = 1; i < n; i++) {\n"
            '        if (freopen(names[i], "r", stdin) != NULL)\n            while (scanf("%d", &number) == 1)\n'
            '                printf("%s %d\\n", names[i], number);\n    }\n    return 0;\n}\n'
        )
        self.expect("a word that is a file", self.run("reads.c", "in.txt"), 0, "in.txt 12\nin.txt 5\n")
        for name, target in (("itself.txt", "itself.txt"), ("nowhere.txt", "no.txt")):
            (self.folder / "data" / name).symlink_to(target)
        self.expect("a folder", self.run("--files", "data", "reads.c", "two.txt", "data/one.txt"), 0, "two.txt 8\ndata/one.txt 7\n")
        done = self.run("--files", "data", "reads.c", "elsewhere/one.txt", "/there/two.txt")
        self.expect("a folder, by other paths", done, 0, "elsewhere/one.txt 7\n/there/two.txt 8\n")
        (self.folder / "more").mkdir()
        (self.folder / "more/one.txt").write_text("9\n")
        done = self.run("--file", "data/one.txt", "--file", "more/one.txt", "reads.c", "../more/one.txt", "./data/one.txt")
        self.expect("two files of one last name", done, 0, "../more/one.txt 9\n./data/one.txt 7\n")
        self.expect("no folder", self.run("--files", "no", "reads.c"), 1, "bsprun: no: No such file or directory")

    def sizes(self) -> None:
        """What does not fit is told with the largest arrays, and room of the stack is given or refused."""
        (self.folder / "arrays.c").write_text(ARRAYS)
        (self.folder / "stack.c").write_text(STACK)
        done = self.run("-DSIZE=3000000", "--summary", "arrays.c")
        self.expect("larger than a usual node", done, 0, "on a large machine (--large) with 32M a node")
        done = self.run("-DSIZE=300000", "--memory", "2M", "arrays.c")
        self.expect("larger than said", done, 1, "the largest are table of 2400000 bytes: give --memory 2")
        self.expect("what fits", self.run("-DSIZE=1500000", "arrays.c"), 0)
        self.expect("a stack of 1M", self.run("stack.c"), 0)
        done = self.run("--stack", "128K", "stack.c")
        self.expect("a stack of 128K", done, 2, "stack overflow: the stack has 131072 bytes; the program uses 400", " bytes of a larger one: give --stack 448K, or make")
        self.expect("a stack that was measured", self.run("--stack", "448K", "stack.c"), 0)
        (self.folder / "endless.c").write_text(ENDLESS)
        done = self.run("-O0", "--memory", "4M", "endless.c")
        self.expect("a stack without an end", done, 2, "stack overflow: the stack has 1048576 bytes; ", "K are not enough either: end the recursion")
        subprocess.run([str(REPO / "bspcc"), "-o", "as_given.elf", "stack.c"], cwd=self.folder, check=True, timeout=SECONDS)
        self.expect("a stack of bspcc", self.run("as_given.elf"), 0)
        words = [str(REPO / "bspcc"), "--stack", "512K", "-o", "stack.elf", "stack.c"]
        subprocess.run(words, cwd=self.folder, check=True, timeout=SECONDS)
        self.expect("a stack of an ELF file", self.run("--stack", "512K", "stack.elf"), 0)
        self.expect("another stack", self.run("--stack", "1M", "stack.elf"), 1, "stack.elf has its stack, with 524288 bytes; give --stack to bspcc")


PARTS: List[Tuple[str, Callable[[Telling], None]]] = [
    ("mistakes in silence", Telling.told),
    ("files that are written", Telling.written),
    ("files that are here", Telling.here),
    ("files that are given", Telling.given),
    ("sizes", Telling.sizes),
]
