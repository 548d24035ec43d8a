  $ bspemu run --help
  Run a program on every node, superstep by superstep, and write the output of the nodes
  
  Usage: bspemu run [OPTIONS] <IMAGE>
  
  Arguments:
    <IMAGE>  Program file, or - for standard input
  
  Options:
        --format <FORMAT>   Format of IMAGE: elf, an ELF executable; raw, the bytes of memory from address 0; asm, an assembly text [default: elf]
        --nodes <N>         Number of nodes, 1 to 1024, or to 65536 with --large [default: 1]
        --memory <BYTES>    Bytes of memory of each node: a multiple of 4096, from 4096 to 16777216, or to 2147483648 with --large [default: 1048576]
        --limit <TICKS>     Most ticks of each node, 1 to 1099511627776; an instruction takes one tick [default: 1000000]
        --input <FILE>      File that each node reads as its input, at most 16777216 bytes, or 1073741824 with --large [default: no input]
        --g <TICKS>         Price g: ticks that each byte of an h-relation adds to the cost [default: 1]
        --l <TICKS>         Price l: ticks that the end of each superstep adds to the cost [default: 0]
        --ledger <VERSION>  How costs are counted; 2: h excludes bytes that a rank moves to itself, and m counts messages; 1: h includes these bytes [default: 2]
        --clock             Give each node a clock, which call 19 reads: the cost of all finished supersteps plus the node's ticks in this one
        --float             Give each node a floating-point unit, for the instructions of F and D
        --atomic            Give each node the atomic instructions of A
        --large             Allow a large machine: up to 65536 nodes, 2147483648 bytes of memory a node, 1073741824 bytes of input, and more requests in a superstep
        --report            Write the costs of the supersteps, their total and the outcome after the output
        --live              Write each superstep's output as soon as the superstep is over
        --workers <N>       Most threads that run the nodes, 1 to 64; the output does not depend on it [default: 1]
        --slice <STEPS>     Most instructions that a node executes before its thread may switch to another node, 1 to 1048576; the output does not depend on it [default: 65536]
        --profile <FILE>    Write to FILE, as CSV, what each rank did in each superstep; FILE is created, or emptied, before the run
        --counts <FILE>     Write to FILE, as CSV, how often the instruction at each address was executed; uses one thread, whatever --workers says
        --contested <FILE>  Write to FILE, as CSV, the bytes to which puts or gets of one superstep bring different values; BSPlib leaves open which value stays
        --exposed <FILE>    Write to FILE, as CSV, the bytes that one call of a superstep reads and another one writes, if BSPlib leaves open which comes first; uses one thread, whatever --workers says
    -h, --help              Print help
  
  Exit status:
    0  success; for `run`: every node ended
    1  the command line, a setting or the program was refused
    2  a node was stopped by a fault, or stopped itself with an abort
    3  a node reached its limit before it ended
    4  nodes waited for one that had already ended, or an exchange was refused
    5  memory ran out, or a thread could not be started
    6  a file could not be opened, read or written
