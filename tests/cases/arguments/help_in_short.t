  $ bspemu -h
  Emulator of a bulk synchronous parallel (BSP) machine whose nodes run RISC-V programs
  
  Usage: bspemu <COMMAND>
  
  Commands:
    run    Run a program on every node, superstep by superstep, and write the output of the nodes
    debug  Debug a program: execute the commands on standard input, and write a reply to each
    list   List a program: each word with its address and its instruction
    asm    Assemble a text into an ELF file
    help   Print this message or the help of the given subcommand(s)
  
  Options:
    -h, --help     Print help
    -V, --version  Print version
  
  Exit status:
    0  success; for `run`: every node ended
    1  the command line, a setting or the program was refused
    2  a node was stopped by a fault, or stopped itself with an abort
    3  a node reached its limit before it ended
    4  nodes waited for one that had already ended, or an exchange was refused
    5  memory ran out, or a thread could not be started
    6  a file could not be opened, read or written
