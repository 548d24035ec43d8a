  $ bspemu debug --help
  Debug a program: execute the commands on standard input, and write a reply to each
  
  Usage: bspemu debug [OPTIONS] <IMAGE>
  
  Arguments:
    <IMAGE>  Program file, or - for standard input
  
  Options:
        --format <FORMAT>   Format of IMAGE: elf, an ELF executable; raw, the bytes of memory from address 0; asm, an assembly text [default: elf]
        --nodes <N>         Number of nodes, 1 to 1024, or to 65536 with --large [default: 1]
        --memory <BYTES>    Bytes of memory of each node: a multiple of 4096, from 4096 to 16777216, or to 2147483648 with --large [default: 1048576]
        --limit <TICKS>     Most ticks of each node, 1 to 1099511627776; an instruction takes one tick [default: 1000000]
        --input <FILE>      File that each node reads as its input, at most 16777216 bytes, or 1073741824 with --large [default: no input]
        --g <TICKS>         Price g: ticks that each byte of an h-relation adds to the cost [default: 1]
        --l <TICKS>         Price l: ticks that the end of each superstep adds to the cost [default: 0]
        --ledger <VERSION>  How costs are counted; 2: h excludes bytes that a rank moves to itself, and m counts messages; 1: h includes these bytes [default: 2]
        --clock             Give each node a clock, which call 19 reads: the cost of all finished supersteps plus the node's ticks in this one
        --float             Give each node a floating-point unit, for the instructions of F and D
        --atomic            Give each node the atomic instructions of A
        --large             Allow a large machine: up to 65536 nodes, 2147483648 bytes of memory a node, 1073741824 bytes of input, and more requests in a superstep
        --interactive       Answer each command before the next one is read, as at a terminal
        --framed            For programs: write a header before each reply, with its number of lines and whether the command was refused
    -h, --help              Print help
  
  Commands, one a line, on standard input. In a pipe, all lines are read first, and then answered in order. At a terminal,
  and with --interactive or --framed, each command is answered before the next one is read:
    break RANK ADDR      set a breakpoint: go stops before this rank executes the instruction at this address
    break superstep K    set a breakpoint: go stops at the start of superstep K
    clear RANK ADDR      remove the breakpoint at this address
    clear superstep K    remove the breakpoint at this superstep
    step RANK N          execute N instructions of this rank, or fewer if it stops; ignores breakpoints
    phase                run each rank until it stops, in rank order; ignores breakpoints
    turn                 end the superstep, if no rank is running
    go                   run to the next breakpoint, or to the end
    regs RANK            show where this rank is, its ticks, its state and its registers
    fregs RANK           show the fcsr and the floating-point registers of this rank, with --float
    bytes RANK ADDR LEN  show LEN bytes of the memory of this rank
    queue RANK           show the messages that wait in the queue of this rank
    costs                show the costs of the supersteps so far, and their total
    output               show what was written in the supersteps so far
    quit                 end
  There are more commands at a terminal, and with --interactive or --framed:
    help [LINE]          show all commands, or those that begin with the word LINE
    points               show the breakpoints
    step [RANK]          execute one instruction of this rank, or of the lowest rank that runs
    over RANK            execute one instruction of this rank; if it calls a function, run until the function returns
    words RANK ADDR N    show N words of the memory of this rank
    text RANK ADDR N     show N bytes of it as text, or those before the first zero byte
    list RANK ADDR N     show N instructions of it; those of F, D and A by name if the nodes have them
    areas RANK           show the areas that this rank has registered
    requests RANK        show the requests that this rank has made in this superstep
    where [RANK]         show the address, superstep and state of this rank, or of each rank
    keep                 keep the state of the machine, under the next number from 0
    back N               bring the machine back to state N, or forward; breakpoints stay as they are
    kept                 show the states that are kept, and where their ranks are
    forget N             discard state N; its number is not used again
  With --framed, each reply begins with a header: `done N`, or `refused N` if the command is refused. N is the number of
  lines of the reply. There are still more commands:
    nodes                show the number of ranks, and the other settings
    go RANK N            execute N instructions of this rank, or fewer if it stops or reaches a breakpoint of its own
    output FROM          show what was written, from byte FROM on
    costs FROM           show the costs from superstep FROM on, and the total of all
  Numbers are decimal, or hexadecimal as in 0x1f. All lines together may have 1048576 bytes. If IMAGE is -, standard input
  is the program, so there are no commands.
  
  A command that is refused changes nothing, and its reply is `refused: NAME`:
    BadCommand   the command is unknown, or a number in it is too large
    BadRank      there is no such rank
    BadRange     some of these bytes are outside the memory
    NoFloatUnit  the nodes have no floating-point registers; with --float they have them
    TooMany      there are 1024 other breakpoints
    NoSuchBreak  there is no such breakpoint
    NoSuchKept   no state is kept under this number
    Over         the run has ended
  The exit status is 0, even if commands were refused or the run failed. Only an error of the debugger itself gives 1, 5 or 6.
  docs/manual/debugger.md has an example of each command.
