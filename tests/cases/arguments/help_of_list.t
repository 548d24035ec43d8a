  $ bspemu list --help
  List a program: each word with its address and its instruction
  
  Usage: bspemu list [OPTIONS] <IMAGE>
  
  Arguments:
    <IMAGE>  Program file, or - for standard input
  
  Options:
        --format <FORMAT>  Format of IMAGE: elf, an ELF executable; raw, the bytes of memory from address 0; asm, an assembly text [default: elf]
        --float            Show floating-point instructions by name; without this option they are data
        --atomic           Show instructions of A by name; without this option they are data
        --large            Accept a file of up to 268435456 bytes, as a large machine does
    -h, --help             Print help
