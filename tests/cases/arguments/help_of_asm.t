  $ bspemu asm --help
  Assemble a text into an ELF file
  
  Usage: bspemu asm [OPTIONS] <TEXT> <IMAGE>
  
  Arguments:
    <TEXT>   Assembly text, at most 4194304 bytes
    <IMAGE>  ELF file to write; it is created, or emptied, as soon as TEXT is open
  
  Options:
        --float   Accept floating-point instructions, those of F and D
        --atomic  Accept atomic instructions, those of A
    -h, --help    Print help
  
  If the text is refused, standard error has a line `line N: NAME`:
    BadToken         not a name, number, string or operator
    UnknownMnemonic  the statement does not begin with an instruction or a directive
    BadOperand       too few or too many operands, or one of the wrong kind
    OutOfRange       a number or the offset of a jump is out of range, or an offset is odd
    DuplicateLabel   the label is already defined, in this line or an earlier one
    UndefinedLabel   a label is used but not defined
    TooLarge         the statement ends past 16777216 bytes
  docs/manual/assembly.md describes the whole language.
