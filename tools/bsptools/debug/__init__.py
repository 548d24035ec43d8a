"""The bridge between gdb's remote serial protocol and the debugger's lines.

From gdb's side inwards: `server` lets gdb come, `packets` frames bytes, `packet_numbers` reads the numbers in them, `stub` answers packets,
`monitor` answers gdb's `monitor`, `gdb_terms` has gdb's texts and numbers, and `runner` makes the machine go on as gdb says, which is that
of `reverse`.
"""
