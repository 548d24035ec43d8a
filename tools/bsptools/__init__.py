"""What the tools around the emulator are made of: modules that all of them share, and packages in layers.

A module imports modules of its own package, without a circle, and of the packages in the rows below that one; the last row has the modules
beside this file. No two modules have the same name. `tests/style` looks at both.

    commands   commands
    tools      run  plot  sweep  debug  dialogue  marking  probe  stage
    findings   diagnosis
    choices    portable
    runs       prepare  counts  reverse
    readers    framed  outputs
    programs   program
    base       bsptools
"""

VERSION = "0.1.0"
