; V1 unit 1: a jump to its own unit.
        mov r0, 0
again:  ja again
        exit
