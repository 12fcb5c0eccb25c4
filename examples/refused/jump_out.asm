; V2 unit 1: a jump past the end.
        mov r0, 0
        jeq r0, 0, +1
        exit
