; V12 unit 4: five words from 60 on would end after word 63, the last.
        mov r1, 60
        mov r2, r10
        add r2, -32
        mov r3, 5
        call board_copy
        ldd r0, [r10-32]
        exit
