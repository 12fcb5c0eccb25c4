; r0 5: a call leaves r6 to r9 as they are.
        mov r6, 5
        mov r1, r6
        call board_get
        mov r0, r6
        exit
