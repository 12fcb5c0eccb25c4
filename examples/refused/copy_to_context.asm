; V10 unit 3: the words would be written to the context.
        mov r2, r1
        mov r1, 0
        mov r3, 1
        call board_copy
        exit
