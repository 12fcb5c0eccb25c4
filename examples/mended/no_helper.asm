; r0 0: the call names a helper that exists.
        mov r1, 0
        call board_get
        exit
