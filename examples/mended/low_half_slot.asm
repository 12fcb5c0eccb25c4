; r0 0: the test uses all 64 bits.
        ldd r2, [r1+32]
        mov r0, 0
        jgt r2, 63, out
        mov r1, r2
        call board_get
out:    exit
