; r0 0: bit 3 of a number chooses one of two cells. All its other bits are known to be 0.
        ldd r2, [r1+32]
        and r2, 8
        xor r2, 8
        mov r3, r10
        add r3, -9
        add r3, r2
        stb [r3+0], 1
        mov r0, 0
        exit
