; r0 0: the mask leaves 0 to 7 of any number, so it can choose one of the eight cells below r10.
        ldd r2, [r1+32]
        and r2, 7
        mov r3, r10
        add r3, -8
        add r3, r2
        stb [r3+0], 1
        mov r0, 0
        exit
