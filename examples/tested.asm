; r0 0: a number of the context chooses one of the eight cells below r10, if it is at most 7.
        ldd r2, [r1+32]
        mov r0, 0
        jgt r2, 7, out
        mov r3, r10
        add r3, -8
        add r3, r2
        stb [r3+0], 1
out:    exit
