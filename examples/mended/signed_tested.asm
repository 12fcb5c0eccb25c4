; r0 0: an index is unsigned, and so is its test.
        ldd r2, [r1+32]
        mov r0, 0
        jgt r2, 7, out
        mov r3, r10
        add r3, -8
        add r3, r2
        stb [r3+0], 1
out:    exit
