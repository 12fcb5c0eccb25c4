; r0 0: the copy that was tested is used.
        ldd r2, [r1+32]
        mov r0, 0
        mov r4, r2
        jgt r4, 7, out
        mov r3, r10
        add r3, -8
        add r3, r4
        stb [r3+0], 1
out:    exit
