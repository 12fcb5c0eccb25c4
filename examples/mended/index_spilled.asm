; r0 0: the number is masked again after it is loaded.
        ldd r2, [r1+32]
        mov r0, 0
        jgt r2, 7, out
        stxd [r10-16], r2
        ldd r2, [r10-16]
        and r2, 7
        mov r3, r10
        add r3, -8
        add r3, r2
        stb [r3+0], 1
out:    exit
