; V7 unit 6: the test bounds only the copy in r4, and r2 may still be any number.
        ldd r2, [r1+32]
        mov r0, 0
        mov r4, r2
        jgt r4, 7, out
        mov r3, r10
        add r3, -8
        add r3, r2
        stb [r3+0], 1
out:    exit
