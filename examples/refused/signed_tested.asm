; V7 unit 5: each number from 2^63 on passes a signed test, since it is negative.
        ldd r2, [r1+32]
        mov r0, 0
        jsgt r2, 7, out
        mov r3, r10
        add r3, -8
        add r3, r2
        stb [r3+0], 1
out:    exit
