; V7 unit 5: the test reads 32 bits as a signed number, but r2 is only known to be below 2^32.
        ldw r2, [r1+32]
        mov r0, 0
        jsgt.w r2, 7, out
        mov r3, r10
        add r3, -8
        add r3, r2
        stb [r3+0], 1
out:    exit
