; r0 0: the test reads the number as unsigned.
        ldw r2, [r1+32]
        mov r0, 0
        jgt.w r2, 7, out
        mov r3, r10
        add r3, -8
        add r3, r2
        stb [r3+0], 1
out:    exit
