; r0 0: r0 is set before the paths part.
        mov r0, 0
        ldw r2, [r1+16]
        jeq r2, 1, out
        mov r0, 7
out:    exit
