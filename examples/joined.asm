; r0 4: r2 points into the stack on both paths, to -16 or to -8, and both places hold bytes.
        std [r10-16], 3
        std [r10-8], 4
        mov r2, r10
        ldw r3, [r1+16]
        jeq r3, 0, first
        add r2, -8
        ja read
first:  add r2, -16
read:   ldd r0, [r2+0]
        exit
