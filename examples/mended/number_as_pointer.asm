; r0 4: r1, r10, their copies and the sums of these with numbers are pointers.
        mov r2, r1
        ldb r0, [r2+0]
        exit
