; V5 unit 3: on one of the two paths to the exit r0 is not set.
        ldw r2, [r1+16]
        jeq r2, 1, out
        mov r0, 0
out:    exit
