; r0 1: the pointer stays in the context, where the bound is at 4.
        add r1, 4
        ldw r0, [r1+0]
        exit
