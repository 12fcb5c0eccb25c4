; r0 5: the number to be changed is copied to the stack.
        ldw r2, [r1+0]
        add r2, 1
        stxw [r10-4], r2
        ldw r0, [r10-4]
        exit
