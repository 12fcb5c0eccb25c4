; r0 4: the result is the number to which the pointer leads.
        ldw r0, [r1+0]
        exit
