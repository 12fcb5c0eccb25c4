; r0 7: the array is written to the stack, where the program finds it.
        stw [r10-8], 5
        stw [r10-4], 7
        ldw r0, [r10-4]
        exit
