; r0 4: the stored pointer is loaded whole, and then followed.
        stxd [r10-8], r1
        ldd r2, [r10-8]
        ldw r0, [r2+0]
        exit
