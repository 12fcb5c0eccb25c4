; V9 unit 1: a part of a stored pointer is not a number.
        stxd [r10-8], r1
        ldw r0, [r10-8]
        exit
