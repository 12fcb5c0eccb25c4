; V7 unit 2: clang puts a constant array into .rodata. Until its address is filled in, there is a 0 here.
        lddw r2, 0
        ldw r0, [r2+4]
        exit
