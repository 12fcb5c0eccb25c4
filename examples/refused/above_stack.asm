; V8 unit 0: eight bytes from -4 on end at 4, but the stack ends at 0.
        ldd r0, [r10-4]
        exit
