; r0 6: there are no loops, so what is done three times is written three times.
        mov r0, 0
        add r0, 2
        add r0, 2
        add r0, 2
        exit
