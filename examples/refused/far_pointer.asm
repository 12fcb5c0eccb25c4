; V7 unit 0: the pointer would be more than 65,536 from the start of its region.
        add r1, 287454020
        mov r0, 0
        exit
