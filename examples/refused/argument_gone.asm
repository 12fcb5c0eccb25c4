; V5 unit 2: a call leaves r1 to r5 unset.
        mov r1, 0
        call board_get
        mov r0, r1
        exit
