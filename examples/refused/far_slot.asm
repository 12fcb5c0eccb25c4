; V12 unit 1: the board has the words 0 to 63.
        mov r1, 64
        call board_get
        exit
