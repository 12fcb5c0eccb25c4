; r0 42: a program that returns a number.
mov r0, 42
exit
