; r0 4: a pointer is kept on the stack. Then the program reads through it: at 0 is the number of generals.
stxd [r10-8], r1
ldd r2, [r10-8]
ldw r0, [r2+0]
exit
