        .text
        .macro function name
        .globl \name
        .type \name,@function
\name:
        .endm
        .macro ends name
        .byte 0x95,0,0,0,0,0,0,0
        .size \name, .-\name
        .endm
function unknown_opcode
        .byte 0xff,0,0,0,0,0,0,0
ends unknown_opcode
function unused_field
        .byte 0x07,0x10,0,0,1,0,0,0
ends unused_field
function high_register
        .byte 0xb7,0x0b,0,0,0,0,0,0
ends high_register
function map_load
        .byte 0x18,0x11,0,0,7,0,0,0,0,0,0,0,0,0,0,0
ends map_load
function atomic_word
        .byte 0xc3,0x0a,0xf8,0xff,0,0,0,0
ends atomic_word
function atomic_double
        .byte 0xb7,0,0,0,1,0,0,0
        .byte 0xdb,0x0a,0xf8,0xff,0,0,0,0
ends atomic_double
function packet_load
        .byte 0x30,0,0,0,0,0,0,0
ends packet_load
function odd_swap
        .byte 0xdc,0,0,0,8,0,0,0
ends odd_swap
function odd_move
        .byte 0xbf,0x10,1,0,0,0,0,0
ends odd_move
function odd_division
        .byte 0x37,0,2,0,3,0,0,0
ends odd_division
