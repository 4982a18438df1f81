/* The stored cases as they stand, so that an image without files has them. */
    .section .rodata
    .globl cases_begin, cases_end, wrong_begin, wrong_end
cases_begin:
    .incbin "crates/vectors/data/cases"
cases_end:
wrong_begin:
    .incbin "crates/vectors/data/wrong"
wrong_end:
    .section .note.GNU-stack, "", %progbits
