/* The tables without names, and their supplement, as two texts. */
    .section .rodata
    .globl store_tables, store_tables_end, store_supplement, store_supplement_end
    .hidden store_tables, store_tables_end, store_supplement, store_supplement_end
store_tables:
    .incbin TABLES
store_tables_end:
store_supplement:
    .incbin SUPPLEMENT
store_supplement_end:
    .section .note.GNU-stack, "", %progbits
