/* The base relocations of an image with one cell that holds an address: a block of one page, one entry of type DIR64
 * and one of padding. */
    .section .reloc, "a"
    .long cell_page, 12, cell_entry
