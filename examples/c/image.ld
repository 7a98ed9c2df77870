/* An image at address 0 whose file is laid out as its memory: each section begins at a page. */
ENTRY(efi_main)
SECTIONS
{
    . = 0;
    .headers : { *(.headers) }
    . = ALIGN(0x1000);
    text = .;
    .text : { *(.text .text.*) *(.rodata .rodata.* .srodata .srodata.*) . = ALIGN(0x1000); }
    data = .;
    .data : { *(.data .data.* .sdata .sdata.*) . = ALIGN(0x1000); }
    data_filled = .;
    .bss : { *(.bss .bss.* .sbss .sbss.*) *(COMMON) . = ALIGN(0x1000); }
    reloc = .;
    .reloc : { *(.reloc) reloc_end = .; . = ALIGN(0x1000); }
    image_size = .;

    text_size = data - text;
    data_size = reloc - data;
    data_raw = data_filled - data;
    reloc_used = reloc_end - reloc;
    reloc_size = image_size - reloc;

    /DISCARD/ : { *(.comment) *(.note*) *(.eh_frame) *(.riscv.attributes) *(.llvm_addrsig) }
}

/* One relocation block: the page of the cell that holds an address, and the cell's place in it with type 10 (DIR64). */
PROVIDE(cell = 0);
cell_page = cell & ~0xfff;
cell_entry = 0xa000 | (cell & 0xfff);
