/* The headers of a PE32+ file for RISC-V of 64 bits (Microsoft PE and COFF specification), as data in front of the
 * code: the linker counts, and the binary tools write the whole as one flat file. SUBSYSTEM is 10 for an application
 * and 12 for a runtime driver. */
    .section .headers, "a"
    .globl image_base
image_base:
    .ascii "MZ"
    .zero 58
    .long pe - image_base           /* where the signature stands */
pe:
    .ascii "PE\0\0"
    .short 0x5064                   /* Machine: RISC-V, 64 bits */
    .short 3                        /* NumberOfSections */
    .long 0, 0, 0                   /* TimeDateStamp, no symbols */
    .short sections - optional      /* SizeOfOptionalHeader */
    .short 0x0222                   /* executable, large addresses, no debug data; relocations aren't stripped */
optional:
    .short 0x20b                    /* PE32+ */
    .byte 0, 0
    .long text_size, data_size, 0
    .long efi_main - image_base     /* AddressOfEntryPoint */
    .long text - image_base
    .quad 0                         /* ImageBase */
    .long 0x1000, 0x1000            /* SectionAlignment, FileAlignment */
    .short 0, 0, 0, 0, 0, 0
    .long 0
    .long image_size                /* SizeOfImage */
    .long text - image_base         /* SizeOfHeaders */
    .long 0
    .short SUBSYSTEM
    .short 0
    .quad 0, 0, 0, 0
    .long 0
    .long 6                         /* NumberOfRvaAndSizes */
    .quad 0, 0, 0, 0, 0
    .long reloc - image_base, reloc_used   /* the base relocation table */
sections:
    .ascii ".text\0\0\0"
    .long text_size, text - image_base, text_size, text - image_base, 0, 0, 0
    .long 0x60000020                /* code, may be read and executed */
    .ascii ".data\0\0\0"
    .long data_size, data - image_base, data_raw, data - image_base, 0, 0, 0
    .long 0xc0000040                /* data, may be read and written */
    .ascii ".reloc\0\0"
    .long reloc_size, reloc - image_base, reloc_size, reloc - image_base, 0, 0, 0
    .long 0x42000040                /* data, may be read */
