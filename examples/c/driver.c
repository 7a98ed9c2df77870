/* A runtime driver with a pointer in its data, which a relocation entry moves when the image is loaded. */
#include "uefi.h"

struct counter {
    uint64_t value;
};

static struct counter counter = {.value = 5};

/* a cell that holds an address: the linker writes it as if the image stood at 0 */
struct counter *volatile cell = &counter;

/* what the operating system calls later */
__attribute__((used)) uint64_t add(uint64_t n) {
    cell->value += n;
    return cell->value;
}

efi_status efi_main(efi_handle image, struct efi_system_table *system) {
    (void)image;
    (void)system;
    return add(0) == 5 ? EFI_SUCCESS : 0x8000000000000007;
}
