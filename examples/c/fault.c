/* An application with a fault: it writes through a pointer that was never set. */
#include "uefi.h"

struct list {
    struct list *next;
    uint64_t count;
};

static struct list *volatile head;

efi_status efi_main(efi_handle image, struct efi_system_table *system) {
    (void)image;
    system->con_out->output_string(system->con_out, u"counting");
    head->count = 1;
    return EFI_SUCCESS;
}
