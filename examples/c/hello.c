/* An application that prints two lines. */
#include "uefi.h"

static void print(struct efi_system_table *system, const uint16_t *text) {
    system->con_out->output_string(system->con_out, text);
}

efi_status efi_main(efi_handle image, struct efi_system_table *system) {
    (void)image;
    print(system, u"Hello from C\r\n");
    uint16_t digits[] = u"6 * 7 = ..\r\n";
    int product = 6 * 7;
    digits[8] = (uint16_t)(u'0' + product / 10);
    digits[9] = (uint16_t)(u'0' + product % 10);
    print(system, digits);
    return EFI_SUCCESS;
}
