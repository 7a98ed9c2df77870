/* The little of UEFI 2.10 that these examples use: 4.3 (system table) and 12.4 (text output). */
#ifndef UEFI_H
#define UEFI_H

#include <stdint.h>

typedef uint64_t efi_status;
typedef void *efi_handle;

#define EFI_SUCCESS 0
#define EFI_ERROR(status) ((int64_t)(status) < 0)

struct efi_table_header {
    uint64_t signature;
    uint32_t revision;
    uint32_t header_size;
    uint32_t crc32;
    uint32_t reserved;
};

struct efi_text_output {
    efi_status (*reset)(struct efi_text_output *self, uint8_t extended);
    efi_status (*output_string)(struct efi_text_output *self, const uint16_t *text);
};

struct efi_system_table {
    struct efi_table_header header;
    const uint16_t *firmware_vendor;
    uint32_t firmware_revision;
    efi_handle console_in_handle;
    void *con_in;
    efi_handle console_out_handle;
    struct efi_text_output *con_out;
};

#endif
