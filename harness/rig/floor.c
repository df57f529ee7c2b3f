/* The floor of the benchmark: what any redactor with the port's promises does at least. */
#include <stddef.h>
#include <stdint.h>
#include <string.h>

/* Checks the message's bytes, copies it to the output, and zeroes the rest of the output, the report and the scratch. */
uint32_t er7_floor(const uint8_t *message, size_t size, uint8_t *output, size_t output_size, uint8_t *report, size_t report_size,
                   uint8_t *scratch, size_t scratch_size) {
    for (size_t i = 0; i < size; i++) {
        uint8_t b = message[i];
        if (b != 0x09 && b != 0x0d && (b < 0x20 || b > 0x7e)) return 3;
    }
    memcpy(output, message, size);
    memset(output + size, 0, output_size - size);
    memset(report, 0, report_size);
    memset(scratch, 0, scratch_size);
    return 0;
}
