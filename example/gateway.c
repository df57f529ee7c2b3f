/*
 * A gateway: reads a log, a policy and a key from the working folder, redacts the log, and prints its text, its report and the number
 * of rows; or which refusal there was.
 */
#include "er7_redact.h"
#include <ctype.h>
#include <errno.h>
#include <inttypes.h>
#include <stdio.h>
#include <stdlib.h>

static uint8_t message[ER7_INPUT_MAX + 1], policy[ER7_INPUT_MAX + 1];
static uint8_t output[ER7_BUFFER_MIN], report[65536], scratch[ER7_BUFFER_MIN];

/* Reads a file, one byte past the limit at most: then the redactor refuses it as too long. */
static size_t load(const char *name, uint8_t *bytes, size_t size) {
    FILE *file = fopen(name, "rb");
    if (file == NULL) {
        perror(name);
        exit(2);
    }
    size_t n = fread(bytes, 1, size, file);
    fclose(file);
    return n;
}

/* Reads the key: decimal digits up to 18446744073709551615, then at most one LF. Anything else ends the program: a key that is taken for
 * another gives pseudonyms that anyone could make. */
static uint64_t load_key(const char *name) {
    char text[64] = {0};
    size_t n = load(name, (uint8_t *)text, sizeof text - 1);
    char *end;
    errno = 0;
    uint64_t key = strtoull(text, &end, 10);
    if (!isdigit((unsigned char)text[0]) || errno != 0 || n == sizeof text - 1 || text + n != end + (*end == '\n')) {
        fprintf(stderr, "%s: no key\n", name);
        exit(2);
    }
    return key;
}

int main(void) {
    uint64_t key = load_key("key.txt");
    size_t message_size = load("message.er7", message, sizeof message);
    size_t policy_size = load("policy.txt", policy, sizeof policy);

    uint64_t text_len, report_len, rows, line;
    uint32_t number = er7_redact(message, message_size, policy, policy_size, key, output, sizeof output, report, sizeof report,
                                 scratch, sizeof scratch, &text_len, &report_len, &rows, &line);
    if (number != ER7_DONE) {
        printf("refused %" PRIu32 " line %" PRIu64 "\n", number, line);
        return 1;
    }
    fwrite(output, 1, text_len, stdout);
    fwrite(report, 1, report_len, stdout);
    printf("rows %" PRIu64 "\n", rows);
    return 0;
}
