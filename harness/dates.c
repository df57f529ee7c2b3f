/* Moves every date of the years 1 to 9999 through the entry for payloads. Arguments: a file of all these dates in order, eight digits and
 * LF each, and day counts. A date moved by n days must be the date n lines further down, and is cleared where there is none. */
#include "er7_redact.h"
#include <stdio.h>
#include <stdlib.h>
#include <string.h>

enum { DATES = 3652059, LINE = 9, MOST = 3650, SHOWN = 10 };

static char dates[DATES * LINE + 1];
static uint8_t output[ER7_BUFFER_MIN], scratch[ER7_BUFFER_MIN];
static unsigned long calls, cleared, all, differing;

/* Calls the entry, and compares what it hands back with the text. */
static void compare(const char *payload, const char *policy, const char *text) {
    uint64_t text_len = 99, line = 99;
    uint32_t number = er7_payload((const uint8_t *)payload, strlen(payload), (const uint8_t *)policy, strlen(policy), 0, output,
                                  sizeof output, scratch, sizeof scratch, &text_len, &line);
    calls++;
    cleared += number == ER7_DONE && text_len == 0;
    /* with the zero behind the text */
    if (number == ER7_DONE && line == 0 && text_len == strlen(text) && memcmp(output, text, text_len + 1) == 0) return;
    if (differing++ < SHOWN)
        printf("%s, %s: number %u, \"%.20s\", expected \"%s\"\n", policy, payload, (unsigned)number, (const char *)output, text);
}

/* The policy that moves by n days. */
static const char *policy_of(long n) {
    static char policy[40];
    snprintf(policy, sizeof policy, "unrecognised shift %ld", n);
    return policy;
}

/* Date i with four or six digits behind it, or none, moved by n days. */
static void move(long i, long n, const char *policy) {
    char payload[16], text[16] = "";
    int behind = i % 5 == 1 ? 4 : i % 5 == 3 ? 6 : 0;
    memcpy(payload, dates + i * LINE, 8);
    snprintf(payload + 8, sizeof payload - 8, "%06ld", i % 1000000);
    payload[8 + behind] = 0;
    if (i + n >= 0 && i + n < DATES) {
        memcpy(text, dates + (i + n) * LINE, 8);
        strcpy(text + 8, payload + 8);
    }
    compare(payload, policy, text);
}

static int in_order(const void *a, const void *b) { return memcmp(a, b, 8); }

/* Texts of eight digits that are no date: all months to 13 and days to 32 of some years. */
static void clear_others(const char *policy) {
    static const int years[] = {0, 1, 4, 100, 400, 1900, 2000, 2023, 2024, 9999};
    for (size_t y = 0; y < sizeof years / sizeof *years; y++)
        for (int month = 0; month <= 13; month++)
            for (int day = 0; day <= 32; day++) {
                char payload[40];
                snprintf(payload, sizeof payload, "%04d%02d%02d", years[y], month, day);
                if (bsearch(payload, dates, DATES, LINE, in_order) == NULL) compare(payload, policy, "");
            }
}

static void report(const char *what) {
    printf("%s: %lu compared, %lu of them cleared\n", what, calls, cleared);
    all += calls;
    calls = cleared = 0;
}

int main(int argc, char **argv) {
    FILE *file = argc > 1 ? fopen(argv[1], "rb") : NULL;
    if (file == NULL || fread(dates, 1, sizeof dates, file) != sizeof dates - 1 || memcmp(dates, "00010101\n", LINE) != 0
        || memcmp(dates + (DATES - 1L) * LINE, "99991231\n", LINE) != 0) {
        puts("no file of all dates");
        return 1;
    }
    fclose(file);
    for (int a = 2; a < argc; a++) {
        long n = atol(argv[a]);
        const char *policy = policy_of(n);
        for (long i = 0; i < DATES; i++) move(i, n, policy);
        clear_others(policy);
        report(policy);
    }
    for (long i = 0; i < DATES; i++) {
        long n = i % (2 * MOST + 1) - MOST;
        move(i, n, policy_of(n));
    }
    report("every day count by turns");
    printf("dates: %lu compared, %lu differ\n", all, differing);
    return differing > 0;
}
