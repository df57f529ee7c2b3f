/* A gateway in C: runs the five entries, and checks every number and every byte that they hand back. */
#define _GNU_SOURCE
#include "er7_redact.h"
#include <pthread.h>
#include <stdio.h>
#include <stdlib.h>
#include <string.h>
#include <sys/mman.h>

static int failures;

static void check(const char *name, int fine) {
    printf("%s %s\n", fine ? "ok    " : "FAILED", name);
    failures += !fine;
}

/* ---- buffers: lent from the middle of a larger piece, so that a write outside shows */

enum { GUARD = 64, USED = 0xaa, WIDE = ER7_BUFFER_MIN, REPORT = 65536 };

typedef struct {
    uint8_t *bytes; /* NULL for no bytes */
    size_t length;
} Lent;

static Lent lend(size_t length) {
    Lent b = {NULL, length};
    if (length > 0) {
        uint8_t *all = malloc(length + 2 * GUARD);
        if (all == NULL) abort();
        memset(all, USED, length + 2 * GUARD);
        b.bytes = all + GUARD;
    }
    return b;
}

static void give_back(Lent b) {
    if (b.bytes != NULL) free(b.bytes - GUARD);
}

static int all_are(const uint8_t *bytes, size_t n, uint8_t x) {
    for (size_t i = 0; i < n; i++)
        if (bytes[i] != x) return 0;
    return 1;
}

/* Whether b holds the text at its front, zeros behind it, and nothing outside was touched. */
static int holds(Lent b, const char *text, size_t n) {
    if (b.bytes == NULL) return n == 0;
    return n <= b.length && memcmp(b.bytes, text, n) == 0 && all_are(b.bytes + n, b.length - n, 0)
        && all_are(b.bytes - GUARD, GUARD, USED) && all_are(b.bytes + b.length, GUARD, USED);
}

/* ---- calls */

typedef struct {
    uint32_t number;
    uint64_t text_len, report_len, rows, line;
    Lent output, report, scratch;
} Call;

/* What every call starts from: numbers and buffers that hold something. */
static Call ready(size_t output, size_t report, size_t scratch) {
    Call c = {99, 99, 99, 99, 99, lend(output), lend(report), lend(scratch)};
    return c;
}

static void end(Call *c) {
    give_back(c->output);
    give_back(c->report);
    give_back(c->scratch);
}

static int is_done(const Call *c, const char *text, size_t n, const char *report, uint64_t rows) {
    return c->number == ER7_DONE && c->line == 0 && c->text_len == n && holds(c->output, text, n)
        && c->report_len == strlen(report) && c->rows == rows && holds(c->report, report, strlen(report))
        && holds(c->scratch, "", 0);
}

static int is_refused(const Call *c, uint32_t number, uint64_t line) {
    return c->number == number && c->line == line && c->text_len == 0 && c->report_len == 0 && c->rows == 0
        && holds(c->output, "", 0) && holds(c->report, "", 0) && holds(c->scratch, "", 0);
}

static void done(const char *name, Call c, const char *text) {
    check(name, is_done(&c, text, strlen(text), "", 0));
    end(&c);
}

static void refused(const char *name, Call c, uint32_t number, uint64_t line) {
    check(name, is_refused(&c, number, line));
    end(&c);
}

/* A text as a slice; NULL for none. */
static size_t size(const char *t) { return t == NULL ? 0 : strlen(t); }

#define SLICE(t) (const uint8_t *)(t), size(t)

/* An entry without a report: its length and its rows count as 0. */
static Call without_report(size_t output, size_t scratch) {
    Call c = ready(output, 0, scratch);
    c.report_len = 0;
    c.rows = 0;
    return c;
}

static Call print_on(size_t output, size_t scratch, const char *policy) {
    Call c = without_report(output, scratch);
    c.number = er7_print(SLICE(policy), c.output.bytes, output, c.scratch.bytes, scratch, &c.text_len, &c.line);
    return c;
}

static Call print(const char *policy) { return print_on(WIDE, WIDE, policy); }

static Call append_on(size_t output, size_t scratch, const char *first, const char *second) {
    Call c = without_report(output, scratch);
    c.number = er7_append(SLICE(first), SLICE(second), c.output.bytes, output, c.scratch.bytes, scratch, &c.text_len, &c.line);
    return c;
}

static Call append(const char *first, const char *second) { return append_on(WIDE, WIDE, first, second); }

static Call builtin_on(size_t output, size_t scratch, uint64_t number) {
    Call c = without_report(output, scratch);
    c.number = er7_builtin(number, c.output.bytes, output, c.scratch.bytes, scratch, &c.text_len, &c.line);
    return c;
}

static Call builtin(uint64_t number) { return builtin_on(WIDE, WIDE, number); }

static Call payload_on(size_t output, size_t scratch, const char *payload, const char *policy, uint64_t key) {
    Call c = without_report(output, scratch);
    c.number = er7_payload(SLICE(payload), SLICE(policy), key, c.output.bytes, output, c.scratch.bytes, scratch, &c.text_len, &c.line);
    return c;
}

static Call payload(const char *payload, const char *policy, uint64_t key) { return payload_on(WIDE, WIDE, payload, policy, key); }

/* ---- long texts */

/* n copies of piece behind front. */
static char *repeated(const char *front, const char *piece, size_t n) {
    char *t = malloc(strlen(front) + n * strlen(piece) + 1);
    if (t == NULL) abort();
    char *at = stpcpy(t, front);
    for (size_t i = 0; i < n; i++) at = stpcpy(at, piece);
    *at = 0;
    return t;
}

/* ---- the checks */

#define NOTHING "accept\nunrecognised  refuse\nknown-values  on\n"

static void prints(void) {
    done("print: no policy", print(NULL), NOTHING);
    done("print: a rule", print("PID-3 mask\nknown-values on\n"), "PID-3  mask *\n\n" NOTHING);
    done("print: comments, CR LF, names in capitals", print("# all\r\nUNRECOGNISED Pass\r\nPID.005[01] FIRST +4 # year"),
         "PID-5[1]  first 4\n\naccept\nunrecognised  pass\nknown-values  on\n");
    done("print: longer buffers", print_on(65536, 100000, "PID-3 mask"), "PID-3  mask *\n\n" NOTHING);
    refused("print: short output", print_on(WIDE - 1, WIDE, NULL), ER7_SHORT_BUFFER, 0);
    refused("print: short scratch", print_on(WIDE, WIDE - 1, NULL), ER7_SHORT_BUFFER, 0);
    refused("print: no buffers", print_on(0, 0, "PID-0 clear"), ER7_SHORT_BUFFER, 0);
    refused("print: foreign byte", print("PID-0 clear\nPID-3 mask \x80"), ER7_FOREIGN_BYTE, 0);
    refused("print: bad action in line 1", print("PID-5"), ER7_BAD_ACTION, 1);
    refused("print: bad day count in line 2", print("PID-5 shift -3650\nPID-0 shift 3651"), ER7_BAD_DAY_COUNT, 2);
    refused("print: bad path in line 2", print("PID-3 mask\nPID-0 clear\n"), ER7_BAD_PATH, 2);
    refused("print: bad directive in line 3", print("\n\nknown-values maybe"), ER7_BAD_DIRECTIVE, 3);

    char *t = repeated("PID-3 mask", "\n", ER7_INPUT_MAX - 10);
    done("print: 32,768 bytes", print(t), "PID-3  mask *\n\n" NOTHING);
    free(t);
    t = repeated("PID-0 clear", "\n", ER7_INPUT_MAX - 10);
    refused("print: 32,769 bytes", print(t), ER7_TOO_LONG, 0);
    free(t);
    t = repeated("", "PID-1 clear\n", 128);
    char *rules = repeated("", "PID-1  clear\n", 128);
    char *all = repeated(rules, "\n" NOTHING, 1);
    done("print: 128 rules", print(t), all);
    free(t);
    t = repeated("", "PID-1 clear\n", 129);
    refused("print: 129 rules", print(t), ER7_TOO_MANY, 129);
    free(t);
    free(rules);
    free(all);
    t = repeated("\n#", "x", 255);
    refused("print: a line of 256 bytes", print(t), ER7_TOO_MANY, 2);
    free(t);
}

static void appends(void) {
    done("append: no policies", append(NULL, NULL), NOTHING);
    done("append: first and second", append("PID-3 mask\nreject clear\nunrecognised pass\n", "OBX-5 first 2\nknown-values off\n"),
         "PID-3  mask *\nOBX-5  first 2\n\nreject        clear\nunrecognised  refuse\nknown-values  on\n");
    done("append: second and first", append("OBX-5 first 2\nknown-values off\n", "PID-3 mask\nreject clear\nunrecognised pass\n"),
         "OBX-5  first 2\nPID-3  mask *\n\nreject        clear\nunrecognised  pass\nknown-values  on\n");
    const char *twice = "PID-3 mask\nknown-values off\n";
    done("append: one text twice", append(twice, twice), "PID-3  mask *\nPID-3  mask *\n\naccept\nunrecognised  refuse\nknown-values  off\n");
    done("append: longer buffers", append_on(50000, 49153, "accept", NULL), NOTHING);
    refused("append: short output", append_on(WIDE - 1, WIDE, NULL, NULL), ER7_SHORT_BUFFER, 0);
    refused("append: short scratch", append_on(WIDE, WIDE - 1, NULL, NULL), ER7_SHORT_BUFFER, 0);
    refused("append: no buffers", append_on(0, 0, NULL, NULL), ER7_SHORT_BUFFER, 0);
    refused("append: the first before the second", append("\nPID-0 clear", "\x01"), ER7_BAD_PATH, 2);
    refused("append: the second", append("PID-3 mask", "\n\naccept all"), ER7_BAD_DIRECTIVE, 3);
    char *first = repeated("", "PID-1 clear\n", 100);
    char *second = repeated("", "PID-2 clear\n", 29);
    refused("append: 129 rules together", append(first, second), ER7_TOO_MANY, 0);
    char *rules = repeated("", "PID-1  clear\n", 100);
    char *more = repeated(rules, "PID-2  clear\n", 28);
    char *all = repeated(more, "\n" NOTHING, 1);
    second[28 * strlen("PID-2 clear\n")] = 0;
    done("append: 128 rules together", append(first, second), all);
    free(first);
    free(second);
    free(rules);
    free(more);
    free(all);
}

static void builtins(void) {
    done("built-in 0", builtin(0), "accept\nunrecognised  pass\nknown-values  on\n");
    done("built-in 1", builtin(1), "reject        replace REDACTED\nunrecognised  mask *\nknown-values  on\n");
    done("built-in 3", builtin(3), "MSH  keep\n\nreject        replace REDACTED\nunrecognised  refuse\nknown-values  on\n");
    Call c = builtin(2);
    const char *first = "PID-2.1   pseudonym\nPID-3.1   pseudonym\n";
    size_t lines = 0;
    for (uint64_t i = 0; i < c.text_len && i < c.output.length; i++) lines += c.output.bytes[i] == '\n';
    check("built-in 2 has 40 rules, an empty line and three more", lines == 44 && memcmp(c.output.bytes, first, strlen(first)) == 0);
    done("built-in 2 prints itself", print((const char *)c.output.bytes), (const char *)c.output.bytes);
    done("built-in 2, with zeros behind", c, (const char *)c.output.bytes);
    refused("built-in 4", builtin(4), ER7_NO_SUCH_BUILTIN, 0);
    refused("built-in 2^32", builtin(4294967296u), ER7_NO_SUCH_BUILTIN, 0);
    refused("built-in 2^64 - 1", builtin(UINT64_MAX), ER7_NO_SUCH_BUILTIN, 0);
    refused("built-in: short output", builtin_on(WIDE - 1, WIDE, 0), ER7_SHORT_BUFFER, 0);
    refused("built-in: short scratch before the number", builtin_on(WIDE, WIDE - 1, 4), ER7_SHORT_BUFFER, 0);
    refused("built-in: no buffers", builtin_on(0, 0, 0), ER7_SHORT_BUFFER, 0);
}

static void payloads(void) {
    done("payload: pass", payload("4412\r\nkcal\t", "unrecognised pass", 0), "4412\r\nkcal\t");
    done("payload: none", payload(NULL, "unrecognised pass", 0), "");
    done("payload: mask", payload("4412 kcal", "unrecognised mask\n", 0), "*********");
    done("payload: replace", payload("4412", "unrecognised replace a  b", 0), "a  b");
    done("payload: pseudonym", payload("4412", "unrecognised pseudonym", 0), "9543ea49ecdf625a");
    done("payload: pseudonym under another key", payload("4412", "unrecognised pseudonym", UINT64_MAX), "5385e8a9600aca32");
    done("payload: longer buffers", payload_on(65536, 49153, "4412", "unrecognised last 2", 0), "12");
    refused("payload: withheld", payload("4412", NULL, 0), ER7_WITHHELD, 0);
    refused("payload: foreign byte", payload("44\x01", NULL, 0), ER7_FOREIGN_BYTE, 0);
    done("payload: a date", payload("20240301", "unrecognised shift -1", 0), "20240229");
    refused("payload: the policy first", payload("44\x01", "\nunrecognised", 0), ER7_BAD_DIRECTIVE, 2);
    refused("payload: short output", payload_on(WIDE - 1, WIDE, "4412", "unrecognised pass", 0), ER7_SHORT_BUFFER, 0);
    refused("payload: short scratch", payload_on(WIDE, WIDE - 1, "4412", "unrecognised pass", 0), ER7_SHORT_BUFFER, 0);
    refused("payload: no buffers", payload_on(0, 0, NULL, NULL, 0), ER7_SHORT_BUFFER, 0);
    char *t = repeated("", "x", ER7_INPUT_MAX + 1);
    refused("payload: 32,769 bytes", payload(t, "unrecognised pass", 0), ER7_TOO_LONG, 0);
    t[ER7_INPUT_MAX] = 0;
    done("payload: 32,768 bytes", payload(t, "unrecognised pass", 0), t);
    free(t);
}

static Call redact_on(size_t output, size_t report, size_t scratch, const char *message, const char *policy, uint64_t key) {
    Call c = ready(output, report, scratch);
    c.number = er7_redact(SLICE(message), SLICE(policy), key, c.output.bytes, output, c.report.bytes, report, c.scratch.bytes, scratch,
                          &c.text_len, &c.report_len, &c.rows, &c.line);
    return c;
}

static Call redact(const char *message, const char *policy) { return redact_on(WIDE, REPORT, WIDE, message, policy, 0); }

static void reported(const char *name, Call c, const char *text, const char *report, uint64_t rows) {
    check(name, is_done(&c, text, strlen(text), report, rows));
    end(&c);
}

#define LOG "MSH|^~\\&|A\rPID|1||4412\rOBX|1|NM|KCAL||4412 kcal\r"
#define LOG_POLICY "PID-3 mask\nknown-values on\n"
#define LOG_TEXT "MSH|^~\\&|A\rPID|1||****\rOBX|1|NM|KCAL||*********\r"
#define LOG_REPORT "PID[1]-3[1].1.1 mask *\nOBX[1]-5[1].1.1 mask *\n"

/* A message of one PID with n fields, each piece and a number of four digits. */
static char *fields(const char *piece, size_t n) {
    char *t = malloc(32 + n * (strlen(piece) + 5));
    if (t == NULL) abort();
    char *at = stpcpy(t, "MSH|^~\\&|A\rPID");
    for (size_t i = 0; i < n; i++) at += sprintf(at, "|%s%04zu", piece, i);
    return t;
}

static void redacts(void) {
    reported("redact: one log, whole", redact(LOG, LOG_POLICY), LOG_TEXT, LOG_REPORT, 2);
    reported("redact: the same again", redact(LOG, LOG_POLICY), LOG_TEXT, LOG_REPORT, 2);
    reported("redact: longer buffers", redact_on(65536, 50, 50000, LOG, LOG_POLICY, 1), LOG_TEXT, LOG_REPORT, 2);
    reported("redact: no policy, no report", redact_on(WIDE, 0, WIDE, LOG, NULL, 0), LOG, "", 0);
    reported("redact: a report that just fits", redact_on(WIDE, strlen(LOG_REPORT), WIDE, LOG, LOG_POLICY, 0), LOG_TEXT, LOG_REPORT, 2);
    refused("redact: report full", redact_on(WIDE, strlen(LOG_REPORT) - 1, WIDE, LOG, LOG_POLICY, 0), ER7_REPORT_TOO_LONG, 0);
    refused("redact: report full, none lent", redact_on(WIDE, 0, WIDE, LOG, LOG_POLICY, 0), ER7_REPORT_TOO_LONG, 0);
    refused("redact: short output", redact_on(WIDE - 1, REPORT, WIDE, LOG, LOG_POLICY, 0), ER7_SHORT_BUFFER, 0);
    refused("redact: short scratch", redact_on(WIDE, REPORT, WIDE - 1, LOG, LOG_POLICY, 0), ER7_SHORT_BUFFER, 0);
    refused("redact: no buffers", redact_on(0, 0, 0, LOG, LOG_POLICY, 0), ER7_SHORT_BUFFER, 0);
    reported("redact: no message", redact(NULL, LOG_POLICY), "", "", 0);
    reported("redact: no message, no policy, no report", redact_on(WIDE, 0, WIDE, NULL, NULL, 0), "", "", 0);
    refused("redact: no message, short output", redact_on(WIDE - 1, REPORT, WIDE, NULL, LOG_POLICY, 0), ER7_SHORT_BUFFER, 0);
    refused("redact: no message, the policy's line", redact(NULL, "PID-3 mask\nPID-5[1 clear\n"), ER7_BAD_PATH, 2);
    refused("redact: the policy's line, before the message", redact("x", "PID-3 mask\nPID-5[1 clear\n"), ER7_BAD_PATH, 2);
    refused("redact: a message of one CR", redact("\r", LOG_POLICY), ER7_BAD_HEADER, 0);
    reported("redact: dates", redact("MSH|^~\\&\rPID|20240228|20240230|202312311530\r", "PID shift +2\n"),
             "MSH|^~\\&\rPID|20240301||202401021530\r", "PID[1]-1[1].1.1 shift 2\nPID[1]-2[1].1.1 shift 2\nPID[1]-3[1].1.1 shift 2\n", 3);
    refused("redact: no day count", redact(LOG, "reject shift\n"), ER7_BAD_DAY_COUNT, 1);
    refused("redact: foreign byte", redact("MSH|^~\\&|A\n", LOG_POLICY), ER7_FOREIGN_BYTE, 0);
    refused("redact: bad segment", redact(LOG "pid|1\r", LOG_POLICY), ER7_BAD_SEGMENT, 0);
    char *t = repeated("MSH|^~\\&|A\r", "OBX|1\r", 256);
    refused("redact: 257 segments", redact(t, LOG_POLICY), ER7_TOO_MANY, 0);
    t[strlen(t) - 6] = 0;
    reported("redact: 256 segments", redact(t, LOG_POLICY), t, "", 0);
    free(t);
    t = fields("v", 513);
    refused("redact: learnt full", redact(t, "PID mask\n"), ER7_TOO_MUCH_LEARNT, 0);
    t[strlen(t) - 6] = 0;
    Call c = redact(t, "PID mask\n");
    check("redact: 512 learnt values", c.number == ER7_DONE && c.rows == 512 && c.text_len == strlen(t));
    end(&c);
    free(t);
    t = fields("", 1000);
    refused("redact: too long with its changes", redact(t, "PID replace 123456789 123456789 123456789 123456789 123456789 123456789\nknown-values off"),
            ER7_MESSAGE_TOO_LONG, 0);
    free(t);
}

/* ---- the stack: a call on a painted stack, and how far down it wrote */

enum { STACK = 8 << 20, PAINT = 0x5a };

static size_t stack_of(void *(*run)(void *)) {
    uint8_t *low = mmap(NULL, STACK, PROT_READ | PROT_WRITE, MAP_PRIVATE | MAP_ANONYMOUS, -1, 0);
    if (low == MAP_FAILED) abort();
    memset(low, PAINT, STACK);
    pthread_attr_t how;
    pthread_t thread;
    if (pthread_attr_init(&how) || pthread_attr_setstack(&how, low, STACK) || pthread_create(&thread, &how, run, NULL)
        || pthread_join(thread, NULL))
        abort();
    size_t i = 0;
    while (i < STACK && low[i] == PAINT) i++;
    munmap(low, STACK);
    return STACK - i;
}

/* What the largest policy and payload take; the buffers are made before. */
static char *large;
static Call at_work;

static void *run_nothing(void *x) { return x; }

static void *run_print(void *x) {
    er7_print(SLICE(large), at_work.output.bytes, WIDE, at_work.scratch.bytes, WIDE, &at_work.text_len, &at_work.line);
    return x;
}

static void *run_append(void *x) {
    er7_append(SLICE(large), NULL, 0, at_work.output.bytes, WIDE, at_work.scratch.bytes, WIDE, &at_work.text_len, &at_work.line);
    return x;
}

static void *run_builtin(void *x) {
    er7_builtin(2, at_work.output.bytes, WIDE, at_work.scratch.bytes, WIDE, &at_work.text_len, &at_work.line);
    return x;
}

static void *run_payload(void *x) {
    er7_payload(SLICE(large), SLICE(large), 0, at_work.output.bytes, WIDE, at_work.scratch.bytes, WIDE, &at_work.text_len, &at_work.line);
    return x;
}

static void *run_redact(void *x) {
    er7_redact(SLICE(LOG), SLICE("PID-3 pseudonym\nOBX-3 null\nreject mask\n"), 0, at_work.output.bytes, WIDE, at_work.report.bytes, REPORT,
               at_work.scratch.bytes, WIDE, &at_work.text_len, &at_work.report_len, &at_work.rows, &at_work.line);
    return x;
}

static void stack_below(const char *entry, void *(*run)(void *), size_t limit) {
    size_t thread = stack_of(run_nothing);
    size_t all = stack_of(run);
    char name[80];
    snprintf(name, sizeof name, "stack of %s: about %zu bytes", entry, all - thread);
    check(name, all - thread < limit);
}

static void stacks(void) {
    large = repeated("unrecognised pseudonym\n", "PID[2]-3[1].4.1 replace 123456789\n", 128);
    at_work = ready(WIDE, REPORT, WIDE);
    stack_below("er7_print", run_print, ER7_STACK);
    stack_below("er7_append", run_append, ER7_STACK);
    stack_below("er7_builtin", run_builtin, ER7_STACK);
    stack_below("er7_payload", run_payload, ER7_STACK);
    stack_below("er7_redact", run_redact, ER7_REDACT_STACK);
    end(&at_work);
    free(large);
}

int main(void) {
    prints();
    appends();
    builtins();
    payloads();
    redacts();
    stacks();
    printf("%d failed\n", failures);
    return failures > 0;
}
