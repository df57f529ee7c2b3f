/*
 * er7_redact.h - the five entries of the redactor of HL7 v2 messages (ER7 text), for C.
 *
 * Link with libgateway.a (`bash harness/archive.sh` writes it to target/staticlib/; x86-64 Linux).
 *
 * What is lent. Every byte slice is a pointer and a length. NULL with length 0 is an empty slice. A slice that is read (message,
 * policy, first, second, payload) may overlap another that is read. What is written (output, report, scratch and the numbers behind
 * uint64_t *) must overlap nothing else that the call is handed. What a written buffer holds before the call doesn't matter. The
 * numbers' pointers must not be NULL. Nothing is kept after the call returns.
 *
 * What is handed back. The result is a number of enum er7_number, 0 for success, and every number and every byte of every lent
 * buffer is set:
 *   on success  output holds the text in its first *text_len bytes, report its rows in the first *report_len bytes, and zeros behind
 *               them; the scratch is zeroed whole; *line is 0
 *   on refusal  output, report and scratch are zeroed whole; *text_len, *report_len and *rows are 0; *line is the policy's line,
 *               from 1, for the policy's numbers 6 to 9 and 15, else 0
 * No text ends in a NUL of its own; an output that the text fills has no zero behind it.
 *
 * Limits. Output and scratch have at least ER7_BUFFER_MIN bytes each; more is fine. The report may have any length, 0 included.
 * A message, payload or policy has at most ER7_INPUT_MAX bytes, which are 0x09, 0x20 to 0x7E, and: CR in a message; LF, or CR directly
 * before LF, in a policy; CR and LF in a payload.
 *
 * Order. A call that could be refused for several reasons gets the first of: 1; the built-in's number; each policy whole (2, 3, then
 * its lines downward); the merged rule count; the payload (2, 3, 13) or the message (2, 3, 4, then its segments in order); 10 and 11 as
 * they arise; 12.
 *
 * Threads. There is no global state, no heap and no input or output: any number of calls may run at once, each on buffers of its own.
 *
 * Stack. A call takes less than ER7_STACK bytes of stack, and er7_redact less than ER7_REDACT_STACK.
 *
 * What is handed back, the limits and the order are proved of the code, as are that a call ends and that it touches nothing but what it
 * was lent; the contracts stand in crates/gateway/src/lib.rt. The compiler's back end is not proved, and the stack is measured
 * (harness/gateway.sh).
 */
#ifndef ER7_REDACT_H
#define ER7_REDACT_H

#include <stddef.h>
#include <stdint.h>

#ifdef __cplusplus
extern "C" {
#endif

#define ER7_BUFFER_MIN 49152 /* the least length of output and of scratch */
#define ER7_INPUT_MAX 32768  /* the greatest length of a message, a payload or a policy */

#define ER7_STACK 131072        /* bytes of stack that suffice for er7_print, er7_append, er7_builtin and er7_payload */
#define ER7_REDACT_STACK 1048576 /* bytes of stack that suffice for er7_redact */

/* What a call returns. */
enum er7_number {
    ER7_DONE = 0,              /* success */
    ER7_SHORT_BUFFER = 1,      /* output or scratch below ER7_BUFFER_MIN bytes */
    ER7_TOO_LONG = 2,          /* message, payload or policy above ER7_INPUT_MAX bytes */
    ER7_FOREIGN_BYTE = 3,      /* a byte that may not stand there */
    ER7_BAD_HEADER = 4,        /* the message has bytes and does not open with MSH and five delimiters */
    ER7_BAD_SEGMENT = 5,       /* empty, wrongly named, or a second MSH, any FHS, BHS */
    ER7_TOO_MANY = 6,          /* over 256 segments, 4,096 leaves, 128 rules; line over 255 bytes, word over 64, rest over 80 */
    ER7_BAD_ACTION = 7,        /* missing or unreadable, in a rule or directive */
    ER7_BAD_PATH = 8,          /* unreadable */
    ER7_BAD_DIRECTIVE = 9,     /* wrong argument or none, or the first word is * */
    ER7_TOO_MUCH_LEARNT = 10,  /* known-values on, and a 513th value or over 16,384 bytes of them */
    ER7_MESSAGE_TOO_LONG = 11, /* a change leaves the message over ER7_BUFFER_MIN bytes */
    ER7_REPORT_TOO_LONG = 12,  /* the report is longer than its buffer */
    ER7_WITHHELD = 13,         /* a payload under `unrecognised refuse` */
    ER7_NO_SUCH_BUILTIN = 14,  /* number above 3 */
    ER7_BAD_DAY_COUNT = 15     /* `shift` without a day count, or with one that is unreadable or not from -3650 to 3650 */
};

/*
 * Redacts a message. Output gets its text; report gets a row for each change: the full path, a blank, the action, LF; *rows is their
 * number. The key makes pseudonyms: the same value under the same key gets the same one. A message of no bytes, which may be NULL, is
 * legal with any policy that reads: no text, no report, no rows.
 * Refusals: 1 to 12, 15.
 */
uint32_t er7_redact(const uint8_t *message, size_t message_size,
                    const uint8_t *policy, size_t policy_size,
                    uint64_t key,
                    uint8_t *output, size_t output_size,
                    uint8_t *report, size_t report_size,
                    uint8_t *scratch, size_t scratch_size,
                    uint64_t *text_len, uint64_t *report_len, uint64_t *rows, uint64_t *line);

/*
 * Reads a policy and prints it to output, in the form that reads as the same policy. An empty policy is legal.
 * Refusals: 1, 2, 3, 6 to 9, 15.
 */
uint32_t er7_print(const uint8_t *policy, size_t policy_size,
                   uint8_t *output, size_t output_size,
                   uint8_t *scratch, size_t scratch_size,
                   uint64_t *text_len, uint64_t *line);

/*
 * Reads two policies and prints them merged: the first's rules before the second's, the second's posture if it is at least as strict,
 * the second's unrecognised, known-values on if either has it. The line of a refusal is in the first policy if that is refused by
 * itself, else in the second; where both read and have over 128 rules together it is 0.
 * Refusals: 1, 2, 3, 6 to 9, 15.
 */
uint32_t er7_append(const uint8_t *first, size_t first_size,
                    const uint8_t *second, size_t second_size,
                    uint8_t *output, size_t output_size,
                    uint8_t *scratch, size_t scratch_size,
                    uint64_t *text_len, uint64_t *line);

/*
 * Prints a built-in policy: 0 accepts all, 1 rejects all, 2 has 40 rules for what identifies a patient, 3 rejects all but the header.
 * Refusals: 1, 14; *line is always 0.
 */
uint32_t er7_builtin(uint64_t number,
                     uint8_t *output, size_t output_size,
                     uint8_t *scratch, size_t scratch_size,
                     uint64_t *text_len, uint64_t *line);

/*
 * What a policy's `unrecognised` line makes of a payload that is no message: `pass` writes it to output as it is, `refuse` (also where
 * there is no such line) gets 13, an action is applied to the payload as one text. An empty payload is legal.
 * Refusals: 1, 2, 3, 6 to 9, 13, 15.
 */
uint32_t er7_payload(const uint8_t *payload, size_t payload_size,
                     const uint8_t *policy, size_t policy_size,
                     uint64_t key,
                     uint8_t *output, size_t output_size,
                     uint8_t *scratch, size_t scratch_size,
                     uint64_t *text_len, uint64_t *line);

#ifdef __cplusplus
}
#endif

#endif
