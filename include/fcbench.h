/* fcbench as a library, for tests of concurrent objects.
 *
 * Link libfcbench.a or libfcbench.so. The answers of fcbench_check, fcbench_refute and fcbench_verify
 * are proved. fcbench_find and fcbench_judge, at the end, are not proved.
 *
 * The proved functions start no thread, take no lock, do not wait, read no file and print nothing.
 * They free what they take by malloc before they return, and keep no state: several threads may call
 * them at once.
 *
 * A text is a pointer and a length. It need not end in a zero byte. docs/formats.md says what
 * the texts mean.
 *
 * The caller must ensure the following; nothing checks it:
 *   - each pointer points to that many bytes, and no thread writes them during the call. NULL with the
 *     length 0 is a text, or a buffer, of no bytes;
 *   - `out` and `needed` overlap nothing else that is passed, and no other code reads or writes them
 *     during the call;
 *   - `needed` is not NULL;
 *   - malloc, realloc and free are of one allocator, which aligns a block to each power of two up to
 *     16 that divides its size;
 *   - no call is made from a signal handler, or in the forked child of a process with threads.
 *
 * Each function returns an exit status of the program's command, below, and writes the command's
 * lines into `out`: at most `capacity` bytes, without a zero byte after them. `*needed` is the number
 * of bytes of all lines. If it is more than `capacity`, the lines are cut: call again with a buffer of
 * that size. The status is right either way, so pass NULL and 0 if you do not need the lines.
 */
#ifndef FCBENCH_H
#define FCBENCH_H

#include <stddef.h>
#include <stdint.h>

#ifdef __cplusplus
extern "C" {
#endif

/* The history is linearizable. This is proved for the functions in Rattle, if the caller keeps the
 * rules above. That this header matches those functions is trusted. fcbench_refute never returns it. */
#define FCBENCH_YES 0u
/* fcbench_refute, fcbench_verify: the history is not linearizable, which is proved too.
 * fcbench_check: the certificates are refused. */
#define FCBENCH_NO 1u
/* A text is malformed. The line says where. With fcbench_verify the text is the history. */
#define FCBENCH_MALFORMED 2u
/* Undecided. The lines say why: for example an object stays open, the evidence is malformed, or
 * `out of memory`. If an allocation fails, a proved function returns this, or an answer that holds all
 * the same. */
#define FCBENCH_UNDECIDED 3u
/* fcbench_judge, fcbench_find: fcbench_verify gave a status and lines that are of no answer, so the library
 * is not as it was built, or another function has its name. There are no lines. */
#define FCBENCH_BROKEN 70u

/* The program's default: 1,000,000 steps. For fcbench_judge: 1,000,000, or 100 for each operation of the
 * object, whichever is more. */
#define FCBENCH_STEPS UINT32_MAX

/* ---- proved ---- */

/* Checks a history against certificates, one order of operations for each object. */
uint32_t fcbench_check(const uint8_t *history, size_t history_length,
                       const uint8_t *certificates, size_t certificates_length,
                       uint8_t *out, size_t capacity, size_t *needed);

/* Checks reasons why the history is not linearizable. `steps` is the limit of a search if its reason
 * names none. */
uint32_t fcbench_refute(const uint8_t *history, size_t history_length,
                        const uint8_t *reasons, size_t reasons_length, uint32_t steps,
                        uint8_t *out, size_t capacity, size_t *needed);

/* Checks evidence from any source, which may be any bytes: orders, reasons and searches for the objects
 * of the history. Judges the history by what they show. `steps` is the limit of a search if the evidence
 * names none. */
uint32_t fcbench_verify(const uint8_t *history, size_t history_length,
                        const uint8_t *evidence, size_t evidence_length, uint32_t steps,
                        uint8_t *out, size_t capacity, size_t *needed);

/* ---- not proved: they call the functions above, which check what they find ----
 *
 * A yes or a no is that of the proved functions. The lines of fcbench_find are not proved. These start no
 * thread, read no file and print nothing. They keep a few words of state of their own, and may be called
 * from several threads at once. If an allocation fails, they end the process. */

/* Finds evidence, has it checked by fcbench_verify, and returns that answer, if its lines, as far as the
 * buffer has them, fit its status. The last search takes at
 * most `steps` steps for each object. Earlier searches have limits of their own, and run even with 0. */
uint32_t fcbench_judge(const uint8_t *history, size_t history_length, uint32_t steps,
                       uint8_t *out, size_t capacity, size_t *needed);

/* Finds evidence for fcbench_verify, and writes it: a line for each object. FCBENCH_YES: each line is an
 * order, and the proved fcbench_check accepted them. FCBENCH_MALFORMED: the history is malformed.
 * FCBENCH_UNDECIDED: some line is a reason or a search, the finder failed, which leaves no lines, or
 * fcbench_check did not accept the orders, for example because an allocation failed. It never returns
 * FCBENCH_NO. */
uint32_t fcbench_find(const uint8_t *history, size_t history_length,
                      uint8_t *out, size_t capacity, size_t *needed);

#ifdef __cplusplus
}
#endif
#endif
