/*
 * Calls on lent memory, compared with what they must do.
 *
 * Every lent buffer stands right against a page that nobody may touch, at its end or at its front by turns. Inputs lie
 * in pages that can only be read. Outputs, single numbers included, are filled with fresh bytes before each call and
 * compared byte by byte after it.
 *
 * A call is tried like this, with the lent outputs in got[] and copies of the same bytes in want[]:
 *
 *     begin("count");
 *     const uint8_t *block = lend("block", bytes, len);
 *     void *got = take("count", sizeof(uint64_t));
 *     finish(edges_count(block, len, got), plain_count(bytes, len, want(0)));
 */
#ifndef LEND_H
#define LEND_H

#include <stdbool.h>
#include <stddef.h>
#include <stdint.h>

/* The longest buffer that can be lent. */
enum { LENT_MOST = (1 << 16) - 64 };

/* Maps the pages, and says so if a call touches what wasn't lent to it. */
void lend_start(void);

/* A new call of the library's function with this name. */
void begin(const char *name);

/* A number handed to it by value, for the report. */
void tell(const char *what, uint64_t value);

/* Lends an input. Of length 0 it is a null pointer now and then. */
const void *lend(const char *what, const void *bytes, size_t len);

/* Lends an output. */
void *take(const char *what, size_t len);

/* The bytes of output i as they were lent, for plain C to write its answer to. */
void *want(int i);

/* Compares the two answers, whole result words too, and every lent byte. After ten differences it ends the program. */
void finish(uint32_t got, uint32_t must);

/* A difference that isn't one of a single call. */
void differs(const char *text);

/* Ends a section with a line on its calls. */
void end_section(const char *title);

/* Says whether calls of this name have had each of these answers, 0 for accepted; else that is a difference. */
void must_have_seen(const char *name, const uint8_t *answers, int n);

/* Prints the last line; the program's exit status. */
int end_tests(void);

#endif
