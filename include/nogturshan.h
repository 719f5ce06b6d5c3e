/* The order checker of Nogturshan, for programs in C.
 *
 * Link with target/staticlib/libchecker.a, which `tools/build.sh checker` writes, for x86-64 Linux.
 * The checker is proved: for every input it ends and answers the number that the rules give ("Order checker" in document 01). */
#ifndef NOGTURSHAN_H
#define NOGTURSHAN_H

#include <stddef.h>
#include <stdint.h>

#ifdef __cplusplus
extern "C" {
#endif

/* What nogturshan_check answers. */
#define NOGTURSHAN_ACCEPTED 0  /* the list is accepted */
#define NOGTURSHAN_LENT     1  /* the opening table has not 256 bytes, or the list's bytes are odd */
#define NOGTURSHAN_BAD_LOG  10 /* the log is badly laid out; a log of any wrong length is */
#define NOGTURSHAN_UNKNOWN  11 /* the named record is no begin or post of the log */
#define NOGTURSHAN_NO_ORDER 12 /* the list is not accepted */

/* Lengths, in bytes. */
#define NOGTURSHAN_TABLE_BYTES 256 /* an opening table: 32 cells of 8 bytes */
#define NOGTURSHAN_LOG_BYTES 64016 /* the longest log: 4,000 records and the trailer, of 16 bytes each */

/* Holds a list of begin records to a day log.
 *
 * opening  the table at the opening or at the last close
 * log      the log: its records and the trailer
 * begin    the begin record of the transaction whose order is asked for, counted from 1
 * list     the proposed order: begin records as numbers of 16 bits, each as two bytes, the lower first
 *
 * Every length is in bytes and may be anything. No pointer may be null, even where its length is 0, and each points to as many readable
 * bytes as its length says, which nobody writes during the call. Nothing is written, kept or allocated: any number of threads may call at
 * once. The call needs less than 5 KB of stack. */
uint8_t nogturshan_check(const uint8_t *opening, size_t opening_length, const uint8_t *log, size_t log_length, uint32_t begin,
                         const uint8_t *list, size_t list_length);

#ifdef __cplusplus
}
#endif

#endif
