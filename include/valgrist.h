/* Valgrist: the mark of one register of a history file, as a number.
 *
 * Link target/staticlib/libhost.a (made by `tools/prove host`). The function is proved to give the code that is
 * defined for any bytes, register and question; it keeps no state, allocates nothing, keeps its arrays on the stack,
 * and may be called from several threads at once. */
#ifndef VALGRIST_H
#define VALGRIST_H

#include <stddef.h>
#include <stdint.h>

#ifdef __cplusplus
extern "C" {
#endif

/* The questions. */
enum valgrist_question {
    VALGRIST_ZONES = 1, /* is there a valid 1-atomic order? by zones */
    VALGRIST_LBT = 2,   /* is there a valid 2-atomic order? by LBT, with 524,800 trials, enough for every register */
    VALGRIST_FZF = 3    /* is there a valid 2-atomic order? by FZF */
};

/* The codes. 6 (shared stamp) is no longer given, by any call, and its number is not used again: stamps may be equal.
 * 10 (short list) and 11 (spent) never come from this call; 13, 14 and 15 are the order check's, and 18 (header fault)
 * and 19 (unreadable cell) those of logs with named columns, which have no entry for C. */
enum valgrist_code {
    VALGRIST_FRESH = 0,            /* fresh: some order of the register's rows is valid and k-atomic */
    VALGRIST_RAGGED = 1,           /* ragged: a table's length is no multiple of 5; a file gives whole rows or 16 */
    VALGRIST_OVERFULL = 2,         /* overfull: the file has a 1,025th record */
    VALGRIST_NO_SUCH_QUESTION = 3, /* no such question: it is not 1, 2 or 3 */
    VALGRIST_BAD_KIND = 4,         /* bad kind: a row is no write, no read and no opening; a file gives 17 */
    VALGRIST_BAD_SPAN = 5,         /* bad span: a start above its finish, or a finish over 2^62 - 1 (an opening with
                                      another stamp than 0 too; a file has none) */
    VALGRIST_TWIN_WRITE = 7,       /* twin write: a value was written by an earlier row; an opening is counted as a write */
    VALGRIST_ORPHAN_READ = 8,      /* orphan read: no row writes the value that was read */
    VALGRIST_EARLY_READ = 9,       /* early read: the read precedes the write of its value */
    VALGRIST_STALE = 12,           /* stale: no order of the register's rows is valid and k-atomic */
    VALGRIST_CUT_RECORD = 16,      /* cut record: the file ends inside a record */
    VALGRIST_STRANGE_RECORD = 17,  /* strange record: a length that is neither 34 nor 18, or a kind that does not go
                                      with it: 34 with 1 (write) and 2 (read), 18 with 3 (opening) */
    VALGRIST_SECOND_OPENING = 20   /* second opening: an earlier row of the register is an opening too */
};

/* The bytes of stack that a call takes at the most: measured on 1,024 rows by tools/stack, and not proved. */
enum { VALGRIST_STACK = 262144 };

/* The code of the file's refusal (2, 16, 17), else the mark of the register by the question. `bytes` points to
 * `length` bytes that can be read; for an empty file any pointer that is not null. */
uint64_t valgrist_mark(const uint8_t *bytes, size_t length, uint64_t register_number, uint64_t question);

#ifdef __cplusplus
}
#endif

#endif
