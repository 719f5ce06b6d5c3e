/* Document 01 in plain C: the calls of the machine, and the checker. Nothing is proved of it; the proved machine is measured against it. */
#ifndef PLAIN_H
#define PLAIN_H

#include <stdbool.h>
#include <stddef.h>
#include <stdint.h>

enum {
    PLACES = 32,
    CELLS = 32,
    VALUE_BYTES = 8,
    RECORD_BYTES = 16,
    MOST_RECORDS = 4000,
    HANDLES = 2097152,
    TABLE_BYTES = CELLS * VALUE_BYTES,
    DRAFTS_BYTES = PLACES * CELLS * VALUE_BYTES,
    LOG_BYTES = (MOST_RECORDS + 1) * RECORD_BYTES
};

/* Numbers given back. */
enum number {
    GRANTED,
    LENT,
    UNSOUND,
    STALE,
    ENDED,
    NO_CELL,
    FULL,
    LOG_FULL,
    BUSY,
    CONFLICT,
    BAD_LOG,
    UNKNOWN,
    NO_ORDER
};

/* The status of a place. */
enum status { FREE, LIVE, COMMITTED };

/* The books of a place; record numbers are from 1, and 0 is none. */
struct place {
    uint16_t turn;
    uint8_t status;
    uint16_t begin;
    uint16_t commit;
    bool written[CELLS];
    uint16_t first[CELLS];
    uint16_t last[CELLS];
};

struct books {
    uint16_t records;
    struct place places[PLACES];
};

/* Bytes that a call is lent, to read or to write. */
struct bytes {
    uint8_t *at;
    size_t length;
};

/* All that calls are lent; a call looks only at what it needs. */
struct lent {
    struct bytes table;
    struct bytes drafts;
    struct bytes log;
    uint16_t *order;
    size_t order_length;
};

bool plain_is_sound(const struct books *books);
void plain_open(struct books *books);
enum number plain_begin(struct books *books, const struct lent *lent, uint32_t *handle);
enum number plain_write(struct books *books, const struct lent *lent, uint32_t handle, uint32_t cell, struct bytes value);
enum number plain_read(struct books *books, const struct lent *lent, uint32_t handle, uint32_t cell, const uint8_t **shown);
enum number plain_commit(struct books *books, const struct lent *lent, uint32_t handle);
enum number plain_give_up(struct books *books, const struct lent *lent, uint32_t handle);
enum number plain_post(struct books *books, const struct lent *lent, uint32_t cell, struct bytes value, uint32_t *handle);
enum number plain_order(const struct books *books, const struct lent *lent, uint32_t handle, uint32_t *count);
enum number plain_close(struct books *books, const struct lent *lent);

/* The trailer of a log of so many records, into 16 bytes. */
void plain_trailer(const uint8_t *log, unsigned records, uint8_t *trailer);

/* The order checker, with the signature of nogturshan_check. */
uint8_t plain_check(const uint8_t *opening, size_t opening_length, const uint8_t *log, size_t log_length, uint32_t begin,
                    const uint8_t *list, size_t list_length);

#endif
