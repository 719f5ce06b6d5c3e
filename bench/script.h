/* Scripts of calls, a call a line, in the format of play. */
#ifndef SCRIPT_H
#define SCRIPT_H

#include "plain.h"

#include <stdio.h>

/* The kinds of lines: the calls, the lines that look, a line that is none of them, and a line with nothing on it. */
enum line_kind {
    BEGIN_LINE,
    WRITE_LINE,
    READ_LINE,
    COMMIT_LINE,
    GIVE_UP_LINE,
    POST_LINE,
    ORDER_LINE,
    CLOSE_LINE,
    OPEN_LINE,
    TABLE_LINE,
    LOG_LINE,
    SAVE_LINE,
    UNKNOWN_LINE,
    EMPTY_LINE
};

/* No line is longer. */
enum { LINE_BYTES = 255 };

/* A line: its kind, its handle and cell (0 where it has none), its value, and the name of a file. */
struct line {
    enum line_kind kind;
    uint32_t handle;
    uint32_t cell;
    uint8_t value[LINE_BYTES / 2];
    size_t value_length;
    char name[LINE_BYTES + 1];
};

/* The books and all that a machine is lent. */
struct machine {
    struct books books;
    struct lent lent;
    uint8_t table[TABLE_BYTES];
    uint8_t drafts[DRAFTS_BYTES];
    uint8_t log[LOG_BYTES];
    uint16_t order[PLACES];
};

/* What a call gives back: its number, a handle or a count, and what a read shows. */
struct answer {
    enum number number;
    uint32_t answer;
    const uint8_t *shown;
};

extern const char *const line_names[UNKNOWN_LINE];

/* Takes the next line of a file; false at its end. */
bool next_line(FILE *file, struct line *line);

/* Is it a call of the machine? */
bool is_call(const struct line *line);

/* A machine as it is opened. */
void set_up(struct machine *machine);

/* Makes the call of a line on books, with what the machine is lent. */
struct answer make_call(struct books *books, const struct lent *lent, struct line *line);

#endif
