/* Scripts of calls: lines, words, numbers and values as the readings of document 01 in docs/DECISIONS.md have them. */
#include "script.h"

#include <string.h>

enum { MOST_WORDS = 4 };

const char *const line_names[UNKNOWN_LINE] = {"begin", "write", "read", "commit", "giveup", "post",
                                              "order", "close", "open", "table", "log", "save"};

/* What stands behind the name of each: h a handle, c a cell, v a value, n a file's name. */
static const char *const line_words[UNKNOWN_LINE] = {"", "hcv", "hc", "h", "h", "cv", "h", "", "", "", "", "n"};

struct word {
    const char *at;
    size_t length;
};

static bool is_blank(char c)
{
    return c == ' ' || c == '\t' || c == '\r';
}

/* The words of a line, one more than any call has at most. */
static unsigned words_of(const char *text, size_t length, struct word *words)
{
    unsigned count = 0;
    size_t at = 0;
    while (count <= MOST_WORDS) {
        while (at < length && is_blank(text[at]))
            at++;
        if (at == length)
            break;
        words[count].at = text + at;
        while (at < length && !is_blank(text[at]))
            at++;
        words[count].length = (size_t)(text + at - words[count].at);
        count++;
    }
    return count;
}

/* A number in decimal, of 32 bits. */
static bool read_number(struct word word, uint32_t *number)
{
    uint64_t value = 0;
    for (size_t i = 0; i < word.length; i++) {
        if (word.at[i] < '0' || word.at[i] > '9')
            return false;
        value = 10 * value + (uint64_t)(word.at[i] - '0');
        if (value > UINT32_MAX)
            return false;
    }
    *number = (uint32_t)value;
    return true;
}

static int hex_digit(char c)
{
    if (c >= '0' && c <= '9')
        return c - '0';
    if (c >= 'a' && c <= 'f')
        return c - 'a' + 10;
    if (c >= 'A' && c <= 'F')
        return c - 'A' + 10;
    return -1;
}

/* A value: an even number of hexadecimal digits. */
static bool read_value(struct word word, struct line *line)
{
    if (word.length % 2 != 0)
        return false;
    for (size_t i = 0; i < word.length; i += 2) {
        int high = hex_digit(word.at[i]), low = hex_digit(word.at[i + 1]);
        if (high < 0 || low < 0)
            return false;
        line->value[i / 2] = (uint8_t)(16 * high + low);
    }
    line->value_length = word.length / 2;
    return true;
}

/* One word behind a call's name. */
static bool read_word(char what, struct word word, struct line *line)
{
    switch (what) {
    case 'h':
        return read_number(word, &line->handle);
    case 'c':
        return read_number(word, &line->cell);
    case 'v':
        return read_value(word, line);
    default:
        /* a name with a zero byte is the empty name, which no file has */
        if (memchr(word.at, 0, word.length) == NULL)
            memcpy(line->name, word.at, word.length);
        return true;
    }
}

/* What a line says, its comment left out. */
static void parse(const char *text, size_t length, struct line *line)
{
    struct word words[MOST_WORDS + 1];
    const char *comment = memchr(text, '#', length);
    if (comment != NULL)
        length = (size_t)(comment - text);
    memset(line, 0, sizeof *line);
    unsigned count = words_of(text, length, words);
    if (count == 0) {
        line->kind = EMPTY_LINE;
        return;
    }
    unsigned kind = 0;
    while (kind < UNKNOWN_LINE && !(strlen(line_names[kind]) == words[0].length && memcmp(line_names[kind], words[0].at, words[0].length) == 0))
        kind++;
    line->kind = kind;
    if (kind == UNKNOWN_LINE)
        return;
    bool is_right = count == 1 + strlen(line_words[kind]);
    for (unsigned i = 1; is_right && i < count; i++)
        is_right = read_word(line_words[kind][i - 1], words[i], line);
    if (!is_right)
        line->kind = UNKNOWN_LINE;
}

bool next_line(FILE *file, struct line *line)
{
    char text[LINE_BYTES];
    size_t length = 0;
    int c = getc(file);
    if (c == EOF)
        return false;
    while (c != EOF && c != '\n') {
        if (length < LINE_BYTES)
            text[length] = (char)c;
        length++;
        c = getc(file);
    }
    if (length <= LINE_BYTES)
        parse(text, length, line);
    else
        line->kind = UNKNOWN_LINE;
    return true;
}

bool is_call(const struct line *line)
{
    return line->kind < TABLE_LINE;
}

void set_up(struct machine *machine)
{
    memset(machine, 0, sizeof *machine);
    plain_open(&machine->books);
    machine->lent.table = (struct bytes){machine->table, TABLE_BYTES};
    machine->lent.drafts = (struct bytes){machine->drafts, DRAFTS_BYTES};
    machine->lent.log = (struct bytes){machine->log, LOG_BYTES};
    machine->lent.order = machine->order;
    machine->lent.order_length = PLACES;
}

struct answer make_call(struct books *books, const struct lent *lent, struct line *line)
{
    struct answer answer = {GRANTED, 0, NULL};
    struct bytes value = {line->value, line->value_length};
    switch (line->kind) {
    case BEGIN_LINE:
        answer.number = plain_begin(books, lent, &answer.answer);
        break;
    case WRITE_LINE:
        answer.number = plain_write(books, lent, line->handle, line->cell, value);
        break;
    case READ_LINE:
        answer.number = plain_read(books, lent, line->handle, line->cell, &answer.shown);
        break;
    case COMMIT_LINE:
        answer.number = plain_commit(books, lent, line->handle);
        break;
    case GIVE_UP_LINE:
        answer.number = plain_give_up(books, lent, line->handle);
        break;
    case POST_LINE:
        answer.number = plain_post(books, lent, line->cell, value, &answer.answer);
        break;
    case ORDER_LINE:
        answer.number = plain_order(books, lent, line->handle, &answer.answer);
        break;
    case CLOSE_LINE:
        answer.number = plain_close(books, lent);
        break;
    default:
        plain_open(books);
        break;
    }
    return answer;
}
