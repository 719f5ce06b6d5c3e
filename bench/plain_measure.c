/* Measure over the plain machine: the same arguments, the same scripts and the same line as measure. */
#include "script.h"

#include <errno.h>
#include <inttypes.h>
#include <stdlib.h>
#include <string.h>

/* What the rounds come to: the sum of the numbers given back, the last answer, and the records of the last books. */
struct told {
    uint64_t sum;
    uint32_t answer;
    uint16_t records;
};

/* Makes the call so many times, each time from the same books. */
static struct told repeat(struct machine *machine, struct line *line, uint64_t rounds)
{
    struct told told = {0, 0, machine->books.records};
    while (rounds-- > 0) {
        struct books books = machine->books;
        struct answer answer = make_call(&books, &machine->lent, line);
        told = (struct told){told.sum + answer.number, answer.answer, books.records};
    }
    return told;
}

/* Tests the books so many times, each time with another turn of a place. */
static struct told weigh(struct books *books, uint64_t rounds)
{
    struct told told = {0, 0, books->records};
    for (; rounds > 0; rounds--) {
        books->places[0].turn = (uint16_t)rounds;
        told.sum += plain_is_sound(books);
    }
    return told;
}

/* A number of 32 bits in decimal. */
static bool read_rounds(const char *word, uint64_t *rounds)
{
    if (word[0] == '\0' || word[strspn(word, "0123456789")] != '\0')
        return false;
    errno = 0;
    *rounds = strtoumax(word, NULL, 10);
    return errno == 0 && *rounds <= UINT32_MAX;
}

/* Makes the calls of the script, all but the last, which is left in `last`; false if a line is none of the calls, or no line is. */
static bool play(struct machine *machine, struct line *last)
{
    struct line line;
    bool is_any = false;
    while (next_line(stdin, &line)) {
        if (line.kind == UNKNOWN_LINE)
            return false;
        if (!is_call(&line))
            continue;
        if (is_any)
            make_call(&machine->books, &machine->lent, last);
        *last = line;
        is_any = true;
    }
    return is_any;
}

int main(int argc, char **argv)
{
    static struct machine machine;
    struct line last;
    uint64_t rounds;
    bool is_right = argc == 3 && (strcmp(argv[1], "call") == 0 || strcmp(argv[1], "sound") == 0) && read_rounds(argv[2], &rounds);
    set_up(&machine);
    if (!is_right || !play(&machine, &last)) {
        puts("?");
        return 0;
    }
    memset(machine.order, 0, sizeof machine.order);
    struct told told = strcmp(argv[1], "call") == 0 ? repeat(&machine, &last, rounds) : weigh(&machine.books, rounds);
    printf("%" PRIu64 " %" PRIu32 " %" PRIu16 "\n", told.sum, told.answer, told.records);
    return 0;
}
