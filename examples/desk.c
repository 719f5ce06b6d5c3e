/* The duty desk's program: holds an order to a saved day.
 *
 *   desk DAY BEGIN [NUMBER ..]
 *
 * DAY is a file that `save` of play writes: 256 bytes of the opening table, then the log. BEGIN is the begin record of a transaction, and the
 * numbers are the begin records of a proposed order. Prints `accepted` (exit status 0) or `refused` and the checker's number (exit status 1).
 * Exit status 2 means that nothing was checked: a wrong call, or a file that cannot be read. */
#include "nogturshan.h"

#include <errno.h>
#include <inttypes.h>
#include <stdbool.h>
#include <stdio.h>
#include <stdlib.h>
#include <string.h>

enum {
    CANNOT_CHECK = 2,
    /* one byte more than any log has, so that a longer one is seen to be badly laid out */
    DAY_ROOM = NOGTURSHAN_TABLE_BYTES + NOGTURSHAN_LOG_BYTES + 1,
    /* no order has more than 32 numbers; a list with more is refused, whatever they are */
    LIST_ROOM = 33
};

/* A number in decimal, at most `most`. */
static bool read_number(const char *word, uint32_t most, uint32_t *number)
{
    if (word[0] == '\0' || word[strspn(word, "0123456789")] != '\0')
        return false;
    errno = 0;
    uintmax_t value = strtoumax(word, NULL, 10);
    if (errno != 0 || value > most)
        return false;
    *number = (uint32_t)value;
    return true;
}

/* The numbers as little-endian pairs of bytes: at most LIST_ROOM of them, but every word is looked at. */
static bool read_list(int count, char **words, uint8_t *list, size_t *length)
{
    *length = 0;
    for (int i = 0; i < count; i++) {
        uint32_t number;
        if (!read_number(words[i], UINT16_MAX, &number))
            return false;
        if (*length < 2 * LIST_ROOM) {
            list[(*length)++] = (uint8_t)(number & 0xff);
            list[(*length)++] = (uint8_t)(number >> 8);
        }
    }
    return true;
}

/* The bytes of a file, as far as there is room for them. */
static bool read_day(const char *name, uint8_t *day, size_t room, size_t *length)
{
    FILE *file = fopen(name, "rb");
    if (file == NULL)
        return false;
    *length = fread(day, 1, room, file);
    bool is_read = ferror(file) == 0;
    return fclose(file) == 0 && is_read;
}

int main(int argc, char **argv)
{
    static uint8_t day[DAY_ROOM];
    uint8_t list[2 * LIST_ROOM];
    size_t day_length, list_length;
    uint32_t begin;

    if (argc < 3 || !read_number(argv[2], UINT32_MAX, &begin) || !read_list(argc - 3, argv + 3, list, &list_length)) {
        fprintf(stderr, "usage: desk DAY BEGIN [NUMBER ..]\n");
        return CANNOT_CHECK;
    }
    if (!read_day(argv[1], day, sizeof day, &day_length)) {
        perror(argv[1]);
        return CANNOT_CHECK;
    }

    size_t opening_length = day_length < NOGTURSHAN_TABLE_BYTES ? day_length : NOGTURSHAN_TABLE_BYTES;
    uint8_t number = nogturshan_check(day, opening_length, day + opening_length, day_length - opening_length, begin, list, list_length);
    if (number == NOGTURSHAN_ACCEPTED) {
        printf("accepted\n");
        return EXIT_SUCCESS;
    }
    printf("refused %d\n", number);
    return EXIT_FAILURE;
}
