/* Repeats the order checker on a saved day, so that it can be measured.
 *
 *   checker DAY BEGIN [NUMBER ..] ROUNDS
 *
 * DAY is a file that `save` of play writes, BEGIN a begin record, and the numbers are a list of begin records. Prints the sum of the numbers
 * that the checker gave back, and the last one. CHECK is the checker that is repeated, nogturshan_check or plain_check. */
#include "nogturshan.h"
#include "plain.h"

#include <inttypes.h>
#include <stdio.h>
#include <stdlib.h>

enum { DAY_ROOM = NOGTURSHAN_TABLE_BYTES + NOGTURSHAN_LOG_BYTES + 1, LIST_ROOM = 64 };

int main(int argc, char **argv)
{
    static uint8_t day[DAY_ROOM];
    uint8_t list[2 * LIST_ROOM], number = 0;
    size_t count = argc < 4 ? 0 : (size_t)argc - 4;
    if (argc < 4 || count > LIST_ROOM) {
        fprintf(stderr, "usage: checker DAY BEGIN [NUMBER ..] ROUNDS\n");
        return 2;
    }
    FILE *file = fopen(argv[1], "rb");
    if (file == NULL) {
        perror(argv[1]);
        return 2;
    }
    size_t length = fread(day, 1, sizeof day, file);
    fclose(file);
    size_t opening = length < NOGTURSHAN_TABLE_BYTES ? length : NOGTURSHAN_TABLE_BYTES;
    uint32_t begin = (uint32_t)strtoul(argv[2], NULL, 10);
    for (size_t i = 0; i < count; i++) {
        unsigned long listed = strtoul(argv[3 + i], NULL, 10);
        list[2 * i] = (uint8_t)(listed & 0xff);
        list[2 * i + 1] = (uint8_t)(listed >> 8);
    }
    uint64_t sum = 0;
    for (uint64_t rounds = strtoull(argv[argc - 1], NULL, 10); rounds > 0; rounds--) {
        number = CHECK(day, opening, day + opening, length - opening, begin, list, 2 * count);
        sum += number;
    }
    printf("%" PRIu64 " %d\n", sum, number);
    return 0;
}
