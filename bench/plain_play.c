/* Play over the plain machine: plays a script of calls from standard input and prints what each gives back, as play does. */
#include "script.h"

#include <string.h>

static void print_hex(const uint8_t *bytes, size_t length)
{
    for (size_t i = 0; i < length; i++)
        printf("%02x", bytes[i]);
}

/* Prints what a call gave back. */
static void print_answer(const struct line *line, const struct answer *answer, const uint16_t *order)
{
    printf("%s %d", line_names[line->kind], answer->number);
    if ((line->kind == BEGIN_LINE || line->kind == POST_LINE) && answer->number == GRANTED)
        printf(" %u", (unsigned)answer->answer);
    if (answer->shown != NULL) {
        putchar(' ');
        print_hex(answer->shown, VALUE_BYTES);
    }
    if (line->kind == ORDER_LINE)
        for (uint32_t i = 0; i < answer->answer; i++)
            printf(" %d", order[i]);
    putchar('\n');
}

static void print_table(const uint8_t *table)
{
    printf("table");
    for (unsigned c = 0; c < CELLS; c++) {
        putchar(' ');
        print_hex(table + VALUE_BYTES * c, VALUE_BYTES);
    }
    putchar('\n');
}

/* The log as it stands: a line for each record, then the trailer. */
static void print_log(const struct machine *machine)
{
    uint8_t trailer[RECORD_BYTES];
    plain_trailer(machine->log, machine->books.records, trailer);
    for (unsigned n = 0; n < machine->books.records; n++) {
        print_hex(machine->log + RECORD_BYTES * n, RECORD_BYTES);
        putchar('\n');
    }
    print_hex(trailer, RECORD_BYTES);
    putchar('\n');
}

/* Saves the opening table and the log as it stands: 0 if all is written, else 1. */
static int save(const char *name, const uint8_t *opening, const struct machine *machine)
{
    uint8_t trailer[RECORD_BYTES];
    size_t records = RECORD_BYTES * machine->books.records;
    FILE *file = fopen(name, "wb");
    if (file == NULL)
        return 1;
    plain_trailer(machine->log, machine->books.records, trailer);
    bool is_written = fwrite(opening, 1, TABLE_BYTES, file) == TABLE_BYTES && fwrite(machine->log, 1, records, file) == records
                      && fwrite(trailer, 1, RECORD_BYTES, file) == RECORD_BYTES;
    return fclose(file) == 0 && is_written ? 0 : 1;
}

int main(void)
{
    static struct machine machine;
    uint8_t opening[TABLE_BYTES] = {0};
    struct line line;
    set_up(&machine);
    for (unsigned long number = 1; next_line(stdin, &line); number++) {
        if (is_call(&line)) {
            memset(machine.order, 0, sizeof machine.order);
            struct answer answer = make_call(&machine.books, &machine.lent, &line);
            print_answer(&line, &answer, machine.order);
            if (line.kind == OPEN_LINE || (line.kind == CLOSE_LINE && answer.number == GRANTED))
                memcpy(opening, machine.table, TABLE_BYTES);
        } else if (line.kind == TABLE_LINE) {
            print_table(machine.table);
        } else if (line.kind == LOG_LINE) {
            print_log(&machine);
        } else if (line.kind == SAVE_LINE) {
            printf("save %d\n", save(line.name, opening, &machine));
        } else if (line.kind == UNKNOWN_LINE) {
            printf("line %lu ?\n", number);
        }
    }
    return 0;
}
