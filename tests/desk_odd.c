/* Calls that the duty desk's program never makes: a list of an odd number of bytes, and empty slices. */
#include "nogturshan.h"

#include <stdio.h>

static int failures = 0;

static void expect(const char *what, int number, int wanted)
{
    if (number != wanted) {
        printf("%s: answers %d, not %d\n", what, number, wanted);
        failures++;
    }
}

int main(void)
{
    static const uint8_t opening[NOGTURSHAN_TABLE_BYTES];
    /* a log with no record is its trailer alone */
    static const uint8_t log[16] = {0, 0, 0, 0, 0, 0, 0, 0, 0, 0, 0, 0, 'D', 'A', 'Y', '.'};
    /* one post: place 0, cell 0, turn 1, value 7 */
    static const uint8_t post[32] = {9, 0, 0, 0, 1, 0, 0, 0, 0, 0, 0, 0, 0, 0, 0, 7, 16, 0, 0, 0, 1, 0, 0, 0, 1, 0, 0, 0, 'D', 'A', 'Y', '.'};
    static const uint8_t list[] = {1, 0, 0};

    expect("odd list", nogturshan_check(opening, sizeof opening, post, sizeof post, 1, list, 1), NOGTURSHAN_LENT);
    expect("odd list on a bad log", nogturshan_check(opening, sizeof opening, post, 31, 1, list, 3), NOGTURSHAN_LENT);
    expect("odd list, nothing else right", nogturshan_check(opening, 0, post, 0, 0, list, 3), NOGTURSHAN_LENT);
    expect("a post's own order", nogturshan_check(opening, sizeof opening, post, sizeof post, 1, list, 2), NOGTURSHAN_ACCEPTED);
    expect("empty list", nogturshan_check(opening, sizeof opening, post, sizeof post, 1, list, 0), NOGTURSHAN_NO_ORDER);
    expect("no record", nogturshan_check(opening, sizeof opening, log, sizeof log, 1, list, 2), NOGTURSHAN_UNKNOWN);
    expect("empty log", nogturshan_check(opening, sizeof opening, log, 0, 1, list, 2), NOGTURSHAN_BAD_LOG);
    expect("empty opening", nogturshan_check(opening, 0, log, sizeof log, 1, list, 2), NOGTURSHAN_LENT);
    expect("short opening", nogturshan_check(opening, 255, log, sizeof log, 1, list, 2), NOGTURSHAN_LENT);
    return failures == 0 ? 0 : 1;
}
