/* Runs the case on standard input once through the library, and writes its answer: what tools/speed counts. A case stands behind its
   length in 4 bytes: the room for words in 2 bytes, the horizon in 4, the table's length in 2, the table, and arrivals of 8 bytes each;
   all numbers stand most significant byte first. With no input nothing is run: that is the program's start. The status is 1 where a run
   does not reach its horizon. */
#include <stdio.h>
#include "tunebobbin.h"

static uint8_t input[65536];
static uint64_t arrivals[8192];
static uint64_t list[65536];

/* The number in `count` bytes from byte `at` on. */
static uint64_t number(size_t at, size_t count)
{
    uint64_t n = 0;
    size_t i;
    for (i = 0; i < count; i++)
        n = n << 8 | input[at + i];
    return n;
}

int main(void)
{
    size_t length = fread(input, 1, sizeof input, stdin);
    size_t room, horizon, table, from, many, i, answer, place, channel, count;
    if (length == 0)
        return 0;
    if (length < 12 || length != 4 + number(0, 4) || length < 12 + number(10, 2)) {
        fprintf(stderr, "load: this is not one case\n");
        return 2;
    }
    room = number(4, 2);
    horizon = number(6, 4);
    table = number(10, 2);
    from = 12 + table;
    many = (length - from) / 8;
    for (i = 0; i < many; i++)
        arrivals[i] = number(from + 8 * i, 8);
    answer = tunebobbin_run_table(input + 12, table, horizon, arrivals, many, list, room, &place, &channel, &count);
    printf("%zu %zu %zu %zu\n", answer, place, channel, count);
    return answer != TUNEBOBBIN_ENDED;
}
