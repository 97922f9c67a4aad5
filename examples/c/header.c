/* Shows what include/tunebobbin.h has beside the two calls: numbers in words, how long a list has to be, words that do not fit and null
   beside a length of 0; and three things that are easily missed in a network. */
#include <inttypes.h>
#include <stdio.h>
#include "pack.h"
#include "tunebobbin.h"

#define ROOM 8
enum { Q = TUNEBOBBIN_QUEUE, R = TUNEBOBBIN_REGISTER, OUT = TUNEBOBBIN_OUTSIDE };

/* Runs the packed table with a list of this length, and prints its words and its answer. */
static void run(size_t horizon, const uint64_t *arrivals, size_t arrivals_length, uint64_t *list, size_t list_length)
{
    size_t place, channel, count, i;
    size_t number = tunebobbin_run_table(table, packed(), horizon, arrivals, arrivals_length, list, list_length, &place, &channel, &count);
    printf(" ");
    for (i = 0; i < count; i += 1)
        printf(" %" PRId32 " at %" PRIu32 " ms,", tunebobbin_word_value(list[i]), tunebobbin_word_time(list[i]));
    printf(" answer %zu, place %zu\n", number, place);
}

/* The same with a list that is as long as it ever has to be. */
static void run_whole(size_t horizon, const uint64_t *arrivals, size_t arrivals_length)
{
    uint64_t list[ROOM];
    size_t most = tunebobbin_most_words(table, packed(), horizon);
    printf("  to %zu ms: at most %zu words\n", horizon, most);
    if (most <= ROOM)
        run(horizon, arrivals, arrivals_length, list, most);
}

int main(void)
{
    size_t number, place, nodes, channels;
    uint64_t word, arrivals[2];

    puts("numbers in words, with what the place is");
    for (number = 0; number <= TUNEBOBBIN_STOPPED_NO_ROOM + 1; number += 1)
        printf("  %2zu  %s (%s)\n", number, tunebobbin_in_words(number).when, tunebobbin_in_words(number).place);

    puts("a constant, 7 every 10 ms");
    put_header(1, 1);
    put_node(TUNEBOBBIN_KIND_CONSTANT, 10, 10, 7);
    put_channel(Q, 0, OUT, 0, 1, 0);
    run_whole(9, NULL, 0);
    run_whole(10, NULL, 0);
    run_whole(39, NULL, 0);
    run_whole(TUNEBOBBIN_LAST_HORIZON, NULL, 0);
    run_whole((size_t)TUNEBOBBIN_LAST_HORIZON + 1, NULL, 0);

    puts("null beside a length of 0: no list, then no table");
    run(39, NULL, 0, NULL, 0);
    number = tunebobbin_check_table(NULL, 0, &place, &nodes, &channels);
    printf("  answer %zu, place %zu\n", number, place);
    printf("  at most %zu words\n", tunebobbin_most_words(NULL, 0, 39));

    /* the outside's register goes through node 0, which copies it, to both ports of node 1, which adds */
    puts("a + a through two channels, where a is a register of the outside: with no arrival it is a constant");
    put_header(2, 4);
    put_node(TUNEBOBBIN_KIND_COPY, 10, 4, 0);
    put_node(TUNEBOBBIN_KIND_SUM, 10, 4, 0);
    put_channel(R, OUT, 0, 0, 1, 1);
    put_token(21);
    put_channel(Q, 0, 1, 0, 1, 0);
    put_channel(Q, 0, 1, 1, 1, 0);
    put_channel(Q, 1, OUT, 0, 1, 0);
    run_whole(40, NULL, 0);
    puts("the same with 4 arriving at 12 ms, which is read at 20, written at 24, read at 30 and written at 34");
    arrivals[0] = tunebobbin_word(0, 12, 4);
    run_whole(40, arrivals, 1);

    puts("words that fit, at the limits");
    word = tunebobbin_word(255, TUNEBOBBIN_LAST_HORIZON, INT32_MIN);
    printf("  channel %u, time %" PRIu32 ", value %" PRId32 "\n", tunebobbin_word_channel(word), tunebobbin_word_time(word), tunebobbin_word_value(word));
    puts("words that do not: channel 256, time 2^24, time 2^32; each is no word, and refused as an arrival");
    printf("  %d %d %d\n", tunebobbin_word(256, 12, 4) == TUNEBOBBIN_NO_WORD, tunebobbin_word(0, (uint64_t)1 << 24, 4) == TUNEBOBBIN_NO_WORD,
           tunebobbin_word(0, (uint64_t)1 << 32, 4) == TUNEBOBBIN_NO_WORD);
    arrivals[1] = tunebobbin_word(0, (uint64_t)1 << 24, 4);
    run_whole(40, arrivals, 2);
    return 0;
}
