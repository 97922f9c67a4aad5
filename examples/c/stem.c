/* The C interface at work: packs a table, checks it, runs it with arrivals, and shows a refusal and both stops.

   The network turns beam masks and distances into stem widths (examples/README.md, `stem.input`, has its picture):

     outside ==0 (masks)==> [0: ones, 20/4] ==3==> [3: larger, 20/6] ==9==> outside: widest so far
                               |  |                    ^      |
                               |  |                    +==4===+  its memory, holds 0
                               |  +==7==> outside: beams that the stem covers
                               +==5==> [4: a + b, 20/8] ==10==> outside: first beam behind the stem
                                          ^
     outside ==1 (masks)==> [1: first beam, 20/4] ==6==+
     outside --2 (distance, starts at 6400)--> [2: a / 64, 20/2] ==8==> outside: width of a beam there          */
#include <inttypes.h>
#include <stdio.h>
#include "pack.h"
#include "tunebobbin.h"

/* Packs the network above; answers the number of bytes. */
static size_t put_stem(void)
{
    enum { Q = TUNEBOBBIN_QUEUE, R = TUNEBOBBIN_REGISTER, OUT = TUNEBOBBIN_OUTSIDE };
    put_header(5, 11);
    put_node(TUNEBOBBIN_KIND_ONES, 20, 4, 0);
    put_node(TUNEBOBBIN_KIND_FIRST_BEAM, 20, 4, 0);
    put_node(TUNEBOBBIN_KIND_QUOTIENT, 20, 2, 64);
    put_node(TUNEBOBBIN_KIND_LARGER, 20, 6, 0);
    put_node(TUNEBOBBIN_KIND_SUM, 20, 8, 0);
    put_channel(Q, OUT, 0, 0, 8, 0);    /* 0: masks */
    put_channel(Q, OUT, 1, 0, 8, 0);    /* 1: masks */
    put_channel(R, OUT, 2, 0, 1, 1);    /* 2: distance */
    put_token(6400);
    put_channel(Q, 0, 3, 0, 4, 0);      /* 3 */
    put_channel(Q, 3, 3, 1, 1, 1);      /* 4: memory of node 3 */
    put_token(0);
    put_channel(Q, 0, 4, 0, 4, 0);      /* 5 */
    put_channel(Q, 1, 4, 1, 4, 0);      /* 6 */
    put_channel(Q, 0, OUT, 0, 1, 0);    /* 7: beams covered */
    put_channel(Q, 2, OUT, 0, 1, 0);    /* 8: width of a beam */
    put_channel(Q, 3, OUT, 0, 1, 0);    /* 9: widest so far */
    put_channel(Q, 4, OUT, 0, 1, 0);    /* 10: first beam behind */
    return packed();
}

/* ---- Calling */

static const char *name(unsigned channel)
{
    switch (channel) {
    case 7:
        return "beams covered";
    case 8:
        return "width of a beam";
    case 9:
        return "widest so far";
    case 10:
        return "first beam behind";
    default:
        return "?";
    }
}

static void print_refusal(size_t number, size_t place)
{
    struct tunebobbin_words words = tunebobbin_in_words(number);
    printf("refused (%zu), %s", number, words.when);
    if (words.place[0] != 0)
        printf(": %s %zu", words.place, place);
}

static void check(const char *what, size_t length)
{
    size_t place, nodes, channels;
    size_t number = tunebobbin_check_table(table, length, &place, &nodes, &channels);
    printf("%s: ", what);
    if (number == TUNEBOBBIN_TAKEN)
        printf("taken, %zu nodes, %zu channels", nodes, channels);
    else
        print_refusal(number, place);
    puts("");
}

#define ROOM 24
#define UNTOUCHED UINT64_MAX

/* Runs the table and prints its words and its end. The list is filled with a mark first, so that what a run leaves alone can be seen. */
static void run(const char *what, size_t length, size_t horizon, const uint64_t *arrivals, size_t arrivals_length, size_t room)
{
    uint64_t list[ROOM];
    size_t place, channel, count, i, untouched;
    size_t number;
    for (i = 0; i < ROOM; i += 1)
        list[i] = UNTOUCHED;
    number = tunebobbin_run_table(table, length, horizon, arrivals, arrivals_length, list, room, &place, &channel, &count);
    printf("%s:\n", what);
    for (i = 0; i < count; i += 1)
        printf("  at %2" PRIu32 " ms, %s: %" PRId32 "\n",
               tunebobbin_word_time(list[i]), name(tunebobbin_word_channel(list[i])), tunebobbin_word_value(list[i]));
    switch (number) {
    case TUNEBOBBIN_ENDED:
        printf("  the horizon was reached, %zu words", count);
        break;
    case TUNEBOBBIN_STOPPED_OVERFULL:
        printf("  stopped at %zu ms: the queue of channel %zu is overfull, %zu words", place, channel, count);
        break;
    case TUNEBOBBIN_STOPPED_NO_ROOM:
        printf("  stopped at %zu ms: the list is too short, %zu words", place, count);
        break;
    default:
        printf("  ");
        print_refusal(number, place);
        printf("; %zu words", count);
        break;
    }
    untouched = 0;
    for (i = count; i < ROOM; i += 1)
        untouched += list[i] == UNTOUCHED;
    printf("; %zu of the %d entries behind them untouched\n", untouched, (int)(ROOM - count));
}

int main(void)
{
    uint64_t arrivals[9];
    uint64_t masks[9];
    size_t i;
    size_t length = put_stem();

    check("the table", length);
    check("without its last byte", length - 1);
    table[0] ^= 0x40;
    check("with version 5", length);
    table[0] ^= 0x40;
    table[length - 1] ^= 0x80;
    check("with a bit of its last byte changed", length);
    table[length - 1] ^= 0x80;
    puts("");

    /* a mask every 20 ms on channels 0 and 1; at 40 ms the distance halves */
    arrivals[0] = tunebobbin_word(0, 0, 0x3C0000);
    arrivals[1] = tunebobbin_word(1, 0, 0x3C0000);
    arrivals[2] = tunebobbin_word(0, 20, 0x7E0000);
    arrivals[3] = tunebobbin_word(1, 20, 0x7E0000);
    arrivals[4] = tunebobbin_word(0, 40, 0x3C0000);
    arrivals[5] = tunebobbin_word(1, 40, 0x3C0000);
    arrivals[6] = tunebobbin_word(2, 40, 3200);
    arrivals[7] = tunebobbin_word(0, 60, 0x1FF000);
    arrivals[8] = tunebobbin_word(1, 60, 0x1FF000);
    run("90 ms with four masks", length, 90, arrivals, 9, ROOM);
    run("the same with room for five words", length, 90, arrivals, 9, 5);

    /* nine masks at 30 ms into the queue of channel 0, which has room for eight */
    for (i = 0; i < 9; i += 1)
        masks[i] = tunebobbin_word(0, 30, 1);
    run("nine masks at once", length, 90, masks, 9, ROOM);

    /* channel 3 is written by node 0, not by the outside */
    arrivals[4] = tunebobbin_word(3, 40, 0x3C0000);
    run("an arrival on a channel of a node", length, 90, arrivals, 9, ROOM);
    return 0;
}
