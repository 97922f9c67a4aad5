/* Tunebobbin runs a network of periodic tasks joined by queues and registers. The network is a
   table of bytes, the inputs are words with a time, and so are the outputs. The same table and the
   same inputs give the same words everywhere. Link with libtunebobbin.a (x86-64-v2).

   tunebobbin_check_table   looks at a table: good, or refused by number and place
   tunebobbin_run_table     checks and runs a table from 0 ms to a horizon
   tunebobbin_in_words      a number in words
   tunebobbin_most_words    how long a list has to be so that no run lacks room
   tunebobbin_word          makes a word; tunebobbin_word_channel, _time and _value take it apart

   THE MODEL
   Time goes in milliseconds from 0. Each node (task) has a period and a deadline. At 0 and at every
   multiple of its period it takes one token from each of its input queues and reads its input
   registers; its result is written to all its channels at that instant plus its deadline, if the
   horizon is not before that. If an input queue is empty the node takes nothing and skips that
   turn. A queue keeps tokens in order, a register keeps the last one. In one instant everything is
   written before anything is read.

   What follows from this and is easily missed:
   - A register that the outside writes and that has no arrivals is a constant: its initial token.
   - Each port has a channel of its own. So a + a takes two channels from the writer of a; if that
     is the outside, each of the two takes an arrival of its own.
   - A token waits for the next release of its reader, which can be nearly a period away, and the
     result comes a deadline after that. So each node in a chain costs up to a period beside its
     deadline.

   THE TABLE
   Fields are packed without gaps, most significant bit first. The widths are in bits.

   header     24  version 4 (is 1), nodes 6 (1 to 32), channels 7 (0 to 64), spare 7 (is 0)
   node       69  kind 5, period 16 (1 to 65535), deadline 16 (1 to the period),
                  constant k 32 (two's complement)
   channel    29  sort 1 (0 queue, 1 register), writer 6, reader 6, port 2, capacity 7 (1 to 64),
                  initial count 7 (0 to the capacity); then that many tokens of 32, oldest first
   end            zero bits to the end of the byte, then nothing

   All nodes stand behind the header, all channels behind the nodes, both numbered from 0. Writer
   and reader are node numbers, or 63 for the outside, and not both 63. A channel that the outside
   writes takes arrivals; one that the outside reads gives output words and is a queue with port 0,
   capacity 1 and initial count 0. A register has capacity 1 and initial count 1. All capacities
   together are at most 1024. Each port of a node below its number of inputs is served by exactly
   one channel, no other port by any.

   WORDS
   Arrivals and output words are 64-bit numbers: channel in the top 8 bits, time in the next 24,
   value in the low 32. Output words stand by time, and within one instant by channel; a channel
   gives at most one each instant.

   WHAT THE CALLER SEES TO
   A pointer is null only beside a length of 0. Each is aligned for its type and points to as many
   elements as the length says: lengths are in elements, not bytes. The list and the result
   variables overlap neither each other nor the table nor the arrivals, and nothing else writes to
   any of them during a call. That is all: whatever the table, the horizon and the arrivals hold,
   the call returns.

   MEMORY, TIME AND THREADS
   Nothing is allocated, nothing is kept between calls, and there is no global state: calls on
   several threads at once are fine if each has its own list and result variables; they may share
   the table and the arrivals. A check takes up to 25 KiB of stack, a run up to 40 KiB. A run's time
   goes by the turns that nodes take in it; milliseconds in which nothing happens cost nothing.
   The library needs memcpy and memset and nothing else.

   WHAT IS PROVED
   The library is: tunebobbin_check and tunebobbin_run answer, and leave the list, as the rules of
   the project say. The functions whose bodies stand in this header are plain C over them. */

#ifndef TUNEBOBBIN_H
#define TUNEBOBBIN_H

#include <stddef.h>
#include <stdint.h>

#ifdef __cplusplus
extern "C" {
#endif

/* ---- Numbers */

/* What the calls answer; tunebobbin_in_words says what each means. If several apply, the answer is
   the first in the order of reading: the table from front to back, then 7, 8, 9, 10, then the run.
   A check answers 0 to 8. */
enum {
    TUNEBOBBIN_TAKEN = 0, /* a check: the table is good */
    TUNEBOBBIN_ENDED = 0, /* a run: the horizon was reached */
    TUNEBOBBIN_REFUSED_BITS_END = 1,
    TUNEBOBBIN_REFUSED_VERSION = 2,
    TUNEBOBBIN_REFUSED_COUNTS = 3,
    TUNEBOBBIN_REFUSED_NODE_FIELD = 4,
    TUNEBOBBIN_REFUSED_CHANNEL_FIELD = 5,
    TUNEBOBBIN_REFUSED_CAPACITIES = 6,
    TUNEBOBBIN_REFUSED_LEFTOVER = 7,
    TUNEBOBBIN_REFUSED_PORTS = 8,
    TUNEBOBBIN_REFUSED_HORIZON = 9,
    TUNEBOBBIN_REFUSED_ARRIVAL = 10,
    TUNEBOBBIN_STOPPED_OVERFULL = 11,
    TUNEBOBBIN_STOPPED_NO_ROOM = 12
};

/* Kinds of nodes. Tokens are signed 32-bit numbers; a, b, c are the inputs at ports 0, 1, 2.
   Results go round at 2^32. The constant k is 0 but for the kinds that have it here. */
enum {
    TUNEBOBBIN_KIND_CONSTANT = 0,      /* k */
    TUNEBOBBIN_KIND_COPY = 1,          /* a */
    TUNEBOBBIN_KIND_PLUS_CONSTANT = 2, /* a + k */
    TUNEBOBBIN_KIND_SUM = 3,           /* a + b */
    TUNEBOBBIN_KIND_DIFFERENCE = 4,    /* a - b */
    TUNEBOBBIN_KIND_SMALLER = 5,       /* the smaller of a and b */
    TUNEBOBBIN_KIND_LARGER = 6,        /* the larger of a and b */
    TUNEBOBBIN_KIND_QUOTIENT = 7,      /* a / k toward zero; k is not 0 */
    TUNEBOBBIN_KIND_CHOICE = 8,        /* b if a is not 0, else c */
    TUNEBOBBIN_KIND_GATE = 9,          /* b if a is not 0, else nothing */
    TUNEBOBBIN_KIND_ONES = 10,         /* ones in the 32 bits of a */
    TUNEBOBBIN_KIND_FIRST_BEAM = 11    /* zero bits above the highest one of a; 32 if a is 0 */
};

/* Other fields of a table, and the limits. */
enum {
    TUNEBOBBIN_TABLE_VERSION = 1,
    TUNEBOBBIN_QUEUE = 0, /* sorts of channels */
    TUNEBOBBIN_REGISTER = 1,
    TUNEBOBBIN_OUTSIDE = 63, /* a writer or reader */
    TUNEBOBBIN_MOST_NODES = 32,
    TUNEBOBBIN_MOST_CHANNELS = 64,
    TUNEBOBBIN_LONGEST_PERIOD = 65535, /* milliseconds */
    TUNEBOBBIN_MOST_CAPACITY = 64,     /* tokens, of one channel */
    TUNEBOBBIN_MOST_CAPACITIES = 1024, /* tokens, of all channels together */
    TUNEBOBBIN_LONGEST_TABLE = 4607,   /* bytes */
    TUNEBOBBIN_LAST_HORIZON = 16777215 /* milliseconds: some four and a half hours */
};

/* The stack that a call takes at most, in bytes. In a program that is linked dynamically the loader
   takes some more where it looks memcpy and memset up at the first call (not with -z now). */
enum {
    TUNEBOBBIN_CHECK_STACK = 25 * 1024,
    TUNEBOBBIN_RUN_STACK = 40 * 1024
};

/* A number in words: when it is answered, and what its place is; "" where the place is always 0. */
struct tunebobbin_words {
    const char *when;
    const char *place;
};

/* Bits, nodes, channels, arrivals and instants are counted from 0. The bit is the first one of the
   header, node, channel or token that is not whole; the node, the arrival and the channel of an
   overfull queue are the lowest such. */
static inline struct tunebobbin_words tunebobbin_in_words(size_t number)
{
    static const struct tunebobbin_words rows[] = {
        { "the table is good, or the run reached its horizon", "" },
        { "the bits end before or inside a header, node, channel or token", "bit" },
        { "the version is not 1", "" },
        { "the count of nodes or channels is out of range, or the spare is not 0", "" },
        { "a field of a node breaks a rule", "node" },
        { "a field of a channel breaks a rule", "channel" },
        { "the capacities so far exceed 1024", "channel" },
        { "the bits behind the last channel are not zero, or bytes follow", "" },
        { "a port of a node is unserved, served twice or too high", "node" },
        { "the horizon is above 16777215", "" },
        { "an arrival is on no channel that the outside writes, or out of order", "arrival" },
        { "a queue would hold more than its capacity", "instant" },
        { "the output words of an instant do not all fit the list", "instant" },
        { "no answer has this number", "" }
    };
    size_t last = sizeof rows / sizeof *rows - 1;
    return rows[number < last ? number : last];
}

/* ---- Calls */

/* The library's own calls, for other languages; a C program takes the two below them. They are the
   same, but no pointer is null here, not even beside a length of 0: references in the library's
   language never are, and nothing is known of a call that breaks this. */
size_t tunebobbin_check(const uint8_t *table, size_t table_length,
                        size_t *place, size_t *nodes, size_t *channels);
size_t tunebobbin_run(const uint8_t *table, size_t table_length,
                      size_t horizon,
                      const uint64_t *arrivals, size_t arrivals_length,
                      uint64_t *list, size_t list_length,
                      size_t *place, size_t *channel, size_t *count);

/* Checks a table of table_length bytes and answers its number. Every call writes all three results:

   place      0 for a good table, the place for a refused one
   nodes      the number of nodes, 0 for a refused table
   channels   the number of channels, 0 for a refused table */
static inline size_t tunebobbin_check_table(const uint8_t *table, size_t table_length,
                                            size_t *place, size_t *nodes, size_t *channels)
{
    const uint8_t no_table = 0;
    return tunebobbin_check(table_length > 0 ? table : &no_table, table_length,
                            place, nodes, channels);
}

/* Runs a table from instant 0 to the horizon, both included, and answers its number. It checks
   everything itself: no check has to come first.

   table      table_length bytes
   horizon    the last instant, at most 16777215
   arrivals   arrivals_length words by time; those behind the horizon are checked and not used
   list       room for list_length output words; they are written to its front

   Every call writes all three results:

              0 reached       1 to 10 refused   11, 12 stopped
   place      0               place             instant of the stop
   channel    0               0                 11: the lowest overfull queue; 12: 0
   count      of all words    0                 of the words of earlier instants

   The first `count` words of the list are the output, and behind them the list is as it was before.
   So a refused run leaves the whole list untouched; a stopped run keeps the words of the instants
   before the stop and writes none of that instant. */
static inline size_t tunebobbin_run_table(const uint8_t *table, size_t table_length,
                                          size_t horizon,
                                          const uint64_t *arrivals, size_t arrivals_length,
                                          uint64_t *list, size_t list_length,
                                          size_t *place, size_t *channel, size_t *count)
{
    const uint8_t no_table = 0;
    const uint64_t no_arrivals = 0;
    uint64_t no_list = 0;
    return tunebobbin_run(table_length > 0 ? table : &no_table, table_length,
                          horizon,
                          arrivals_length > 0 ? arrivals : &no_arrivals, arrivals_length,
                          list_length > 0 ? list : &no_list, list_length,
                          place, channel, count);
}

/* ---- Words */

/* What tunebobbin_word gives where its numbers do not fit. Its channel is 255, which no table has:
   a run refuses it as an arrival (10). */
#define TUNEBOBBIN_NO_WORD (~(uint64_t)0)

/* The word of a channel (below 256), a time (below 2^24) and a value. */
static inline uint64_t tunebobbin_word(uint64_t channel, uint64_t time, int32_t value)
{
    if (channel > 0xFFu || time > 0xFFFFFFu)
        return TUNEBOBBIN_NO_WORD;
    return channel << 56 | time << 32 | (uint32_t)value;
}

/* What a word is made of. */
static inline unsigned tunebobbin_word_channel(uint64_t word)
{
    return (unsigned)(word >> 56);
}

static inline uint32_t tunebobbin_word_time(uint64_t word)
{
    return (uint32_t)(word >> 32) & 0xFFFFFFu;
}

static inline int32_t tunebobbin_word_value(uint64_t word)
{
    uint32_t bits = (uint32_t)word;
    return bits < 0x80000000u ? (int32_t)bits : -(int32_t)~bits - 1;
}

/* ---- Room */

/* How many results a node can write in a run: one for each release whose deadline is not behind
   the horizon. Each is a word on each channel from the node to the outside. */
static inline size_t tunebobbin_most_results(size_t period, size_t deadline, size_t horizon)
{
    if (period == 0 || deadline > horizon || horizon > TUNEBOBBIN_LAST_HORIZON)
        return 0; /* a run is refused, or ends before */
    return (horizon - deadline) / period + 1;
}

/* `width` bits of a table, from bit `at` on. */
static inline size_t tunebobbin_field(const uint8_t *table, size_t at, unsigned width)
{
    size_t value = 0;
    for (; width > 0; width -= 1, at += 1)
        value = value << 1 | (size_t)(table[at / 8] >> (7 - at % 8) & 1);
    return value;
}

/* How many output words a run of a table can have, whatever arrives: a list of this length never
   lacks room (12). There are fewer where a node skips a turn or has no result, or the run stops,
   and else exactly so many. It is 0 for a table or a horizon that is refused, and at most
   64 * 16777215. */
static inline size_t tunebobbin_most_words(const uint8_t *table, size_t table_length,
                                           size_t horizon)
{
    size_t place, nodes, channels, channel, node, most = 0;
    if (tunebobbin_check_table(table, table_length, &place, &nodes, &channels) != TUNEBOBBIN_TAKEN)
        return 0;
    channel = 24 + 69 * nodes; /* its first bit, and that of its writer */
    for (; channels > 0; channels -= 1) {
        node = 24 + 69 * tunebobbin_field(table, channel + 1, 6);
        if (tunebobbin_field(table, channel + 7, 6) == TUNEBOBBIN_OUTSIDE)
            most += tunebobbin_most_results(tunebobbin_field(table, node + 5, 16),
                                            tunebobbin_field(table, node + 21, 16), horizon);
        channel += 29 + 32 * tunebobbin_field(table, channel + 22, 7);
    }
    return most;
}

#ifdef __cplusplus
}
#endif

#endif
