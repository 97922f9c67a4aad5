/* Packs a table, piece by piece in the order in which it is read: a header, its nodes, and its channels, each with its tokens behind it. */
#include <stdint.h>
#include <string.h>
#include "tunebobbin.h"

static uint8_t table[TUNEBOBBIN_LONGEST_TABLE];
static size_t bits; /* so many are packed */

/* The bytes that the table has so far. */
static inline size_t packed(void)
{
    return (bits + 7) / 8;
}

/* Packs the low `width` bits of a value, the highest first. */
static inline void put(uint32_t value, unsigned width)
{
    while (width > 0) {
        width -= 1;
        if (value >> width & 1u)
            table[bits / 8] = (uint8_t)(table[bits / 8] | 0x80u >> bits % 8);
        bits += 1;
    }
}

/* Begins a new table. */
static inline void put_header(unsigned nodes, unsigned channels)
{
    memset(table, 0, sizeof table);
    bits = 0;
    put(TUNEBOBBIN_TABLE_VERSION, 4);
    put(nodes, 6);
    put(channels, 7);
    put(0, 7);
}

static inline void put_node(unsigned kind, unsigned period, unsigned deadline, int32_t constant)
{
    put(kind, 5);
    put(period, 16);
    put(deadline, 16);
    put((uint32_t)constant, 32);
}

static inline void put_channel(unsigned sort, unsigned writer, unsigned reader, unsigned port, unsigned capacity, unsigned initial)
{
    put(sort, 1);
    put(writer, 6);
    put(reader, 6);
    put(port, 2);
    put(capacity, 7);
    put(initial, 7);
}

static inline void put_token(int32_t token)
{
    put((uint32_t)token, 32);
}
