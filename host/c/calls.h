/* The store and the output of the C test, and its calls with what is expected of each. */

#ifndef CALLS_H
#define CALLS_H

#include "datagrams.h"
#include "route.h"

#include <stdio.h>
#include <string.h>

enum { RECORDS = 2, STORE = ROUTE_STORE_LENGTH(RECORDS), OUTPUT = ROUTE_OUTPUT_LENGTH + 14, FILL = 0xaa };

static int failed;

static void expect(int holds, const char *file, int line, const char *what)
{
    if (!holds) {
        failed++;
        printf("%s:%d: %s\n", file, line, what);
    }
}

#define EXPECT(what) expect((what), __FILE__, __LINE__, #what)

static int all_are(const uint8_t *bytes, size_t count, uint8_t value)
{
    for (size_t i = 0; i < count; i++) {
        if (bytes[i] != value) {
            return 0;
        }
    }
    return 1;
}

static uint8_t store[STORE];
static uint8_t output[OUTPUT];
static uint32_t size;

/* One call with an output that is filled anew. A refusal must leave store and output as they were. */
static uint8_t call(const uint8_t *datagram, size_t length)
{
    uint8_t before[STORE];
    memcpy(before, store, STORE);
    memset(output, FILL, OUTPUT);
    size = 12345;
    uint8_t number = route_handle(store, STORE, output, OUTPUT, datagram, length, &size);
    if (number != ROUTE_ACCEPTED) {
        EXPECT(size == 0 && memcmp(before, store, STORE) == 0 && all_are(output, OUTPUT, FILL));
    }
    return number;
}

/* A fresh store whose channel has this order. */
static void fresh_with(uint8_t order)
{
    uint8_t opening[ROUTE_OPENING_LENGTH];
    memcpy(opening, OPENING, sizeof opening);
    opening[18] = order;
    memset(store, FILL, STORE);
    EXPECT(route_make_store(store, STORE, opening, sizeof opening) == ROUTE_ACCEPTED);
}

static void fresh(void)
{
    fresh_with(ROUTE_ORDERED);
}

static int emitted_packet(uint16_t kind, const uint8_t *packet)
{
    return output[4] == (kind & 0xff) && output[5] == kind >> 8 && memcmp(output + 6, packet, 68) == 0;
}

#endif
