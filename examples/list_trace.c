/* Prints the short list of a trace, as the trace program does: a header line and an entry a line, or one line for a refusal.
 *
 *   (cd crates/job_order && rt lib)
 *   gcc -std=c11 -Wall -Wextra -O2 -I include examples/list_trace.c crates/job_order/out/libjob_order.a -o list_trace
 *   ./list_trace samples/t.trace          (or ./list_trace < samples/t.trace)
 */
#include "job_order.h"

#include <stdio.h>

enum { LONGEST = 32768, WIDTH = 32, MOST_ENTRIES = 8192 };

static uint8_t bytes[LONGEST + 1];
static uint16_t clocks[WIDTH * JCO_MOST_EVENTS];
static uint8_t work[JCO_MOST_EVENTS];
static uint16_t list[JCO_LIST_ENTRY * MOST_ENTRIES];

static const char *shape_word(uint16_t shape)
{
    return shape == JCO_SHAPE_WW ? "ww" : shape == JCO_SHAPE_WR ? "wr" : "rw";
}

static void print_entry(const uint16_t *e)
{
    printf("%u %u %u %s %s\n", e[0], e[1], e[2], shape_word(e[3]), e[4] == JCO_MARK_OPEN ? "open" : "covered");
}

static int print_refusal(unsigned number, unsigned place)
{
    printf("refused %u %u\n", number, place);
    return 1;
}

static int list_trace(size_t length)
{
    uint16_t place;
    size_t events, records, chains, count;
    if (length > LONGEST)
        return print_refusal(JCO_TOO_LONG, 0);
    uint16_t refused = jco_short_list(bytes, length, WIDTH, clocks, WIDTH * JCO_MOST_EVENTS, work, JCO_MOST_EVENTS, list, JCO_LIST_ENTRY * MOST_ENTRIES, &place,
                                      &events, &records, &chains, &count);
    if (refused != JCO_OK)
        return print_refusal(refused, place);
    printf("events %zu records %zu chains %zu pairs %zu\n", events, records, chains, count);
    for (size_t i = 0; i < count; i++)
        print_entry(list + JCO_LIST_ENTRY * i);
    return 0;
}

int main(int argc, char **argv)
{
    FILE *in = argc > 1 ? fopen(argv[1], "rb") : stdin;
    if (in == NULL) {
        perror(argv[1]);
        return 2;
    }
    size_t length = fread(bytes, 1, sizeof bytes, in);
    if (ferror(in)) {
        perror("list_trace");
        return 2;
    }
    return list_trace(length);
}
