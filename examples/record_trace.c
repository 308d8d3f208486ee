/* Records trace T of the scope document step by step and writes its bytes to standard output: those of samples/t.trace.
 *
 *   (cd crates/job_order && rt lib)
 *   gcc -std=c11 -Wall -Wextra -O2 -I include examples/record_trace.c crates/job_order/out/libjob_order.a -o record_trace
 *   ./record_trace | cmp - samples/t.trace
 */
#include "job_order.h"

#include <stdio.h>

struct step {
    uint8_t kind;
    uint16_t first, second;
};

static const struct step steps[] = {
    {JCO_KIND_BEGIN, 1, 0}, {JCO_KIND_FORK, 1, 2}, {JCO_KIND_FORK, 1, 3}, {JCO_KIND_END, 1, 0},
    {JCO_KIND_BEGIN, 2, 0}, {JCO_KIND_WRITE, 2, 1}, {JCO_KIND_WRITE, 2, 2}, {JCO_KIND_END, 2, 0},
    {JCO_KIND_BEGIN, 3, 0}, {JCO_KIND_READ, 3, 2}, {JCO_KIND_READ, 3, 1}, {JCO_KIND_END, 3, 0},
};

enum { STEPS = sizeof steps / sizeof steps[0] };

static uint8_t space[5 * STEPS + 8];

static int refusal(uint16_t number, uint16_t place)
{
    fprintf(stderr, "refused %u %u\n", number, place);
    return 1;
}

int main(void)
{
    jco_recorder recorder;
    uint16_t place = 0;
    size_t length;
    uint16_t refused = jco_open(&recorder, space, sizeof space);
    for (size_t i = 0; refused == JCO_OK && i < STEPS; i++)
        refused = jco_step(&recorder, steps[i].kind, steps[i].first, steps[i].second, &place);
    if (refused == JCO_OK)
        refused = jco_close(&recorder, &place, &length);
    if (refused != JCO_OK)
        return refusal(refused, place);
    return fwrite(space, 1, length, stdout) == length ? 0 : 2;
}
