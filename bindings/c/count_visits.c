/* Counts visits on a tag: the write that adds one is granted, its copy is told as counted already, and a write that
 * leaves one out is refused. bindings/rust/examples/count_visits.rs does the same and prints the same. */
#include "dringoleth.h"

#include <stdio.h>

enum { TAG_BYTES = 20480, UNIT = 12288, SLOT = 16384 };

static uint8_t tag[TAG_BYTES];
static uint8_t session[DRINGOLETH_SESSION_BYTES];

/* One access-controlled segment: a counter that anyone may read and add to, and whose unit is locked. */
static void make_counter_tag(void)
{
    tag[1] = 1;           /* A, the number of access-controlled segments */
    tag[UNIT] = 0xA5;     /* RD, WR, nE and M */
    tag[UNIT + 1] = 0x02; /* model 2 */
}

static int print_visits(void)
{
    uint8_t value[8];
    uint64_t visits = 0;
    uint8_t answer = dringoleth_read(tag, sizeof tag, session, SLOT, sizeof value, value, sizeof value);

    if (answer != DRINGOLETH_GRANTED) {
        printf("the slot cannot be read: refused %u\n", answer);
        return 1;
    }
    for (size_t i = 0; i < sizeof value; i++)
        visits = visits << 8 | value[i];
    printf("visits: %llu\n", (unsigned long long)visits);
    return 0;
}

static void add_visit(uint8_t visits)
{
    uint8_t next[8] = {0, 0, 0, 0, 0, 0, 0, visits};
    uint8_t answer = dringoleth_write(tag, sizeof tag, session, SLOT, next, sizeof next);

    if (answer == DRINGOLETH_GRANTED)
        printf("visit %u: granted\n", visits);
    else if (answer == DRINGOLETH_REPEATED)
        printf("visit %u: already counted\n", visits);
    else
        printf("visit %u: refused %u\n", visits, answer);
}

/* Visit 2, a copy of it, and a read, as a log. */
static void run_log(void)
{
    static const uint8_t log[] = {0x22, 0, 0, 0x40, 0, 0, 0, 0, 0, 0, 0, 0, 2, /* visit 2 */
                                  0x22, 0, 0, 0x40, 0, 0, 0, 0, 0, 0, 0, 0, 2, /* its copy */
                                  0x12, 0, 0, 0x40, 0};
    uint8_t output[64];
    size_t bytes_read, bytes_written;
    uint8_t stop = dringoleth_run(tag, sizeof tag, session, log, sizeof log, output, sizeof output, &bytes_read,
                                  &bytes_written);

    printf("log of %zu bytes, %zu read, replies", sizeof log, bytes_read);
    for (size_t i = 0; i < bytes_written; i++)
        printf(" %02X", output[i]);
    puts(stop == 0 ? "" : ", stopped");
}

int main(void)
{
    make_counter_tag();
    dringoleth_power_up(session);
    if (print_visits() != 0)
        return 1;
    add_visit(1);
    add_visit(1);
    add_visit(3);
    if (print_visits() != 0)
        return 1;
    run_log();
    return print_visits();
}
