/* Two phones share a key: each writes a stream of keys and masks into a segment of its own and is inserted; then each
 * works the key out from what it wrote and what it may read. bindings/rust/examples/share_key.rs does the same and
 * prints the same. */
#include "dringoleth.h"

#include <stdio.h>

enum { SEGMENTS = 3, TAG_BYTES = 4096 * (4 + SEGMENTS), UNIT = 12288, SEGMENT = 16384, SLOTS = 85, SLOT = 48 };

static uint8_t tag[TAG_BYTES];
static uint8_t session[DRINGOLETH_SESSION_BYTES];

/* Phone 0 uses segment 0 and is inserted first, phone 1 uses segment 1. */
static const uint8_t ids[2][17] = {"the first phone.", "the second phone"};
static uint8_t streams[2][SLOTS * SLOT];

/* Three access-controlled segments of model 4, at stage 0. */
static void make_tag(void)
{
    tag[1] = SEGMENTS; /* A, the number of access-controlled segments */
    for (size_t k = 0; k < SEGMENTS; k++) {
        tag[UNIT + 32 * k] = 0x21;     /* WR and M */
        tag[UNIT + 32 * k + 1] = 0x04; /* model 4 */
    }
}

/* A slot is an id, a key and a mask of 16 bytes. The ids stay zeros; a real phone draws keys and masks at random. */
static void make_stream(size_t phone)
{
    for (size_t i = 0; i < SLOTS * SLOT; i++)
        if (i % SLOT >= 16)
            streams[phone][i] = (uint8_t)((3 + 8 * phone) * i);
}

static void print_answer(const char *what, size_t phone, uint8_t answer)
{
    printf("phone %zu, %s: ", phone, what);
    if (answer == DRINGOLETH_GRANTED)
        puts("granted");
    else
        printf("refused %u\n", answer);
}

static void join(size_t phone)
{
    make_stream(phone);
    print_answer("stream", phone,
                 dringoleth_write(tag, sizeof tag, session, SEGMENT + 4096 * phone, streams[phone], SLOTS * SLOT));
    print_answer("insertion", phone, dringoleth_insert(tag, sizeof tag, session, phone, ids[phone]));
}

/* The host of row j has slot j of every segment, so that the other phone's number is its slot's. */
static void print_shared_key(size_t phone)
{
    size_t offset = SLOT * (1 - phone);
    uint8_t slot[SLOT];
    uint8_t answer = dringoleth_read(tag, sizeof tag, session, SEGMENT + 4096 * phone + offset, SLOT, slot, SLOT);

    if (answer != DRINGOLETH_GRANTED) {
        print_answer("slot", phone, answer);
        return;
    }
    printf("phone %zu finds '%.16s' and the key", phone, (const char *)slot);
    for (size_t i = 16; i < 32; i++)
        printf(" %02X", slot[i] ^ streams[phone][offset + i]);
    puts("");
}

int main(void)
{
    uint8_t byte;

    make_tag();
    dringoleth_power_up(session);
    join(0);
    join(1);
    print_shared_key(0);
    print_shared_key(1);
    print_answer("own slot", 0, dringoleth_read(tag, sizeof tag, session, SEGMENT, 1, &byte, 1));
    print_answer("second insertion", 0, dringoleth_insert(tag, sizeof tag, session, 2, ids[0]));
    return 0;
}
