/* Measures the stack that calls of both libraries use: each call is made on a stack of its own that was filled with one
 * byte, and what is no longer that byte was used. It prints the most for each function, and ends with 1 where that is more
 * than the header says. Each command is made as a call and as a run, and both must answer what stands beside it here and
 * leave the same tag and session, so that what is measured is what it seems to be. */
#define _XOPEN_SOURCE 700
#include "dringoleth.h"
#include "xxtea_c.h"

#include <stdio.h>
#include <stdlib.h>
#include <string.h>
#include <ucontext.h>

enum { SEGMENTS = 4, TAG_BYTES = 4096 * (4 + SEGMENTS + 1), UNIT = 12288, SEGMENT = 16384, COUNTER = 4, SLOT = 48 };
enum { READ = 3984, WRITE = 4000, EDIT = 4016, NAME = 4032, ID = 4048, COMMIT = 4064, PA = 4080 };
enum { FILL = 0xA5, STACK = 16384 };

/* What a call gets. The tag and the session are kept twice, for calls and for runs. */
static uint8_t tag[2][TAG_BYTES], session[2][DRINGOLETH_SESSION_BYTES];
static uint8_t data[64], reply[64], log_bytes[64];
static size_t address, count, log_length;
static uint32_t words[1025];
static uint8_t answer;

static uint8_t stack[STACK];
static uint8_t *before;
static ucontext_t caller;

enum { NOTHING, POWER_UP, READS, WRITES, ADVANCE, INSERT, RUN, ENCIPHER, DECIPHER, FUNCTIONS };
static const char *const names[FUNCTIONS] = {"nothing", "power_up", "read",     "write",   "advance",
                                             "insert",  "run",      "encipher", "decipher"};
static size_t most[FUNCTIONS];

/* What a run answered, by the bytes of its one reply. */
static uint8_t replied(void) { return reply[0] == 0x51 ? reply[1] : 0; }

/* Needs only its return address: what else a call of it uses is the measurement's own. */
__attribute__((noinline)) static void nothing(void) { __asm__ volatile(""); }

static void call(int function)
{
    size_t taken, written;

    __asm__ volatile("mov %%rsp, %0" : "=r"(before));
    switch (function) {
    case NOTHING: nothing(), answer = 0; break;
    case POWER_UP: dringoleth_power_up(session[0]), answer = 0; break;
    case READS: answer = dringoleth_read(tag[0], TAG_BYTES, session[0], address, count, reply, sizeof reply); break;
    case WRITES: answer = dringoleth_write(tag[0], TAG_BYTES, session[0], address, data, count); break;
    case ADVANCE: answer = dringoleth_advance(tag[0], TAG_BYTES, session[0], address); break;
    case INSERT: answer = dringoleth_insert(tag[0], TAG_BYTES, session[0], address, data); break;
    case RUN:
        dringoleth_run(tag[1], TAG_BYTES, session[1], log_bytes, log_length, reply, sizeof reply, &taken, &written);
        answer = replied();
        break;
    case ENCIPHER: answer = xxtea_c_encipher(words, count, 1, 2, 3, 4); break;
    case DECIPHER: answer = xxtea_c_decipher(words, count, 1, 2, 3, 4); break;
    }
}

static void call_on_own_stack(int function)
{
    ucontext_t callee;

    memset(stack, FILL, sizeof stack);
    getcontext(&callee);
    callee.uc_stack.ss_sp = stack;
    callee.uc_stack.ss_size = sizeof stack;
    callee.uc_link = &caller;
    makecontext(&callee, (void (*)(void))call, 1, function);
    swapcontext(&caller, &callee);
}

static size_t used(void)
{
    size_t untouched = 0;

    while (stack[untouched] == FILL)
        untouched++;
    return (size_t)(before - (stack + untouched));
}

/* The call must get the answer that is due. */
static void measure(int function, uint8_t due)
{
    call_on_own_stack(function);
    if (used() > most[function])
        most[function] = used();
    if (answer != due) {
        printf("%s at %zu answers %u, and %u is due\n", names[function], address, answer, due);
        exit(1);
    }
}

/* The call, and a run over a log with one command: its kind, the address in so many bytes, and then the data. */
static void measure_both(int function, uint8_t due, uint8_t kind, size_t address_bytes, size_t data_bytes)
{
    measure(function, due);
    log_bytes[0] = kind;
    for (size_t i = 0; i < address_bytes; i++)
        log_bytes[1 + i] = (uint8_t)(address >> (8 * (address_bytes - 1 - i)));
    memcpy(log_bytes + 1 + address_bytes, data, data_bytes);
    log_length = 1 + address_bytes + data_bytes;
    measure(RUN, due);
    if (memcmp(tag[0], tag[1], TAG_BYTES) != 0 || memcmp(session[0], session[1], sizeof session[0]) != 0) {
        printf("%s at %zu: the run leaves another tag or session than the call\n", names[function], address);
        exit(1);
    }
}

/* The last digit of the kind of a read or write. */
static uint8_t digit(size_t bytes)
{
    switch (bytes) {
    case 1: return 1;
    case 8: return 2;
    case 16: return 3;
    default: return 4;
    }
}

static void power_up(void) { measure_both(POWER_UP, 0, 0x00, 0, 0); }

static void read_at(size_t at, size_t bytes, uint8_t due)
{
    address = at, count = bytes;
    measure_both(READS, due, 0x10 + digit(bytes), 4, 0);
}

/* Writes the data as it stands. */
static void write_at(size_t at, size_t bytes, uint8_t due)
{
    address = at, count = bytes;
    measure_both(WRITES, due, 0x20 + digit(bytes), 4, bytes);
}

static void advance(size_t segment, uint8_t due)
{
    address = segment;
    measure_both(ADVANCE, due, 0x31, 2, 0);
}

/* The data is the id. */
static void insert(size_t segment, uint8_t due)
{
    address = segment;
    measure_both(INSERT, due, 0x32, 2, 16);
}

/* The data become bytes of one value. */
static void fill(uint8_t byte) { memset(data, byte, sizeof data); }

/* The data become the block that PIN 0, all zeros, enciphers them to. The words' low bytes come first, as x86-64 has it. */
static void encipher_data(void)
{
    uint32_t block[4];

    memcpy(block, data, 16);
    xxtea_c_encipher(block, 4, 0, 0, 0, 0);
    memcpy(data, block, 16);
}

/* The counter is moved on, and the data become the response to it. */
static void next_response(void)
{
    static uint8_t value;

    fill(0);
    data[7] = ++value;
    write_at(COUNTER, 8, 0);
    fill(0);
    data[15] = value;
    encipher_data();
}

static void registers(void)
{
    static const size_t responses[] = {READ, WRITE, EDIT, NAME};

    for (size_t i = 0; i < sizeof responses / sizeof *responses; i++) {
        next_response();
        write_at(responses[i], 16, 0);
        write_at(responses[i], 16, DRINGOLETH_FLAG_USED);
    }
    next_response();
    fill(7);
    write_at(READ, 16, DRINGOLETH_WRONG_RESPONSE);
    write_at(READ, 8, DRINGOLETH_BAD_REGISTER);
    write_at(ID, 16, 0);
    /* PA: PIN 1, owner PIN 0, and the guard of sixteen sevens. */
    encipher_data();
    memset(data, 0, 4);
    data[1] = 1;
    write_at(PA, 16, 0);
    next_response();
    write_at(COMMIT, 16, DRINGOLETH_WRONG_RESPONSE);
    next_response();
    fill(7);
    write_at(COMMIT, 16, 0);
    power_up();
}

/* Segment 0 counts, segment 1 is of model 3, segments 2 and 3 are hosts', and a public one follows. */
static void segments(void)
{
    fill(0);
    data[7] = 1;
    write_at(SEGMENT, 8, 0);
    write_at(SEGMENT, 8, DRINGOLETH_REPEATED);
    write_at(SEGMENT + 4, 8, DRINGOLETH_NOT_NEXT);
    write_at(SEGMENT + 4096, 32, 0);
    advance(1, 0);
    write_at(SEGMENT + 4096, 32, 0);
    advance(1, 0);
    advance(1, DRINGOLETH_OTHER_MODEL);
    fill(9);
    write_at(SEGMENT + 2 * 4096, 32, 0);
    write_at(SEGMENT + 3 * 4096, 1, 0);
    insert(2, 0);
    insert(3, DRINGOLETH_BAD_INSERTION);
    fill(10);
    insert(3, 0);
    read_at(SEGMENT + 2 * 4096 + SLOT, 32, 0);
    read_at(SEGMENT + 2 * 4096, 32, DRINGOLETH_FORBIDDEN);
    write_at(SEGMENT + 4 * 4096, 32, 0);
    memcpy(data, tag[0] + UNIT, 32);
    data[31] = 1;
    write_at(UNIT, 32, 0);
    memcpy(data, tag[0] + UNIT + 64, 32);
    write_at(UNIT + 64, 32, DRINGOLETH_BAD_EDIT);
}

static void reads(void)
{
    static const struct {
        size_t address;
        uint8_t due;
    } places[] = {{0, 0},
                  {16, DRINGOLETH_NEVER_TAKEN},
                  {READ, DRINGOLETH_NEVER_TAKEN},
                  {4096, DRINGOLETH_NEVER_TAKEN},
                  {8192, 0},
                  {UNIT, 0},
                  {UNIT + 32 * SEGMENTS, DRINGOLETH_NEVER_TAKEN},
                  {SEGMENT, 0},
                  {SEGMENT + 4096, 0},
                  {SEGMENT + 4096 * SEGMENTS, 0},
                  {TAG_BYTES, DRINGOLETH_OUTSIDE}};

    for (size_t i = 0; i < sizeof places / sizeof *places; i++)
        for (size_t bytes = 1; bytes <= 16; bytes = bytes == 1 ? 8 : 2 * bytes)
            read_at(places[i].address, bytes, places[i].due);
}

static void cipher(void)
{
    static const size_t lengths[] = {1, 2, 3, 4, 5, 52, 1024, 1025};

    for (size_t i = 0; i < sizeof lengths / sizeof *lengths; i++) {
        count = lengths[i];
        uint8_t due = count < 2 || count > 1024 ? XXTEA_C_WORD_COUNT : XXTEA_C_DONE;

        measure(ENCIPHER, due);
        measure(DECIPHER, due);
    }
}

static void make_tag(uint8_t *t)
{
    static const uint8_t units[SEGMENTS][2] = {{0xA1, 2}, {0x21, 3}, {0x21, 4}, {0x21, 4}};

    t[1] = SEGMENTS, t[3] = 1;
    for (size_t k = 0; k < SEGMENTS; k++)
        memcpy(t + UNIT + 32 * k, units[k], 2);
}

int main(void)
{
    int status = 0;

    make_tag(tag[0]);
    make_tag(tag[1]);
    measure(NOTHING, 0);
    power_up();
    registers();
    segments();
    reads();
    cipher();
    for (int i = POWER_UP; i < FUNCTIONS; i++) {
        size_t allowed = i < ENCIPHER ? DRINGOLETH_STACK_BYTES : XXTEA_C_STACK_BYTES;
        size_t needed = most[i] - most[NOTHING] + sizeof(void *);

        printf("%s: %zu bytes of stack, at most %zu\n", names[i], needed, allowed);
        if (needed > allowed)
            status = 1;
    }
    return status;
}
