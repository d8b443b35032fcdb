/*
 * The access control of the tag: link with libtag_c.a, which `./staticlib tag_c` writes.
 *
 * Every function is proved to meet its contract for every input (crates/tag_c/src/lib.rt; docs/GUARANTEES.md says what
 * that means). Nothing has to be tested before a call: a tag of any length and content, any session, address, count,
 * log and output gets an answer, and no byte is read or written outside of what is lent.
 *
 * What a caller owes is what C cannot say in a type:
 *   - each pointer is to as many bytes as its length says, and not null, also where the length is 0;
 *   - what a function may write (tag, session, output, bytes_read, bytes_written) overlaps nothing else that is lent to
 *     the same call, and nobody else touches what is lent until the call returns.
 *
 * The library keeps nothing between calls, allocates nothing, has no global state, starts no thread and needs memcpy
 * alone. A call needs at most DRINGOLETH_STACK_BYTES of stack. Calls on different tags and sessions may run at the same
 * time. It is built for x86-64 and System V calls.
 *
 * Power that fails within a call is the caller's matter. The library works on memory, and stores in no order that is
 * promised: if a call does not return, some of its bytes may be stored and others not, in the tag and in the session. A
 * caller whose tag lasts keeps a copy until the call has returned.
 */
#ifndef DRINGOLETH_H
#define DRINGOLETH_H

#include <stddef.h>
#include <stdint.h>

#ifdef __cplusplus
extern "C" {
#endif

/*
 * The session: what a powered tag knows beside its memory. It is 54 bytes that the caller owns, in this order:
 *
 *    0   validated read index   (2, most significant byte first)
 *    2   validated write index  (2)
 *    4   validated edit index   (2)
 *    6   name                   (16)
 *   22   ID                     (16)
 *   38   PA: PIN index (2), owner index (2), guard (12)
 *
 * dringoleth_power_up makes it all zeros; call it when the tag gets power. Hand the same 54 bytes to each command after
 * that. Any 54 bytes are a session, and whoever can write them can pretend to have given a PIN: keep them where the host
 * cannot reach.
 */
#define DRINGOLETH_SESSION_BYTES 54

/* The stack that a call needs at most, its arguments included. Measured, over calls and runs of every command: 1,072 by
 * dringoleth_run, 704 by dringoleth_write, 416 and less by the others (bindings/c/stack.c). */
#define DRINGOLETH_STACK_BYTES 1280

/* What a command answers: 0, or the number of the lowest refusal that applies. A refused command changes no byte of
 * tag, session or output, except that DRINGOLETH_WRONG_RESPONSE sets the usage flag, byte 12 of the tag, to 1. */
enum {
    DRINGOLETH_GRANTED = 0,
    DRINGOLETH_UNSOUND = 1,         /* the tag is not sound */
    DRINGOLETH_COUNT = 2,           /* count 0 or above 4,096, or an output shorter than the count */
    DRINGOLETH_OUTSIDE = 3,         /* not inside one place of the map; a segment number too high */
    DRINGOLETH_NEVER_TAKEN = 4,     /* the place never takes such a command */
    DRINGOLETH_MALFORMED = 5,       /* the segment's unit is not well formed */
    DRINGOLETH_FORBIDDEN = 6,       /* RD or WR is clear, the unit is locked, the name is covered, or a model 4 read
                                       touches a slot that it may not */
    DRINGOLETH_OTHER_PIN = 7,       /* the validated PIN index is not the unit's */
    DRINGOLETH_OTHER_NAME = 8,      /* the session's name is not the unit's */
    DRINGOLETH_BAD_REGISTER = 9,    /* a register write that is not 16 bytes, an index in PA that is too high, or a
                                       COMMIT where PA's PIN index is 0 */
    DRINGOLETH_FLAG_USED = 10,      /* this value of the roll-back counter was used already */
    DRINGOLETH_WRONG_RESPONSE = 11, /* the response or the guard is wrong */
    DRINGOLETH_NOT_NEXT = 12,       /* not one aligned slot, or neither the next value nor the one stored */
    DRINGOLETH_BAD_EDIT = 13,       /* the result of the edit is not allowed */
    DRINGOLETH_OTHER_MODEL = 14,    /* another model, or not at the stage that the command is for: for an advance not
                                       model 3 or at its last stage, for an insertion not model 4 at stage 0 */
    DRINGOLETH_UNREADABLE = 15,     /* a log's command of unknown kind, or with too short a body */
    DRINGOLETH_NO_ROOM = 16,        /* no room for the reply to a log's next command */
    DRINGOLETH_REPEATED = 18,       /* the slot or counter holds this value already; 17 is the cipher's */
    DRINGOLETH_BAD_INSERTION = 19   /* the id is zeros or listed, the segment is listed, or the list of hosts is full or
                                       damaged */
};

/* Power-up: the session becomes all zeros. */
void dringoleth_power_up(uint8_t session[DRINGOLETH_SESSION_BYTES]);

/* Reads the count bytes at the address into the first count bytes of the output; the rest of it stays. A refused read
 * leaves the whole output. In a segment of model 4 at stage 1 a read must lie in slots of listed hosts other than the
 * segment's own, and the segment must be listed (6). Returns 0, 1, 2, 3, 4, 5, 6, 7 or 8. */
uint8_t dringoleth_read(const uint8_t *tag, size_t tag_len, const uint8_t session[DRINGOLETH_SESSION_BYTES],
                        size_t address, size_t count, uint8_t *output, size_t output_len);

/* Writes the data at the address: into a segment, a unit (an edit), the roll-back counter or a register. A register
 * write changes the session. The unit of a listed host's segment takes no edit (13). 18 tells that this very value is
 * stored: a write that is sent again was carried out before, by this caller or by another. Nothing was changed, also not
 * the flag.
 * Returns 0, 1, 2, 3, 4, 5, 6, 7, 8, 9, 10, 11, 12, 13 or 18. */
uint8_t dringoleth_write(uint8_t *tag, size_t tag_len, uint8_t session[DRINGOLETH_SESSION_BYTES], size_t address,
                         const uint8_t *data, size_t data_len);

/* Takes a segment of model 3 to its next stage. Returns 0, 1, 3, 5, 7, 8 or 14. */
uint8_t dringoleth_advance(uint8_t *tag, size_t tag_len, const uint8_t session[DRINGOLETH_SESSION_BYTES],
                           size_t segment);

/*
 * Inserts a host, so that it shares a key with each host before it. The host has written its stream into a segment of
 * model 4 at stage 0: 85 slots of 48 bytes, each an id (zeros), a key and a mask of 16. The hosts are listed in the
 * reader ID segment, from 8192 on, in rows of 18 bytes: id (16) and segment number plus one (2). The first id of zeros
 * ends the list.
 *
 * Rows and slots are counted from 0: row i is at 8192 + 18 i, slot j at 48 j from its segment's start, and slot j belongs
 * to row j. With x hosts listed, for each row i below x: the new id is XORed into slot x of that host's segment, the id
 * of row i into slot i of the new host's; the XOR of both masks into both keys; and both masks become zeros. Then the new
 * host gets row x, and its segment is at stage 1: it can be read, and no longer written. A host that reads its slot for
 * another finds the other's id, and the XOR of the key there with the key that it wrote is the same for both: the key
 * that they share.
 *
 * It is refused as a write is for an ill-formed unit (5), the write PIN (7) and the name (8), and then
 *   14  if the segment is not model 4 at stage 0;
 *   19  if the id is zeros or listed, if the segment is listed, if the list has its 85 rows, or if the list is damaged:
 *       two rows with the same id or the same segment field, or a row whose segment is not there or is not a
 *       well-formed model 4 at stage 1.
 * nE does not stop it. The session stays, and the ID in it plays no part. Returns 0, 1, 3, 5, 7, 8, 14 or 19.
 */
uint8_t dringoleth_insert(uint8_t *tag, size_t tag_len, const uint8_t session[DRINGOLETH_SESSION_BYTES],
                          size_t segment, const uint8_t id[16]);

/*
 * Runs the commands of a log, one after another, and puts their replies into the output.
 *
 * A command is a byte of kind and a body: 00 power-up; 11, 12, 13, 14 read 1, 8, 16, 32 bytes (address 4); 21, 22, 23,
 * 24 write as many (address 4, data); 31 advance (segment 2); 32 insert (segment 2, id 16). A reply is 41, 42, 43, 44
 * and the bytes read; 50 for done; 51 and the refusal number. Kinds and codes are hexadecimal; numbers are most
 * significant byte first.
 *
 * Returns what stopped the run: 0 at the end of the log, 15 at a command that it cannot read (the reply 51 0F is
 * written), 16 where the next reply may not find room: 1 + count bytes for a read, 2 for anything else (nothing is
 * written, and the command is not carried out). bytes_read is how much of the log was carried out, without the command
 * that stopped it; bytes_written is how much of the output was written, and the rest of it stays. After a 16 call again
 * with the log from bytes_read on and a new output; 33 bytes of output are room for any reply.
 */
uint8_t dringoleth_run(uint8_t *tag, size_t tag_len, uint8_t session[DRINGOLETH_SESSION_BYTES], const uint8_t *log,
                       size_t log_len, uint8_t *output, size_t output_len, size_t *bytes_read, size_t *bytes_written);

#ifdef __cplusplus
}
#endif

#endif
