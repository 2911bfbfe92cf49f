/* Poldrisk for C: a bench that plays a UHF reader module with a crate of Gen2 tags in front of it, and
 * lists every failure until it is acknowledged.
 *
 * Link with target/staticlib/libembed.a, which `ci/library` writes. The library keeps
 * nothing between calls, allocates nothing and calls nothing; it may be used from any thread, as
 * long as no two calls are lent the same memory at the same time.
 */
#ifndef POLDRISK_H
#define POLDRISK_H

#include <stddef.h>
#include <stdint.h>

#ifdef __cplusplus
extern "C" {
#endif

/* The thirteen numbers of a bench's state. A bench starts with NEXT at 16 and all others at 0. */
enum {
    POLDRISK_CURSOR = 0,              /* where the next call looks at the input */
    POLDRISK_GOOD = 1,                /* good answers */
    POLDRISK_ERROR = 2,               /* error answers: frames with code FF */
    POLDRISK_DROPPED_NO_HEADER = 3,   /* dropped bytes, one count for each reason in their order */
    POLDRISK_DROPPED_WRONG_TYPE = 4,
    POLDRISK_DROPPED_TOO_LONG = 5,
    POLDRISK_DROPPED_WRONG_CHECK = 6,
    POLDRISK_DROPPED_WRONG_END = 7,
    POLDRISK_LENGTH = 8,              /* written by a call: the length of its answer frame, else 0 */
    POLDRISK_REASON = 9,              /* written by a call: why it dropped a byte, else 0 */
    POLDRISK_NEXT = 10,               /* the first tag that may still be handed out; 16 for none */
    POLDRISK_SELECTED = 11,           /* how many of the 39 bytes are the selection; 0 for none */
    POLDRISK_HELD = 12,               /* how many records the list of failures holds */
    POLDRISK_STATE_LENGTH = 13
};

/* The three numbers of a record in the list of failures. No error byte is 0, so that ERROR tells the
 * two kinds of record apart. */
enum {
    POLDRISK_RECORD_CURSOR = 0, /* the cursor before the call */
    POLDRISK_RECORD_CAUSE = 1,  /* the command's code, or the reason of a dropped byte */
    POLDRISK_RECORD_ERROR = 2,  /* the error byte of the answer, or 0 for a dropped byte */
    POLDRISK_RECORD_LENGTH = 3
};

/* Why a byte was dropped. They are tried in this order, and the first that holds is the reason: with
 * check and end both wrong it is 4. */
enum {
    POLDRISK_REASON_NO_HEADER = 1,   /* the byte is not BB */
    POLDRISK_REASON_WRONG_TYPE = 2,  /* the byte behind the BB is there and is not 00 */
    POLDRISK_REASON_TOO_LONG = 3,    /* five bytes are there, and PL is above 80 */
    POLDRISK_REASON_WRONG_CHECK = 4, /* the frame is all there, and its check is not the sum */
    POLDRISK_REASON_WRONG_END = 5    /* the frame is all there, and its last byte is not 7E */
};

/* An answer frame has at most this many bytes, and no shorter output is accepted. */
#define POLDRISK_OUTPUT_LENGTH 136
/* The room for a selection: the parameters of a Set Select, 7 bytes and a mask of at most 32. */
#define POLDRISK_SELECTION_LENGTH 39
/* A crate holds up to this many tags, numbered from 0. */
#define POLDRISK_MOST_TAGS 16
/* NEXT where no tag is still to be handed out. */
#define POLDRISK_NONE_TO_HAND_OUT 16

/* The answer numbers: 15 and 16 of an acknowledge alone, 20 and 23 of both functions, the others of a
 * call alone. */
enum {
    POLDRISK_ANSWERED = 0,     /* a command was accepted, or the next tag of an inventory handed out:
                                * the answer frame stands at the start of the output */
    POLDRISK_AT_END = 1,       /* the cursor is at the end of the input */
    POLDRISK_INCOMPLETE = 2,   /* the frame at the cursor is not complete */
    POLDRISK_BYTE_DROPPED = 3, /* the byte at the cursor was dropped, for the reason at POLDRISK_REASON */
    POLDRISK_PAST_END = 10,    /* the cursor is past the end of the input */
    POLDRISK_BAD_CRATE = 11,   /* the crate breaks a rule: see "A good crate" */
    POLDRISK_SHORT_OUTPUT = 12, /* the output is shorter than 136 bytes */
    POLDRISK_FULL_TALLY = 13,  /* one of the seven counts is at 4,294,967,295 */
    POLDRISK_FULL_LIST = 14,   /* the list holds as many records as it has room for: some are to be
                                * acknowledged first; or HELD says more than that, and is wrong */
    POLDRISK_NOT_ACKNOWLEDGED = 15, /* more records than are held, or more held than there is room for */
    POLDRISK_ACKNOWLEDGED = 16, /* the first records were taken off the list */
    POLDRISK_BAD_STATE_LENGTH = 20, /* state_length is not 13 */
    POLDRISK_BAD_COUNT = 21,   /* one of the seven counts is above 4,294,967,295 */
    POLDRISK_BAD_PLACES = 22,  /* places_length is odd, or one of the first 32 numbers is above
                                * 4,294,967,295 */
    POLDRISK_BAD_RECORDS_LENGTH = 23 /* records_length is no multiple of 3 */
};

/* One call: hands out the next tag of an inventory, or else looks at the input from the cursor and
 * takes one command or drops one byte.
 *
 * The crate. Each tag has its image in the memory; places has two numbers for each tag, in the order
 * of the tags: where the image starts, and how many bytes it has. The selection is the parameters of
 * the last Set Select that was taken, of which POLDRISK_SELECTED says how many they are. The bytes
 * behind them are not looked at.
 *
 * A good crate has at most 16 tags, or none; no place leaves the memory or overlaps another, in
 * whatever order they lie; each image keeps the rules of a good image, its EPC word 0 the CRC-16 of
 * PC and EPC; and the selection is empty or one that Set Select takes, so at most 39 bytes.
 *
 * The list of failures has room for records_length / 3 records, of which the first POLDRISK_HELD are
 * held. Each error answer and each dropped byte adds exactly one, behind those held. What stands
 * behind them is not looked at, and what the functions leave there is free where they say so.
 *
 * Any bytes, places, selection, records, cursor and counts will do, and the call always returns one of
 * the numbers above. It tests in this order: 20, 21, 22, 23, 10, 11, 12, 13, 14. The list is full whenever
 * HELD is not below the room, so always where there is room for none. Then, if a tag from
 * POLDRISK_NEXT on is present and matches the selection, the lowest of these is handed out and the
 * input is not looked at, not even whether something is left of it. Else a command is looked for.
 *
 * - 0, a tag handed out: its notification is written to the start of the output, the good count
 *   goes up by one, and NEXT is the tag's number plus 1. The cursor stays.
 * - 0, a command accepted: it is carried out, its answer frame is written to the start of the
 *   output, the cursor moves over it, and the good or the error count goes up by one. An inventory
 *   hands out the first tag so, and NEXT is its number plus 1; with every other command, and an
 *   inventory that finds no tag, NEXT is 16. A Set Select that is taken writes its parameters to the
 *   front of the selection and their number to SELECTED; the bytes behind them stay. Read,
 *   Write, Lock and Kill go to the lowest tag that is present and matches, and no byte outside its
 *   place changes. With an error answer the list has one more record: the cursor before the call, the
 *   command's code, the error byte.
 * - 3: the cursor and the dropped count of the reason go up by one, and the list has one more record:
 *   the cursor before the call, the reason, 0. All else stays.
 * - 1, 2, 10, 11, 12, 13, 14: all stays.
 * - 20, 21, 22, 23: nothing changes, length and reason included.
 *
 * A call that adds a record leaves those before it, and what it leaves behind it is free; every other
 * call leaves all of the list as it is. Under 0 the bytes of the output behind the frame stay. But for
 * 20 to 23 a call writes length and reason: the length of the answer frame under 0, the reason under 3,
 * and 0 otherwise. What stands there before the call is not looked at. A NEXT that is no tag's number
 * means none.
 *
 * What the caller owes, since no test can show it: each pointer is that of as many readable (and,
 * but for input and places, writable) elements as its length says, the selection that of 39 bytes;
 * none is null even where the length is 0; and none of what a call may write, which is memory, output,
 * selection, records and state, overlaps any other of the seven. Places, records and state are aligned
 * as uint64_t is.
 */
uint64_t poldrisk_call(const uint8_t *input, size_t input_length,
                       uint8_t *memory, size_t memory_length,
                       uint8_t *output, size_t output_length,
                       const uint64_t *places, size_t places_length,
                       uint8_t *selection /* POLDRISK_SELECTION_LENGTH bytes */,
                       uint64_t *records, size_t records_length,
                       uint64_t *state, size_t state_length);

/* Takes the first count records off the list, once somebody has signed for them.
 *
 * It tests in this order: 20, 23, 15. It looks at nothing else: a list can be acknowledged whatever a
 * call would be refused for.
 *
 * - 16: the first count records are gone, and the rest stand in front in their order; HELD is their
 *   number, and what stands behind them is free. No other number of the state changes, length and
 *   reason of the last call included. A count of 0 takes none.
 * - 15: count is above HELD, or HELD is above the room; then a count of 0 is refused too. Nothing
 *   changes, nor does it under 20 and 23.
 *
 * What the caller owes: as for a call.
 */
uint64_t poldrisk_acknowledge(uint64_t *records, size_t records_length,
                              uint64_t *state, size_t state_length, uint64_t count);

#ifdef __cplusplus
}
#endif

#endif
