/* A crate of three tags, the commands of a line's acceptance, what the bench answers, and the list of
 * failures to sign: it has room for three, and is printed and acknowledged when it is full and at the end.
 *
 *     ci/library
 *     cc -Iinclude examples/sample.c target/staticlib/libembed.a -o target/sample && target/sample
 */
#include <poldrisk.h>
#include <stdio.h>
#include <string.h>

enum { TAGS = 3, TAG_LENGTH = 86, RECORDS_LENGTH = 3 * POLDRISK_RECORD_LENGTH };

/* Header, Reserved, EPC, TID and User of the sample tag; the rest of User is zeros. */
static const uint8_t sample_tag[TAG_LENGTH] = {
    0, 1, 0, 86, 0, 4, 0, 24, 0, 8, 0, 32, 0, 3, 0, 48, 0, 16, 0, 54, 0, 0, 0, 0xC9,
    0x00, 0x00, 0xFF, 0xFF, 0x00, 0x00, 0xFF, 0xFF,
    0x3A, 0x76, 0x34, 0x00, 0x30, 0x75, 0x1F, 0xEB, 0x70, 0x5C, 0x59, 0x04, 0xE3, 0xD5, 0x0D, 0x70,
    0, 0, 0, 0, 0, 0,
    0x12, 0x34, 0x56, 0x78,
};

/* The tags differ in the EPC's last byte, and so in the CRC word before the PC. The last is the sample tag. */
static const uint8_t own_bytes[TAGS][3] = {{0x71, 0x2A, 0x57}, {0x72, 0x1A, 0x34}, {0x70, 0x3A, 0x76}};

static const uint64_t places[2 * TAGS] = {0, TAG_LENGTH, TAG_LENGTH, TAG_LENGTH, 2 * TAG_LENGTH, TAG_LENGTH};

static const uint8_t input[] = {
    /* noise, and an inventory: all three tags */
    0x41, 0xBB, 0x00, 0x22, 0x00, 0x00, 0x22, 0x7E,
    /* Set Select for the sample tag's EPC, as published */
    0xBB, 0x00, 0x0C, 0x00, 0x13, 0x01, 0x00, 0x00, 0x00, 0x20, 0x60, 0x00,
    0x30, 0x75, 0x1F, 0xEB, 0x70, 0x5C, 0x59, 0x04, 0xE3, 0xD5, 0x0D, 0x70, 0xAD, 0x7E,
    /* Write, Read, Lock and Kill: at that tag, the third */
    0xBB, 0x00, 0x49, 0x00, 0x0D, 0x00, 0x00, 0xFF, 0xFF, 0x03, 0x00, 0x00, 0x00, 0x02,
    0x12, 0x34, 0x56, 0x78, 0x6D, 0x7E,
    0xBB, 0x00, 0x39, 0x00, 0x09, 0x00, 0x00, 0xFF, 0xFF, 0x03, 0x00, 0x00, 0x00, 0x02, 0x45, 0x7E,
    0xBB, 0x00, 0x82, 0x00, 0x07, 0x00, 0x00, 0xFF, 0xFF, 0x02, 0x00, 0x80, 0x09, 0x7E,
    0xBB, 0x00, 0x65, 0x00, 0x04, 0x00, 0x00, 0xFF, 0xFF, 0x67, 0x7E,
    /* the selected tag is killed, so a Read finds no tag (09), and an inventory none (15) */
    0xBB, 0x00, 0x39, 0x00, 0x09, 0x00, 0x00, 0xFF, 0xFF, 0x03, 0x00, 0x00, 0x00, 0x02, 0x45, 0x7E,
    0xBB, 0x00, 0x22, 0x00, 0x00, 0x22, 0x7E,
    /* Set Select with the match turned round: the two others; and one of the Reserved bank (17) */
    0xBB, 0x00, 0x0C, 0x00, 0x13, 0x11, 0x00, 0x00, 0x00, 0x20, 0x60, 0x00,
    0x30, 0x75, 0x1F, 0xEB, 0x70, 0x5C, 0x59, 0x04, 0xE3, 0xD5, 0x0D, 0x70, 0xBD, 0x7E,
    0xBB, 0x00, 0x22, 0x00, 0x00, 0x22, 0x7E,
    0xBB, 0x00, 0x0C, 0x00, 0x07, 0x00, 0x00, 0x00, 0x00, 0x00, 0x00, 0x00, 0x13, 0x7E,
    /* the start of a frame, whose rest is still to come */
    0xBB, 0x00,
};

static void put_tags(uint8_t *memory)
{
    for (int tag = 0; tag < TAGS; tag++) {
        uint8_t *image = memory + places[2 * tag];
        memcpy(image, sample_tag, TAG_LENGTH);
        image[47] = own_bytes[tag][0];
        image[32] = own_bytes[tag][1];
        image[33] = own_bytes[tag][2];
    }
}

static void print_counts(const uint64_t *state)
{
    printf("GOOD %llu ERROR %llu DROPPED", (unsigned long long)state[POLDRISK_GOOD],
           (unsigned long long)state[POLDRISK_ERROR]);
    for (int i = POLDRISK_DROPPED_NO_HEADER; i <= POLDRISK_DROPPED_WRONG_END; i++)
        printf(" %llu", (unsigned long long)state[i]);
    printf(" LEFT %llu\n", (unsigned long long)(sizeof input - state[POLDRISK_CURSOR]));
}

/* Prints the records held, and takes them all off the list. */
static uint64_t sign(uint64_t *records, uint64_t *state)
{
    for (uint64_t i = 0; i < state[POLDRISK_HELD]; i++) {
        const uint64_t *record = records + i * POLDRISK_RECORD_LENGTH;
        unsigned long long at = record[POLDRISK_RECORD_CURSOR];
        if (record[POLDRISK_RECORD_ERROR] == 0)
            printf("SIGNED at %llu: dropped, reason %u\n", at, (unsigned)record[POLDRISK_RECORD_CAUSE]);
        else
            printf("SIGNED at %llu: command %02X, error %02X\n", at, (unsigned)record[POLDRISK_RECORD_CAUSE],
                   (unsigned)record[POLDRISK_RECORD_ERROR]);
    }
    return poldrisk_acknowledge(records, RECORDS_LENGTH, state, POLDRISK_STATE_LENGTH, state[POLDRISK_HELD]);
}

/* Prints what a call came to: the dropped byte, or the answer frame. */
static void print_outcome(uint64_t number, uint64_t at, const uint8_t *output, uint64_t length)
{
    if (number == POLDRISK_BYTE_DROPPED)
        printf("DROP %02X\n", input[at]);
    if (number == POLDRISK_ANSWERED)
        for (uint64_t i = 0; i < length; i++)
            printf("%02X%c", output[i], i + 1 < length ? ' ' : '\n');
}

int main(void)
{
    uint8_t memory[TAGS * TAG_LENGTH];
    uint8_t output[POLDRISK_OUTPUT_LENGTH] = {0};
    uint8_t selection[POLDRISK_SELECTION_LENGTH] = {0};
    uint64_t records[RECORDS_LENGTH] = {0};
    uint64_t state[POLDRISK_STATE_LENGTH] = {[POLDRISK_NEXT] = POLDRISK_NONE_TO_HAND_OUT};
    uint64_t number;
    put_tags(memory);
    do {
        uint64_t at = state[POLDRISK_CURSOR];
        number = poldrisk_call(input, sizeof input, memory, sizeof memory, output, sizeof output, places,
                               2 * TAGS, selection, records, RECORDS_LENGTH, state, POLDRISK_STATE_LENGTH);
        if (number == POLDRISK_FULL_LIST)
            number = sign(records, state);
        else
            print_outcome(number, at, output, state[POLDRISK_LENGTH]);
    } while (number == POLDRISK_ANSWERED || number == POLDRISK_BYTE_DROPPED ||
             number == POLDRISK_ACKNOWLEDGED);
    if (sign(records, state) != POLDRISK_ACKNOWLEDGED)
        return 1;
    print_counts(state);
    /* a complete run ends with the input used up or a frame waiting; any other number was a refusal */
    return number == POLDRISK_INCOMPLETE ? 0 : 1;
}
