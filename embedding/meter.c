/* A meter that answers at its plug: it is made, given two registers and a clock, and hears four frames of a Verification client
 * that links up and asks without being associated. Every number that a call answers is printed, and the rows as the owner finds
 * them in the state. */
#include "birlimock.h"

#include <stdio.h>

static uint8_t state[BIRLIMOCK_STATE_SIZE]; /* the whole meter: keep it wherever it survives */
static uint8_t reply[BIRLIMOCK_REPLY_ROOM];

/* Keys belong in a secure element, and a challenge is drawn anew for each frame; here they are constants. */
static const uint8_t guk[BIRLIMOCK_KEY_SIZE] = {0x00, 0x01, 0x02, 0x03, 0x04, 0x05, 0x06, 0x07, 0x08, 0x09, 0x0A, 0x0B, 0x0C, 0x0D, 0x0E, 0x0F};
static const uint8_t ak[BIRLIMOCK_KEY_SIZE] = {0xD0, 0xD1, 0xD2, 0xD3, 0xD4, 0xD5, 0xD6, 0xD7, 0xD8, 0xD9, 0xDA, 0xDB, 0xDC, 0xDD, 0xDE, 0xDF};
static const uint8_t challenge[BIRLIMOCK_CHALLENGE_SIZE] = {0x50, 0x36, 0x77, 0x52, 0x4A, 0x32, 0x31, 0x46};

/* Prints what an owner's call answered. */
static void owner(const char *call, uint8_t number)
{
    printf("%-24s %u\n", call, number);
}

/* A number of so many bytes, as it stands in the state: high byte first. */
static unsigned long number_at(const uint8_t *bytes, size_t count)
{
    unsigned long number = 0;
    for (size_t i = 0; i < count; i++)
        number = number << 8 | bytes[i];
    return number;
}

/* Prints the rows, the newest first, each with its first cell. */
static void rows(void)
{
    unsigned long count = number_at(state + BIRLIMOCK_AT_ROW_COUNT, 8);
    for (unsigned long i = 0; i < count; i++) {
        const uint8_t *row = state + BIRLIMOCK_AT_ROW(i);
        const uint8_t *clock = row + BIRLIMOCK_IN_ROW_CLOCK;
        printf("row of record number %-3lu %02u:%02u:%02u, %lu\n", number_at(row + BIRLIMOCK_IN_ROW_NUMBER, 2), clock[5], clock[6],
               clock[7], number_at(row + BIRLIMOCK_IN_ROW_CELL(0), 4));
    }
}

/* Hears a frame, and prints the number and what goes out. */
static void hear(const char *what, const uint8_t *frame, size_t length)
{
    size_t sent;
    uint8_t number = birlimock_receive(state, sizeof state, frame, length, guk, sizeof guk, ak, sizeof ak,
                                       challenge, sizeof challenge, reply, sizeof reply, &sent);
    printf("%-24s %u ", what, number);
    for (size_t i = 0; i < sent; i++)
        printf(" %02X", reply[i]);
    printf("%s\n", sent == 0 ? " nothing goes out" : "");
}

int main(void)
{
    if (birlimock_version() != BIRLIMOCK_VERSION || birlimock_state_size() != BIRLIMOCK_STATE_SIZE) {
        fprintf(stderr, "this header belongs to another version of the library\n");
        return 1;
    }

    /* name, right, scaler, unit, value: the energy drawn, which H may read, and the energy fed in, which H may not */
    static const uint8_t registers[2 * BIRLIMOCK_REGISTER_SIZE] = {
        1, 0, 1, 8, 0, 255, 1, 0x00, 0x1E, 0x00, 0x01, 0xE2, 0x40,
        1, 0, 2, 8, 0, 255, 0, 0x00, 0x1E, 0x00, 0x00, 0x00, 0x07};
    static const uint8_t columns[BIRLIMOCK_NAME_SIZE] = {1, 0, 1, 8, 0, 255};
    static const uint8_t quarter[BIRLIMOCK_CLOCK_SIZE] = {0x07, 0xEA, 10, 25, 0xFF, 2, 30, 0, 0xFF, 0x80, 0x00, 0x00};
    static const uint8_t no_clock[BIRLIMOCK_CLOCK_SIZE] = {0x07, 0xEA, 13, 25, 0xFF, 2, 30, 0, 0xFF, 0x80, 0x00, 0x00};

    owner("new meter", birlimock_new(state, sizeof state, (const uint8_t *)"TPC1070201000001", 16,
                                     (const uint8_t *)"MMM\x00\x00\xBC\x61\x4E", 8,
                                     (const uint8_t *)"VER\0\0\0\0", 8, (const uint8_t *)"HAN\0\0\0\0", 8));
    owner("registers", birlimock_give_registers(state, sizeof state, registers, sizeof registers));
    owner("columns", birlimock_set_columns(state, sizeof state, columns, sizeof columns));
    owner("period, 900 s", birlimock_set_period(state, sizeof state, 900));
    owner("tick, 02:30:00", birlimock_tick(state, sizeof state, quarter, sizeof quarter));
    owner("value", birlimock_set_value(state, sizeof state, columns, sizeof columns, 123500));
    owner("tick, 02:30:00 again", birlimock_tick(state, sizeof state, quarter, sizeof quarter));
    owner("tick in a 13th month", birlimock_tick(state, sizeof state, no_clock, sizeof no_clock));
    owner("tick, a byte short", birlimock_tick(state, sizeof state, quarter, sizeof quarter - 1));
    owner("state, a byte short", birlimock_power_up(state, sizeof state - 1));
    rows();

    static const uint8_t link_up[] = {0x7E, 0xA0, 0x07, 0x03, 0x21, 0x93, 0x0F, 0x01, 0x7E};
    static const uint8_t get[] = {0x7E, 0xA0, 0x19, 0x03, 0x21, 0x13, 0xE4, 0xE8, 0xE6, 0xE6, 0x00, 0xC0, 0x01, 0xC1,
                                  0x00, 0x01, 0x00, 0x00, 0x2A, 0x00, 0x00, 0xFF, 0x02, 0x00, 0x12, 0x80, 0x7E};
    static const uint8_t link_down[] = {0x7E, 0xA0, 0x07, 0x03, 0x21, 0x53, 0x03, 0xC7, 0x7E};

    hear("V links up", link_up, sizeof link_up);
    hear("GET, not associated", get, sizeof get);
    hear("a frame cut short", link_up, sizeof link_up - 1);
    hear("V ends its link", link_down, sizeof link_down);
    return 0;
}
