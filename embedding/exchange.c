/* Runs an exchange from standard input over the static library, and compares: each line is 'name: frame > number reply', the
 * frames in hex with spaces, the reply '-' where nothing goes out. Prints one line for each call; ends with 1 at a difference,
 * at a line of another form, and where there is no line. */
#include "birlimock.h"

#include <stdio.h>
#include <stdlib.h>
#include <string.h>

static uint8_t state[BIRLIMOCK_STATE_SIZE];

/* Reads hex bytes with spaces up to another character; gives how many. */
static size_t hex(const char **text, uint8_t *out, size_t room)
{
    size_t n = 0;
    for (;;) {
        unsigned byte;
        int used = 0;
        if (n == room || sscanf(*text, " %2x%n", &byte, &used) != 1)
            return n;
        out[n++] = (uint8_t)byte;
        *text += used;
    }
}

/* One line: whether the answer is the expected one, with every other byte of the reply room as it was. */
static int run(const char *line)
{
    static const uint8_t guk[16] = {0, 1, 2, 3, 4, 5, 6, 7, 8, 9, 10, 11, 12, 13, 14, 15};
    static const uint8_t ak[16] = {0xD0, 0xD1, 0xD2, 0xD3, 0xD4, 0xD5, 0xD6, 0xD7, 0xD8, 0xD9, 0xDA, 0xDB, 0xDC, 0xDD, 0xDE, 0xDF};
    static const uint8_t challenge[8] = {0x50, 0x36, 0x77, 0x52, 0x4A, 0x32, 0x31, 0x46};
    uint8_t frame[800], expected[BIRLIMOCK_REPLY_ROOM], reply[BIRLIMOCK_REPLY_ROOM];
    memset(expected, 0xA5, sizeof expected);
    memset(reply, 0xA5, sizeof reply);

    const char *text = strchr(line, ':');
    if (text == NULL)
        return 0;
    int name = (int)(text - line);
    text++;
    size_t length = hex(&text, frame, sizeof frame);
    text = strchr(text, '>');
    if (text == NULL)
        return 0;
    char *after;
    unsigned long number = strtoul(text + 1, &after, 10);
    text = after;
    size_t size = hex(&text, expected, sizeof expected);
    if (size == 0 && strncmp(text, " -", 2) == 0)
        text += 2;
    else if (size == 0)
        return 0;
    if (strcmp(text, "\n") != 0 && *text != 0)
        return 0;

    size_t sent;
    uint8_t answered = birlimock_receive(state, sizeof state, frame, length, guk, sizeof guk, ak, sizeof ak,
                                         challenge, sizeof challenge, reply, sizeof reply, &sent);
    int same = answered == number && sent == size && memcmp(reply, expected, sizeof reply) == 0;
    printf("%.*s: %u, %zu bytes: %s\n", name, line, answered, sent, same ? "as expected" : "differs");
    return same;
}

int main(void)
{
    char line[4096];
    int good = birlimock_new(state, sizeof state, (const uint8_t *)"TPC1070201000001", 16,
                             (const uint8_t *)"MMM\x00\x00\xBC\x61\x4E", 8,
                             (const uint8_t *)"VER\0\0\0\0", 8, (const uint8_t *)"HAN\0\0\0\0", 8) == 0;
    int lines = 0;
    while (fgets(line, sizeof line, stdin) != NULL) {
        lines++;
        if (!run(line)) {
            printf("line %d is not as expected, or of another form\n", lines);
            good = 0;
        }
    }
    return good && lines > 0 ? 0 : 1;
}
