/* What the library's calls cost, for bench/run: bench [stack]
 * The scenes are those of bench/calls: the image of a meter, the calls that are measured, the image afterwards; bench/answers has
 * what each call has to answer. Both are made by the second meter of tests/ (tests/cases/bench.txt). A scene is run once, and number,
 * reply, the rest of the reply room and the state are held to what they have to be: a difference ends the program. Then it is run
 * between two marks for callgrind, which counts its instructions. With WITH_MBEDTLS, mbedTLS does the same work as the library's
 * sealing and opening, and is measured beside it. With the argument "stack" the program prints instead how many bytes of stack each
 * scene touches. */
#include "birlimock.h"

#include <pthread.h>
#include <stdio.h>
#include <stdlib.h>
#include <string.h>
#include <valgrind/callgrind.h>

enum { MOST_CALLS = 8, MOST_SCENES = 16, MOST_BYTES = 2048, UNUSED = 0xA5 };

typedef struct {
    uint8_t at[MOST_BYTES];
    size_t size;
} Bytes;

/* A tick has its clock in `bytes`, a frame call the frame. */
typedef struct {
    int is_tick;
    Bytes guk, ak, challenge, bytes;
    size_t room;
    unsigned number;
    Bytes reply;
} Call;

typedef struct {
    char name[32];
    Bytes before, after;
    Call calls[MOST_CALLS];
    size_t count;
} Scene;

static Scene scenes[MOST_SCENES];
static size_t scene_count;

static void expect(int good, const char *what, const char *where)
{
    if (!good) {
        fprintf(stderr, "bench: %s of %s is not as expected\n", what, where);
        exit(1);
    }
}

/* Reading bench/calls and bench/answers, in the form of docs/SCRIPT.md. */

static void read_bytes(const char *field, Bytes *to)
{
    size_t digits = strcmp(field, "-") == 0 ? 0 : strlen(field);
    expect(digits % 2 == 0 && digits / 2 <= sizeof to->at, "a byte string", field);
    to->size = digits / 2;
    for (size_t i = 0; i < to->size; i++) {
        unsigned byte;
        expect(sscanf(field + 2 * i, "%2x", &byte) == 1, "a byte", field);
        to->at[i] = (uint8_t)byte;
    }
}

/* The next line that is no comment, without its line feed; null at the end. Each heading begins a scene. */
static char *next_line(FILE *file, char *line, size_t room)
{
    while (fgets(line, (int)room, file) != NULL) {
        line[strcspn(line, "\n")] = 0;
        if (strncmp(line, "# == ", 5) == 0) {
            expect(scene_count < MOST_SCENES, "the number", "scenes");
            snprintf(scenes[scene_count++].name, sizeof scenes[0].name, "%s", line + 5);
        } else if (line[0] != 0 && line[0] != '#') {
            return line;
        }
    }
    return NULL;
}

static void read_answer(FILE *answers, unsigned *number, Bytes *reply)
{
    static char line[2 * MOST_BYTES + 16];
    char *text = next_line(answers, line, sizeof line);
    expect(text != NULL, "an answer", "bench/answers");
    char *field = strchr(text, ' ');
    expect(field != NULL, "an answer", text);
    *number = (unsigned)strtoul(text, NULL, 10);
    read_bytes(field + 1, reply);
}

static void read_call(char *line, FILE *answers, Scene *scene)
{
    char *fields[6] = {NULL};
    for (size_t i = 0; i < 6; i++)
        fields[i] = strtok(i == 0 ? line : NULL, " ");
    unsigned number;
    Bytes answer;
    read_answer(answers, &number, &answer);
    if (strcmp(fields[0], "image") == 0) {
        expect(fields[1] != NULL, "an image", scene->name);
        read_bytes(fields[1], &scene->before);
    } else if (strcmp(fields[0], "dump") == 0) {
        scene->after = answer;
    } else {
        expect(scene->count < MOST_CALLS, "the number of calls", scene->name);
        Call *call = &scene->calls[scene->count++];
        call->is_tick = strcmp(fields[0], "tick") == 0;
        call->number = number;
        call->reply = answer;
        expect(call->is_tick ? fields[1] != NULL : strcmp(fields[0], "frame") == 0 && fields[5] != NULL, "a call", scene->name);
        read_bytes(call->is_tick ? fields[1] : fields[5], &call->bytes);
        if (!call->is_tick) {
            read_bytes(fields[1], &call->guk);
            read_bytes(fields[2], &call->ak);
            read_bytes(fields[3], &call->challenge);
            call->room = strtoul(fields[4], NULL, 10);
        }
    }
}

static void read_scenes(void)
{
    static char line[4 * MOST_BYTES];
    FILE *calls = fopen("bench/calls", "r"), *answers = fopen("bench/answers", "r");
    expect(calls != NULL && answers != NULL, "a file", "bench/calls, bench/answers");
    while (next_line(calls, line, sizeof line) != NULL) {
        expect(scene_count > 0, "the first heading", "bench/calls");
        read_call(line, answers, &scenes[scene_count - 1]);
    }
    fclose(calls);
    fclose(answers);
}

/* A scene: prepared, run, looked at. */

static uint8_t state[BIRLIMOCK_STATE_SIZE];
static const Scene *scene;
static struct {
    uint8_t number;
    size_t sent;
    uint8_t reply[MOST_BYTES];
} outcomes[MOST_CALLS];

static void ready_scene(const Scene *s)
{
    expect(s->before.size == sizeof state && s->after.size == sizeof state && s->count > 0, "an image", s->name);
    scene = s;
    memcpy(state, s->before.at, sizeof state);
    memset(outcomes, UNUSED, sizeof outcomes);
}

static __attribute__((noinline)) void run_scene(void)
{
    for (size_t i = 0; i < scene->count; i++) {
        const Call *c = &scene->calls[i];
        if (c->is_tick)
            outcomes[i].number = birlimock_tick(state, sizeof state, c->bytes.at, c->bytes.size);
        else
            outcomes[i].number = birlimock_receive(state, sizeof state, c->bytes.at, c->bytes.size, c->guk.at, c->guk.size,
                                                   c->ak.at, c->ak.size, c->challenge.at, c->challenge.size,
                                                   outcomes[i].reply, c->room, &outcomes[i].sent);
    }
}

static void see_scene(void)
{
    for (size_t i = 0; i < scene->count; i++) {
        const Call *c = &scene->calls[i];
        size_t sent = c->is_tick ? 0 : outcomes[i].sent;
        expect(outcomes[i].number == c->number, "the number", scene->name);
        expect(sent == c->reply.size && memcmp(outcomes[i].reply, c->reply.at, sent) == 0, "the reply", scene->name);
        for (size_t k = sent; k < sizeof outcomes[i].reply; k++)
            expect(outcomes[i].reply[k] == UNUSED, "the rest of the reply room", scene->name);
    }
    expect(memcmp(state, scene->after.at, sizeof state) == 0, "the state afterwards", scene->name);
}

#ifdef WITH_MBEDTLS
#include <mbedtls/gcm.h>

/* mbedTLS asks this before it uses instructions of the processor: its portable code is what is compared. */
static unsigned asked;

int mbedtls_aesni_has_support(unsigned int what)
{
    (void)what;
    asked++;
    return 0;
}

/* Fifteen rows of six columns are an answer of 741 bytes: 47 blocks of the cipher, as the longest text of 744 bytes has. */
enum { ROWS_TEXT = 741, LONGEST_TEXT = 744 };

static const uint8_t key[16] = {0, 17, 34, 51, 68, 85, 102, 119, 136, 153, 170, 187, 204, 221, 238, 255};
static const uint8_t nonce[12] = {'H', 'A', 'N', 0, 0, 0, 0, 0, 0, 0, 0, 203};
static const uint8_t data[17] = {0x30, 0xD0, 0xD1, 0xD2, 0xD3, 0xD4, 0xD5, 0xD6, 0xD7, 0xD8, 0xD9, 0xDA, 0xDB, 0xDC, 0xDD, 0xDE, 0xDF};
static uint8_t text[LONGEST_TEXT], cipher[LONGEST_TEXT], opened[LONGEST_TEXT], tag[12];

static void seal(size_t n, uint8_t *out)
{
    mbedtls_gcm_context gcm;
    mbedtls_gcm_init(&gcm);
    int bad = mbedtls_gcm_setkey(&gcm, MBEDTLS_CIPHER_ID_AES, key, 128);
    bad |= mbedtls_gcm_crypt_and_tag(&gcm, MBEDTLS_GCM_ENCRYPT, n, nonce, sizeof nonce, data, sizeof data, text, out, sizeof tag, tag);
    expect(bad == 0, "the sealing", "mbedTLS");
    mbedtls_gcm_free(&gcm);
}

static __attribute__((noinline)) void run_seal(void)
{
    seal(ROWS_TEXT, opened);
}

static __attribute__((noinline)) void run_open(void)
{
    mbedtls_gcm_context gcm;
    mbedtls_gcm_init(&gcm);
    mbedtls_gcm_setkey(&gcm, MBEDTLS_CIPHER_ID_AES, key, 128);
    int bad = mbedtls_gcm_auth_decrypt(&gcm, sizeof cipher, nonce, sizeof nonce, data, sizeof data, tag, sizeof tag, cipher, opened);
    expect(bad == 0, "the opening", "mbedTLS");
    mbedtls_gcm_free(&gcm);
}
#endif

/* The stack that a run touches, on a thread whose stack is painted before. */
enum { STACK = 1 << 20 };
static uint8_t stack[STACK] __attribute__((aligned(4096)));

static void *on_thread(void *run)
{
    (*(void (**)(void))run)();
    return NULL;
}

static size_t touched(void (*run)(void))
{
    pthread_attr_t attributes;
    pthread_t thread;
    memset(stack, 0xA7, sizeof stack);
    pthread_attr_init(&attributes);
    pthread_attr_setstack(&attributes, stack, sizeof stack);
    expect(pthread_create(&thread, &attributes, on_thread, &run) == 0, "a thread", "the system");
    pthread_join(thread, NULL);
    size_t free_bytes = 0;
    while (free_bytes < sizeof stack && stack[free_bytes] == 0xA7)
        free_bytes++;
    return sizeof stack - free_bytes;
}

static void nothing(void)
{
}

static void measure(const char *name, void (*run)(void), int by_stack)
{
    if (by_stack) {
        size_t base = touched(nothing);
        printf("%s %zu\n", name, touched(run) - base);
    } else {
        CALLGRIND_ZERO_STATS;
        run();
        CALLGRIND_DUMP_STATS_AT(name);
    }
}

int main(int count, char **words)
{
    int by_stack = count > 1 && strcmp(words[1], "stack") == 0;
    read_scenes();
    for (size_t i = 0; i < scene_count; i++) {
        ready_scene(&scenes[i]);
        run_scene();
        see_scene();
        ready_scene(&scenes[i]);
        measure(scenes[i].name, run_scene, by_stack);
    }
#ifdef WITH_MBEDTLS
    memset(text, 0x55, sizeof text);
    run_seal();
    measure("seal", run_seal, by_stack);
    seal(sizeof text, cipher);
    run_open();
    measure("open", run_open, by_stack);
    expect(memcmp(opened, text, sizeof text) == 0, "what was opened", "mbedTLS");
    expect(asked > 0, "the question about the processor", "mbedTLS");
#endif
    return 0;
}
