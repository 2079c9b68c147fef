/* What the terminal as a library answers to each call, and what it leaves alone: for checks/library. It compiles as C and as C++. */
#include <weighbridge_terminal.h>

#include <inttypes.h>
#include <stdio.h>
#include <stdlib.h>
#include <string.h>

static int failed;

#define IS(what, wanted)                                                                                               \
    do {                                                                                                               \
        intmax_t found_ = (intmax_t)(what), wanted_ = (intmax_t)(wanted);                                              \
        if (found_ != wanted_) {                                                                                       \
            printf("line %d: %s is %" PRIdMAX ", not %" PRIdMAX "\n", __LINE__, #what, found_, wanted_);               \
            failed = 1;                                                                                                \
        }                                                                                                              \
    } while (0)

static const weighbridge_terminal_setup ROAD = {20, 60000, 4, 2, 10, 20, "WB01"};

static weighbridge_terminal *room(void) {
    weighbridge_terminal *terminal =
        (weighbridge_terminal *)aligned_alloc(weighbridge_terminal_alignment(), weighbridge_terminal_size());
    if (terminal == NULL) {
        exit(2);
    }
    return terminal;
}

static weighbridge_terminal *opened(void) {
    weighbridge_terminal *terminal = room();
    IS(weighbridge_terminal_open(terminal, &ROAD), WEIGHBRIDGE_TERMINAL_OK);
    return terminal;
}

/* The replies to a text, each in a line. */
static const char *said(weighbridge_terminal *terminal, const char *text) {
    static char lines[4096];
    size_t length = strlen(text), at = 0;
    while (length > 0) {
        size_t taken = weighbridge_terminal_bytes(terminal, (const uint8_t *)text, length);
        size_t replies = weighbridge_terminal_replies(terminal);
        for (size_t place = 0; place < replies; place++) {
            at += weighbridge_terminal_reply_text(terminal, place, lines + at);
            lines[at++] = '\n';
        }
        if (taken == 0 || (taken < length && replies == 0)) {
            failed = 1;
            break;
        }
        text += taken;
        length -= taken;
    }
    lines[at] = 0;
    return lines;
}

static void replies_are(int line, weighbridge_terminal *terminal, const char *text, const char *wanted) {
    const char *found = said(terminal, text);
    if (strcmp(found, wanted) != 0) {
        printf("line %d: the replies are\n%snot\n%s", line, found, wanted);
        failed = 1;
    }
}

#define REPLIES(terminal, text, wanted) replies_are(__LINE__, terminal, text, wanted)

/* The first part outside its limits is named, and the memory is as it was. */
static void setups(void) {
    const struct {
        weighbridge_terminal_setup setup;
        uint32_t answer;
    } rows[] = {
        {{20, 60000, 4, 2, 10, 20, "WB01"}, WEIGHBRIDGE_TERMINAL_OK},
        {{50, 500000, 64, 1, 50, 600, "A1B2C3D4E5F6G7H8"}, WEIGHBRIDGE_TERMINAL_OK},
        {{1, 500, 4, 1, 2, 1, "0"}, WEIGHBRIDGE_TERMINAL_OK},
        {{3, 60000, 3, 0, 1, 0, ""}, WEIGHBRIDGE_TERMINAL_INTERVAL},
        {{0, 0, 0, 0, 0, 0, ""}, WEIGHBRIDGE_TERMINAL_INTERVAL},
        {{20, 60001, 4, 2, 10, 20, "WB01"}, WEIGHBRIDGE_TERMINAL_MAX},
        {{20, 9980, 4, 2, 10, 20, "WB01"}, WEIGHBRIDGE_TERMINAL_MAX},
        {{20, 200020, 4, 2, 10, 20, "WB01"}, WEIGHBRIDGE_TERMINAL_MAX},
        {{20, 60000, 3, 2, 10, 20, "WB01"}, WEIGHBRIDGE_TERMINAL_WINDOW},
        {{20, 60000, 65, 2, 10, 20, "WB01"}, WEIGHBRIDGE_TERMINAL_WINDOW},
        {{20, 60000, 4, 3, 10, 20, "WB01"}, WEIGHBRIDGE_TERMINAL_BAND},
        {{20, 60000, 4, 2, 51, 20, "WB01"}, WEIGHBRIDGE_TERMINAL_PACE},
        {{20, 60000, 4, 2, 10, 601, "WB01"}, WEIGHBRIDGE_TERMINAL_WAIT},
        {{20, 60000, 4, 2, 10, 20, ""}, WEIGHBRIDGE_TERMINAL_SERIAL},
        {{20, 60000, 4, 2, 10, 20, "wb01"}, WEIGHBRIDGE_TERMINAL_SERIAL},
        {{20, 60000, 4, 2, 10, 20, "A1B2C3D4E5F6G7H8I"}, WEIGHBRIDGE_TERMINAL_SERIAL},
        {{20, 60000, 4, 2, 10, 20, "\xff\xfe"}, WEIGHBRIDGE_TERMINAL_SERIAL},
    };
    size_t size = weighbridge_terminal_size();
    for (size_t i = 0; i < sizeof rows / sizeof rows[0]; i++) {
        weighbridge_terminal *terminal = room();
        memset(terminal, 0x5a, size);
        IS(weighbridge_terminal_open(terminal, &rows[i].setup), rows[i].answer);
        for (size_t byte = 0; rows[i].answer != 0 && byte < size; byte++) {
            IS(((const uint8_t *)terminal)[byte], 0x5a);
        }
        free(terminal);
    }
    weighbridge_terminal_setup endless = ROAD;
    memset(endless.serial, 'A', sizeof endless.serial);
    weighbridge_terminal *terminal = opened();
    IS(weighbridge_terminal_reading(terminal, 9170), 0);
    IS(weighbridge_terminal_open(terminal, &endless), WEIGHBRIDGE_TERMINAL_SERIAL);
    REPLIES(terminal, "SI\r\n", "S D      18340 kg\n");
    memcpy(endless.serial, "XY\0\xff\xff", 5);
    IS(weighbridge_terminal_open(terminal, &endless), WEIGHBRIDGE_TERMINAL_OK);
    REPLIES(terminal, "SI\r\nI4\r\n", "S I\nI4 A \"XY\"\n");
    free(terminal);
}

/* A null is refused, and what is passed beside it is as it was. */
static void nulls(void) {
    uint8_t buffer[WEIGHBRIDGE_TERMINAL_REPLY_BYTES];
    memset(buffer, 0x5a, sizeof buffer);
    weighbridge_terminal_indication shown = {77, 78, 79};
    weighbridge_terminal *none = NULL;
    IS(weighbridge_terminal_open(none, &ROAD), WEIGHBRIDGE_TERMINAL_NO_TERMINAL);
    IS(weighbridge_terminal_reading(none, 0), WEIGHBRIDGE_TERMINAL_NO_TERMINAL);
    IS(weighbridge_terminal_lost(none), WEIGHBRIDGE_TERMINAL_NO_TERMINAL);
    IS(weighbridge_terminal_byte(none, 10), WEIGHBRIDGE_TERMINAL_NO_TERMINAL);
    IS(weighbridge_terminal_hang_up(none), WEIGHBRIDGE_TERMINAL_NO_TERMINAL);
    IS(weighbridge_terminal_indicate(none, &shown), WEIGHBRIDGE_TERMINAL_NO_TERMINAL);
    IS(weighbridge_terminal_bytes(none, (const uint8_t *)"SI\n", 3), 0);
    IS(weighbridge_terminal_take(none, (const uint8_t *)"SI\n", 3) == WEIGHBRIDGE_TERMINAL_NO_COUNT, 1);
    IS(weighbridge_terminal_take(none, (const uint8_t *)"", 0) == WEIGHBRIDGE_TERMINAL_NO_COUNT, 1);
    IS(weighbridge_terminal_replies(none), 0);
    IS(weighbridge_terminal_reply(none, 0, buffer, sizeof buffer), 0);
    IS(shown.state, 77);
    IS(shown.gross_kg, 78);
    IS(shown.net_kg, 79);
    for (size_t i = 0; i < sizeof buffer; i++) {
        IS(buffer[i], 0x5a);
    }
}

/* A reply is copied whole, with its CR LF and nothing after it, or the buffer is as it was. */
static void buffers(void) {
    weighbridge_terminal *terminal = opened();
    uint8_t buffer[WEIGHBRIDGE_TERMINAL_REPLY_BYTES + 1];
    IS(weighbridge_terminal_bytes(terminal, (const uint8_t *)"I4\n", 3), 3);
    IS(weighbridge_terminal_replies(terminal), 1);
    const char wanted[] = "I4 A \"WB01\"\r\n";
    size_t whole = sizeof wanted - 1;
    for (size_t length = 0; length <= WEIGHBRIDGE_TERMINAL_REPLY_BYTES; length++) {
        memset(buffer, 0x5a, sizeof buffer);
        size_t copied = weighbridge_terminal_reply(terminal, 0, buffer, length);
        IS(copied, length < whole ? 0 : whole);
        IS(memcmp(buffer, wanted, copied), 0);
        for (size_t i = copied; i < sizeof buffer; i++) {
            IS(buffer[i], 0x5a);
        }
    }
    IS(weighbridge_terminal_reply(terminal, 1, buffer, sizeof buffer), 0);
    IS(weighbridge_terminal_reply(terminal, SIZE_MAX, buffer, sizeof buffer), 0);
    IS(weighbridge_terminal_bytes(terminal, (const uint8_t *)"", 0), 0);
    IS(weighbridge_terminal_replies(terminal), 1);
    IS(weighbridge_terminal_hang_up(terminal), 0);
    IS(weighbridge_terminal_replies(terminal), 0);
    free(terminal);
}

/* Bytes are taken up to the first at which there is a reply. */
static void bytes(void) {
    weighbridge_terminal *terminal = opened();
    const char text[] = "SIR\nI0\nxI4\n";
    IS(weighbridge_terminal_bytes(terminal, (const uint8_t *)text, 11), 7);
    IS(weighbridge_terminal_replies(terminal), 10);
    IS(weighbridge_terminal_bytes(terminal, (const uint8_t *)text + 7, 4), 4);
    IS(weighbridge_terminal_replies(terminal), 1);
    IS(weighbridge_terminal_bytes(terminal, (const uint8_t *)text, 3), 3);
    IS(weighbridge_terminal_replies(terminal), 0);
    for (const char *byte = text + 3; byte < text + 7; byte++) {
        IS(weighbridge_terminal_byte(terminal, (uint8_t)*byte), 0);
    }
    IS(weighbridge_terminal_replies(terminal), 10);
    IS(weighbridge_terminal_take(terminal, (const uint8_t *)"", 0), 0);
    IS(weighbridge_terminal_take(terminal, (const uint8_t *)text + 4, 7), 3);
    IS(weighbridge_terminal_replies(terminal), 10);
    IS(weighbridge_terminal_take(terminal, (const uint8_t *)text + 7, 4), 4);
    IS(weighbridge_terminal_replies(terminal), 1);
    free(terminal);
}

static void weighing(void) {
    weighbridge_terminal *terminal = opened();
    weighbridge_terminal_indication shown;
    const struct {
        int64_t tenths;
        uint32_t state;
        int32_t kilograms;
    } rows[] = {{9170, WEIGHBRIDGE_TERMINAL_MOVING, 18340},
                {9171, WEIGHBRIDGE_TERMINAL_MOVING, 18340},
                {9172, WEIGHBRIDGE_TERMINAL_MOVING, 18340},
                {9170, WEIGHBRIDGE_TERMINAL_STABLE, 18340},
                {WEIGHBRIDGE_TERMINAL_LOST, WEIGHBRIDGE_TERMINAL_NO_LOAD, 0},
                {INT64_MIN, WEIGHBRIDGE_TERMINAL_NO_LOAD, 0},
                {30094, WEIGHBRIDGE_TERMINAL_MOVING, 60180},
                {30095, WEIGHBRIDGE_TERMINAL_OVERLOAD, 0},
                {2000000, WEIGHBRIDGE_TERMINAL_OVERLOAD, 0},
                {2000001, WEIGHBRIDGE_TERMINAL_NO_LOAD, 0},
                {-205, WEIGHBRIDGE_TERMINAL_MOVING, -400},
                {-206, WEIGHBRIDGE_TERMINAL_UNDERLOAD, 0}};
    IS(weighbridge_terminal_indicate(terminal, &shown), 0);
    IS(shown.state, WEIGHBRIDGE_TERMINAL_NO_LOAD);
    for (size_t i = 0; i < sizeof rows / sizeof rows[0]; i++) {
        IS(weighbridge_terminal_reading(terminal, rows[i].tenths), 0);
        IS(weighbridge_terminal_indicate(terminal, &shown), 0);
        IS(shown.state, rows[i].state);
        IS(shown.gross_kg, rows[i].kilograms);
        IS(shown.net_kg, rows[i].kilograms);
    }
    for (int i = 0; i < 4; i++) {
        IS(weighbridge_terminal_reading(terminal, 9170), 0);
    }
    REPLIES(terminal, "TA 5000 kg\r\nSI\r\nT\r\n@\r\nT\r\n", "TA A       5000 kg\nS S      13340 kg\nT I\nI4 A \"WB01\"\nT S      18340 kg\n");
    IS(weighbridge_terminal_indicate(terminal, &shown), 0);
    IS(shown.gross_kg, 18340);
    IS(shown.net_kg, 0);
    free(terminal);
}

/* A terminal in memory that the program reserves, seen by who may only look; and calls by their addresses and as members, whose names no macro takes. */
static void reserved(void) {
    static weighbridge_terminal_memory memory;
    struct {
        size_t (*weighbridge_terminal_replies)(const weighbridge_terminal *terminal);
    } calls = {weighbridge_terminal_replies};
    weighbridge_terminal *terminal = weighbridge_terminal_in(&memory);
    const weighbridge_terminal *seen = terminal;
    weighbridge_terminal_indication shown;
    uint8_t buffer[WEIGHBRIDGE_TERMINAL_REPLY_BYTES];
    IS(sizeof memory, weighbridge_terminal_size());
    IS(weighbridge_terminal_open(terminal, &ROAD), WEIGHBRIDGE_TERMINAL_OK);
    IS(weighbridge_terminal_bytes(terminal, (const uint8_t *)"I4\n", 3), 3);
    weighbridge_terminal_memory before = memory;
    IS(calls.weighbridge_terminal_replies(seen), 1);
    IS(weighbridge_terminal_reply(seen, 0, buffer, sizeof buffer), 13);
    IS(weighbridge_terminal_indicate(seen, &shown), 0);
    IS(memcmp(&before, &memory, sizeof memory), 0);
}

static void texts(void) {
    for (uint32_t answer = 0; answer <= 10; answer++) {
        IS(strcmp(weighbridge_terminal_error(answer), "unknown") == 0, answer == 8 || answer == 9);
    }
    for (uint32_t state = 0; state <= 5; state++) {
        IS(strcmp(weighbridge_terminal_state(state), "unknown") == 0, state == 5);
    }
}

int main(int argc, char **argv) {
    if (argc > 1) { /* one of these must stop at an assertion */
        weighbridge_terminal *terminal = opened();
        if (strcmp(argv[1], "misaligned") == 0) {
            return (int)weighbridge_terminal_reading((weighbridge_terminal *)((char *)terminal + 1), 0);
        }
        const uint8_t *none = NULL;
        return (int)weighbridge_terminal_bytes(terminal, none, 0);
    }
    IS(weighbridge_terminal_version(), WEIGHBRIDGE_TERMINAL_VERSION);
    IS(weighbridge_terminal_size() % weighbridge_terminal_alignment(), 0);
    IS(weighbridge_terminal_size(), WEIGHBRIDGE_TERMINAL_SIZE);
    IS(weighbridge_terminal_alignment(), WEIGHBRIDGE_TERMINAL_ALIGNMENT);
    IS(weighbridge_terminal_setup_size(), sizeof(weighbridge_terminal_setup));
    reserved();
    setups();
    nulls();
    buffers();
    bytes();
    weighing();
    texts();
    puts(failed ? "library_calls: failed" : "library_calls: ok");
    return failed;
}
