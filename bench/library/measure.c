/* Nanoseconds a call of the terminal as a library: readings at three sizes of the window, and lines with their replies copied out. */
#include <weighbridge_terminal.h>

#include <stdio.h>
#include <stdlib.h>
#include <string.h>
#include <time.h>

enum { ROUNDS = 9, READINGS = 2000000, LINES = 200000 };

static double now(void) {
    struct timespec time;
    clock_gettime(CLOCK_MONOTONIC, &time);
    return (double)time.tv_sec * 1e9 + (double)time.tv_nsec;
}

static int compared(const void *one, const void *other) {
    double a = *(const double *)one, b = *(const double *)other;
    return (a > b) - (a < b);
}

static int64_t load(int kind, int64_t place) {
    return kind == 0 ? 9170 : kind == 1 ? 9170 + (place & 1) : place % 30000;
}

static double readings(weighbridge_terminal *terminal, int kind) {
    double begun = now();
    size_t replies = 0;
    for (int64_t place = 0; place < READINGS; place++) {
        weighbridge_terminal_reading(terminal, load(kind, place));
        replies += weighbridge_terminal_replies(terminal);
    }
    return replies == 0 ? (now() - begun) / READINGS : -1;
}

static double lines(weighbridge_terminal *terminal, const char *text) {
    double begun = now();
    size_t length = strlen(text), copied = 0;
    uint8_t reply[WEIGHBRIDGE_TERMINAL_REPLY_BYTES];
    for (int line = 0; line < LINES; line++) {
        size_t taken = 0;
        while (taken < length) {
            taken += weighbridge_terminal_bytes(terminal, (const uint8_t *)text + taken, length - taken);
            size_t replies = weighbridge_terminal_replies(terminal);
            for (size_t place = 0; place < replies; place++) {
                copied += weighbridge_terminal_reply(terminal, place, reply, sizeof reply);
            }
        }
    }
    return copied > 0 ? (now() - begun) / LINES : -1;
}

static void print(const char *what, double *times) {
    qsort(times, ROUNDS, sizeof *times, compared);
    printf("%-34s least %7.1f ns, median %7.1f ns\n", what, times[0], times[ROUNDS / 2]);
}

int main(void) {
    const char *kinds[] = {"standing still", "alternating", "rising"}, *texts[] = {"SI\r\n", "TA\r\n", "I4\r\n", "I0\r\n"};
    const uint32_t windows[] = {4, 16, 64};
    weighbridge_terminal *terminal = aligned_alloc(weighbridge_terminal_alignment(), weighbridge_terminal_size());
    weighbridge_terminal_setup setup = {20, 60000, 4, 2, 10, 20, "WB01"};
    double times[ROUNDS];
    char what[64];
    for (size_t window = 0; window < 3; window++) {
        setup.window = windows[window];
        for (int kind = 0; kind < 3; kind++) {
            if (terminal == NULL || weighbridge_terminal_open(terminal, &setup) != 0) {
                return 1;
            }
            for (int round = 0; round < ROUNDS; round++) {
                times[round] = readings(terminal, kind);
            }
            snprintf(what, sizeof what, "a reading, window %u, %s", (unsigned)setup.window, kinds[kind]);
            print(what, times);
        }
    }
    setup.window = 4;
    if (weighbridge_terminal_open(terminal, &setup) != 0) {
        return 1;
    }
    for (int reading = 0; reading < 4; reading++) {
        weighbridge_terminal_reading(terminal, 9170);
    }
    for (size_t text = 0; text < 4; text++) {
        for (int round = 0; round < ROUNDS; round++) {
            times[round] = lines(terminal, texts[text]);
        }
        snprintf(what, sizeof what, "%.2s with its replies", texts[text]);
        print(what, times);
    }
    free(terminal);
    return 0;
}
