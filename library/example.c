/* A terminal that weighs a vehicle, as a haulier's computer would: it types lines, and prints the replies.
 *
 *     cc -o example example.c $(pkg-config --cflags --libs weighbridge-terminal) && ./example */
#include <weighbridge_terminal.h>

#include <stdio.h>
#include <stdlib.h>
#include <string.h>

static void print_replies(weighbridge_terminal *terminal) {
    char text[WEIGHBRIDGE_TERMINAL_REPLY_BYTES];
    size_t replies = weighbridge_terminal_replies(terminal);
    for (size_t place = 0; place < replies; place++) {
        weighbridge_terminal_reply_text(terminal, place, text);
        printf("t %s\n", text);
    }
}

static void type(weighbridge_terminal *terminal, const char *text) {
    size_t length = strlen(text);
    while (length > 0) {
        size_t taken = weighbridge_terminal_bytes(terminal, (const uint8_t *)text, length);
        print_replies(terminal);
        text += taken;
        length -= taken;
    }
}

static void weigh(weighbridge_terminal *terminal, int64_t tenths, int readings) {
    for (int i = 0; i < readings; i++) {
        weighbridge_terminal_reading(terminal, tenths);
        print_replies(terminal);
    }
}

static void print_indication(weighbridge_terminal *terminal) {
    weighbridge_terminal_indication shown;
    weighbridge_terminal_indicate(terminal, &shown);
    printf("%s, gross %d kg, net %d kg\n", weighbridge_terminal_state(shown.state), (int)shown.gross_kg, (int)shown.net_kg);
}

int main(void) {
    weighbridge_terminal_setup setup = {20, 60001, 4, 2, 10, 20, "WB01"};
    weighbridge_terminal *terminal =
        (weighbridge_terminal *)aligned_alloc(weighbridge_terminal_alignment(), weighbridge_terminal_size());
    if (terminal == NULL) {
        return 1;
    }
    uint32_t answer = weighbridge_terminal_open(terminal, &setup);
    printf("a Max of 60001 kg: %u, %s\n", (unsigned)answer, weighbridge_terminal_error(answer));
    setup.max_kg = 60000;
    if (weighbridge_terminal_open(terminal, &setup) != WEIGHBRIDGE_TERMINAL_OK) {
        return 1;
    }
    print_indication(terminal);
    weigh(terminal, 1, 4);
    type(terminal, "Z\r\nI4\r\n");
    weigh(terminal, 2500, 1);
    print_indication(terminal);
    type(terminal, "SI\r\nS\r\n");
    weigh(terminal, 9170, 4);
    type(terminal, "TA 5000 kg\r\nSI\r\n");
    print_indication(terminal);
    type(terminal, "TAC\r\nSIR\r\n");
    weigh(terminal, 9170, 2);
    weighbridge_terminal_lost(terminal);
    print_replies(terminal);
    weighbridge_terminal_hang_up(terminal);
    print_indication(terminal);
    free(terminal);
    return 0;
}
