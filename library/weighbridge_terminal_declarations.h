/** @file
 * The declarations of the terminal as a library: types, constants and calls.
 *
 * A program in C or C++ includes weighbridge_terminal.h, which includes this file and adds assertions, inline calls and the attributes
 * of the compiler. Tools that read declarations get this file alone, because its only directives are constants:
 *
 * - cffi: pass its text to FFI.cdef().
 * - bindgen: pass it with `-- -include stddef.h -include stdint.h`. */

/** The version of this header: 10,000 times its first number, 100 times its second, and its third. The first changes if a program has to. */
#define WEIGHBRIDGE_TERMINAL_VERSION 20101

/** The size of a terminal in bytes, as weighbridge_terminal_size() returns it. */
#define WEIGHBRIDGE_TERMINAL_SIZE 1080

/** The alignment of a terminal's address, a power of two, as weighbridge_terminal_alignment() returns it. */
#define WEIGHBRIDGE_TERMINAL_ALIGNMENT 8

/** A load for a lost reading. */
#define WEIGHBRIDGE_TERMINAL_LOST 9223372036854775807

/** The greatest length of a reply in bytes, with its CR LF. */
#define WEIGHBRIDGE_TERMINAL_REPLY_BYTES 32

/** What weighbridge_terminal_take() returns if the pointer to the terminal is null. No array has as many bytes. */
#define WEIGHBRIDGE_TERMINAL_NO_COUNT 18446744073709551615U

/** A terminal. A program sees it only by calls. */
typedef struct weighbridge_terminal weighbridge_terminal;

/** The setup of an instrument. */
typedef struct weighbridge_terminal_setup {
    uint32_t interval_kg; /**< the verification scale interval e, in kilograms: 1, 2, 5, 10, 20 or 50 */
    uint32_t max_kg;      /**< Max, in kilograms: 500 to 10,000 whole intervals */
    uint32_t window;      /**< the number of readings that must agree: 4 to 64 */
    uint32_t band;        /**< their greatest difference, in tenths of e: 1 or 2 */
    uint32_t pace;        /**< readings per second: 2 to 50 */
    uint32_t wait;        /**< the number of readings that S, Z and T wait: 1 to 600 */
    char serial[20];      /**< 1 to 16 characters of A-Z and 0-9, and a 0 */
} weighbridge_terminal_setup;

/** What is indicated. Gross and net are 0 if the state is neither MOVING nor STABLE. */
typedef struct weighbridge_terminal_indication {
    uint32_t state;   /**< one of weighbridge_terminal_states */
    int32_t gross_kg; /**< gross, in kilograms */
    int32_t net_kg;   /**< net, in kilograms */
} weighbridge_terminal_indication;

/** The states of an indication. */
enum weighbridge_terminal_states {
    WEIGHBRIDGE_TERMINAL_NO_LOAD = 0,   /**< the last reading is lost, or there is none */
    WEIGHBRIDGE_TERMINAL_OVERLOAD = 1,  /**< gross is above Max + 9 e */
    WEIGHBRIDGE_TERMINAL_UNDERLOAD = 2, /**< gross is below -20 e */
    WEIGHBRIDGE_TERMINAL_MOVING = 3,    /**< weights that aren't stable */
    WEIGHBRIDGE_TERMINAL_STABLE = 4     /**< stable weights */
};

/** The results of calls: 0, or an error. 1 to 7 name the first part of a setup that is outside its limits. */
enum weighbridge_terminal_results {
    WEIGHBRIDGE_TERMINAL_OK = 0,          /**< done */
    WEIGHBRIDGE_TERMINAL_INTERVAL = 1,    /**< the interval */
    WEIGHBRIDGE_TERMINAL_MAX = 2,         /**< Max */
    WEIGHBRIDGE_TERMINAL_WINDOW = 3,      /**< the window */
    WEIGHBRIDGE_TERMINAL_BAND = 4,        /**< the band */
    WEIGHBRIDGE_TERMINAL_PACE = 5,        /**< the pace */
    WEIGHBRIDGE_TERMINAL_WAIT = 6,        /**< the wait */
    WEIGHBRIDGE_TERMINAL_SERIAL = 7,      /**< the serial */
    WEIGHBRIDGE_TERMINAL_NO_TERMINAL = 10 /**< the pointer to the terminal is null */
};

/** Returns the version of the library that is linked. */
uint32_t weighbridge_terminal_version(void);

/** Returns the size of a terminal in bytes. */
size_t weighbridge_terminal_size(void);

/** Returns the alignment of a terminal's address, a power of two. */
size_t weighbridge_terminal_alignment(void);

/** Returns the size in bytes of the setup that the library was built with. A program that declares the setup itself compares its own size with it. */
size_t weighbridge_terminal_setup_size(void);

/** Makes a terminal of `setup` in the caller's memory, with no reading yet. Returns 0, or the error of the first part that is outside its limits. After
 * an error nothing was written, and there is no terminal until an opening succeeds; one that was opened before is gone. A terminal that is opened again begins anew. */
uint32_t weighbridge_terminal_open(weighbridge_terminal *terminal, const weighbridge_terminal_setup *setup);

/** Processes a reading of the load converter, in tenths of e from -2,000,000 to 2,000,000. Any other number is a lost reading. */
uint32_t weighbridge_terminal_reading(weighbridge_terminal *terminal, int64_t tenths);

/** Processes a byte of the terminal's stream. */
uint32_t weighbridge_terminal_byte(weighbridge_terminal *terminal, uint8_t byte);

/** Processes bytes of the terminal's stream: all of them, or those up to the first that has a reply, so that the reply can be copied. Returns how many
 * it processed: at least one, if `length` isn't 0. Returns 0 if the pointer to the terminal is null. */
size_t weighbridge_terminal_bytes(weighbridge_terminal *terminal, const uint8_t *bytes, size_t length);

/** As weighbridge_terminal_bytes(), but returns WEIGHBRIDGE_TERMINAL_NO_COUNT if the pointer to the terminal is null, so that 0 means only that
 * `length` is 0. */
size_t weighbridge_terminal_take(weighbridge_terminal *terminal, const uint8_t *bytes, size_t length);

/** Processes the end of the connection: drops the unfinished line, a waiting command and the repetition. Zero and tare stay. */
uint32_t weighbridge_terminal_hang_up(weighbridge_terminal *terminal);

/** Returns the number of replies at the newest reading, byte or disconnection: 0 to 11. */
size_t weighbridge_terminal_replies(const weighbridge_terminal *terminal);

/** Copies one of these replies into `buffer`, with its CR LF and no 0 at its end. The first has `place` 0. Returns its length in bytes. If there is no
 * such reply, or if the buffer is too small, it returns 0 and leaves the buffer as it is. */
size_t weighbridge_terminal_reply(const weighbridge_terminal *terminal, size_t place, uint8_t *buffer, size_t length);

/** Writes what is indicated to `indication`. */
uint32_t weighbridge_terminal_indicate(const weighbridge_terminal *terminal, weighbridge_terminal_indication *indication);
