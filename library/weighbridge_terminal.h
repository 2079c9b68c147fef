/** @file
 * A weighing terminal: MT-SICS levels 0 and 1 over a scale of accuracy class III, in the caller's memory.
 *
 * A prover checks what each call does, for every history of calls; weighbridge_terminal(3) and library.md say what that means. No call
 * allocates or keeps a pointer, so there is nothing to close.
 *
 * The caller must keep these rules. A build without assertions checks none of them:
 *
 * - Size. The memory of a terminal is writable, and has weighbridge_terminal_size() bytes.
 * - Alignment. Its address is a multiple of weighbridge_terminal_alignment(). A weighbridge_terminal_memory has both.
 * - Owner. Nothing else reads or writes that memory from weighbridge_terminal_open() until the last call.
 * - Opened. Each call except weighbridge_terminal_open() gets a terminal that was opened, or null.
 * - One call at a time. A terminal is in one call at a time. Two terminals may be in calls of two threads.
 * - No other null. A pointer to a setup, bytes, a buffer or an indication isn't null, not even with a length of 0. It is aligned for
 *   its type and has the length that is passed, and nobody writes there during the call.
 *
 * A null for the terminal itself is refused: the result is WEIGHBRIDGE_TERMINAL_NO_TERMINAL. Calls that return a number of bytes or
 * replies return 0, except weighbridge_terminal_take().
 *
 * Unless NDEBUG is defined, GCC and Clang check calls by assertions as far as they can: alignment, lengths, the other nulls, the size
 * of the setup, and that the library has this header's version. No macro has the name of a call. */
#ifndef WEIGHBRIDGE_TERMINAL_H
#define WEIGHBRIDGE_TERMINAL_H

#include <stddef.h>
#include <stdint.h>

#if UINTPTR_MAX < UINT64_MAX
#error "there is no library for processors of 32 bits; library.md says for which there is one"
#endif

#ifdef __cplusplus
extern "C" {
#endif

#include "weighbridge_terminal_declarations.h"

/** Memory for a terminal, for a program that doesn't allocate while it runs. weighbridge_terminal_in() returns the terminal in it. */
typedef union weighbridge_terminal_memory {
    uint64_t aligned;                               /**< unused: it gives the union its alignment */
    unsigned char bytes[WEIGHBRIDGE_TERMINAL_SIZE]; /**< the terminal's own */
} weighbridge_terminal_memory;

#if defined(__GNUC__)
/* A compiler warns if a program drops the result of an opening. */
uint32_t weighbridge_terminal_open(weighbridge_terminal *terminal, const weighbridge_terminal_setup *setup) __attribute__((__warn_unused_result__));
#endif

/** @cond */
#ifdef __cplusplus
#define WEIGHBRIDGE_TERMINAL_AS(type, pointer) static_cast<type>(static_cast<void *>(pointer))
#define WEIGHBRIDGE_TERMINAL_ADDRESS(pointer) reinterpret_cast<uintptr_t>(pointer)
#else
#define WEIGHBRIDGE_TERMINAL_AS(type, pointer) ((type)(void *)(pointer))
#define WEIGHBRIDGE_TERMINAL_ADDRESS(pointer) ((uintptr_t)(pointer))
#endif

/* Inline calls assert the caller's rules, and then make the library's own calls, which have other names here. */
#if !defined(NDEBUG) && defined(__GNUC__)
#ifdef __cplusplus
}
#endif
#include <assert.h>
#ifdef __cplusplus
extern "C" {
#endif
#define WEIGHBRIDGE_TERMINAL_CHECKED extern __inline __attribute__((__always_inline__, __gnu_inline__))
#define WEIGHBRIDGE_TERMINAL_IS_ONE(terminal)                                                                          \
    assert(weighbridge_terminal_version() / 10000 == WEIGHBRIDGE_TERMINAL_VERSION / 10000);                            \
    assert(WEIGHBRIDGE_TERMINAL_ADDRESS(terminal) % WEIGHBRIDGE_TERMINAL_ALIGNMENT == 0)

uint32_t weighbridge_terminal_unchecked_open(weighbridge_terminal *, const weighbridge_terminal_setup *) __asm__("weighbridge_terminal_open");
uint32_t weighbridge_terminal_unchecked_reading(weighbridge_terminal *, int64_t) __asm__("weighbridge_terminal_reading");
uint32_t weighbridge_terminal_unchecked_byte(weighbridge_terminal *, uint8_t) __asm__("weighbridge_terminal_byte");
size_t weighbridge_terminal_unchecked_bytes(weighbridge_terminal *, const uint8_t *, size_t) __asm__("weighbridge_terminal_bytes");
size_t weighbridge_terminal_unchecked_take(weighbridge_terminal *, const uint8_t *, size_t) __asm__("weighbridge_terminal_take");
uint32_t weighbridge_terminal_unchecked_hang_up(weighbridge_terminal *) __asm__("weighbridge_terminal_hang_up");
size_t weighbridge_terminal_unchecked_replies(const weighbridge_terminal *) __asm__("weighbridge_terminal_replies");
size_t weighbridge_terminal_unchecked_reply(const weighbridge_terminal *, size_t, uint8_t *, size_t) __asm__("weighbridge_terminal_reply");
uint32_t weighbridge_terminal_unchecked_indicate(const weighbridge_terminal *, weighbridge_terminal_indication *) __asm__("weighbridge_terminal_indicate");

WEIGHBRIDGE_TERMINAL_CHECKED uint32_t weighbridge_terminal_open(weighbridge_terminal *terminal, const weighbridge_terminal_setup *setup) {
    WEIGHBRIDGE_TERMINAL_IS_ONE(terminal);
    assert(weighbridge_terminal_size() == WEIGHBRIDGE_TERMINAL_SIZE);
    assert(weighbridge_terminal_alignment() == WEIGHBRIDGE_TERMINAL_ALIGNMENT);
    assert(weighbridge_terminal_setup_size() == sizeof(weighbridge_terminal_setup));
    assert(setup != NULL);
    return weighbridge_terminal_unchecked_open(terminal, setup);
}

WEIGHBRIDGE_TERMINAL_CHECKED uint32_t weighbridge_terminal_reading(weighbridge_terminal *terminal, int64_t tenths) {
    WEIGHBRIDGE_TERMINAL_IS_ONE(terminal);
    return weighbridge_terminal_unchecked_reading(terminal, tenths);
}

WEIGHBRIDGE_TERMINAL_CHECKED uint32_t weighbridge_terminal_byte(weighbridge_terminal *terminal, uint8_t byte) {
    WEIGHBRIDGE_TERMINAL_IS_ONE(terminal);
    return weighbridge_terminal_unchecked_byte(terminal, byte);
}

WEIGHBRIDGE_TERMINAL_CHECKED size_t weighbridge_terminal_bytes(weighbridge_terminal *terminal, const uint8_t *bytes, size_t length) {
    WEIGHBRIDGE_TERMINAL_IS_ONE(terminal);
    assert(bytes != NULL);
    assert(length <= SIZE_MAX / 2);
    return weighbridge_terminal_unchecked_bytes(terminal, bytes, length);
}

WEIGHBRIDGE_TERMINAL_CHECKED size_t weighbridge_terminal_take(weighbridge_terminal *terminal, const uint8_t *bytes, size_t length) {
    WEIGHBRIDGE_TERMINAL_IS_ONE(terminal);
    assert(bytes != NULL);
    assert(length <= SIZE_MAX / 2);
    return weighbridge_terminal_unchecked_take(terminal, bytes, length);
}

WEIGHBRIDGE_TERMINAL_CHECKED uint32_t weighbridge_terminal_hang_up(weighbridge_terminal *terminal) {
    WEIGHBRIDGE_TERMINAL_IS_ONE(terminal);
    return weighbridge_terminal_unchecked_hang_up(terminal);
}

WEIGHBRIDGE_TERMINAL_CHECKED size_t weighbridge_terminal_replies(const weighbridge_terminal *terminal) {
    WEIGHBRIDGE_TERMINAL_IS_ONE(terminal);
    return weighbridge_terminal_unchecked_replies(terminal);
}

WEIGHBRIDGE_TERMINAL_CHECKED size_t weighbridge_terminal_reply(const weighbridge_terminal *terminal, size_t place, uint8_t *buffer,
                                                               size_t length) {
    WEIGHBRIDGE_TERMINAL_IS_ONE(terminal);
    assert(buffer != NULL);
    assert(length <= SIZE_MAX / 2);
    return weighbridge_terminal_unchecked_reply(terminal, place, buffer, length);
}

WEIGHBRIDGE_TERMINAL_CHECKED uint32_t weighbridge_terminal_indicate(const weighbridge_terminal *terminal,
                                                                    weighbridge_terminal_indication *indication) {
    WEIGHBRIDGE_TERMINAL_IS_ONE(terminal);
    assert(indication != NULL);
    return weighbridge_terminal_unchecked_indicate(terminal, indication);
}

#undef WEIGHBRIDGE_TERMINAL_CHECKED
#undef WEIGHBRIDGE_TERMINAL_IS_ONE
#endif

/** @endcond */

/** Returns the terminal in `memory`. */
static inline weighbridge_terminal *weighbridge_terminal_in(weighbridge_terminal_memory *memory) {
    return WEIGHBRIDGE_TERMINAL_AS(weighbridge_terminal *, memory);
}

/** Processes a lost reading. */
static inline uint32_t weighbridge_terminal_lost(weighbridge_terminal *terminal) {
    return weighbridge_terminal_reading(terminal, WEIGHBRIDGE_TERMINAL_LOST);
}

/** Copies a reply as a text that ends with a 0, without its CR LF. Returns its length. If there is no such reply, the text is empty. */
static inline size_t weighbridge_terminal_reply_text(const weighbridge_terminal *terminal, size_t place,
                                                     char text[WEIGHBRIDGE_TERMINAL_REPLY_BYTES]) {
    size_t length = weighbridge_terminal_reply(terminal, place, WEIGHBRIDGE_TERMINAL_AS(uint8_t *, text), WEIGHBRIDGE_TERMINAL_REPLY_BYTES);
    length = length < 2 ? 0 : length - 2;
    text[length] = 0;
    return length;
}

/** Returns the text of a result. */
static inline const char *weighbridge_terminal_error(uint32_t answer) {
    switch (answer) {
    case WEIGHBRIDGE_TERMINAL_OK:
        return "done";
    case WEIGHBRIDGE_TERMINAL_INTERVAL:
        return "the interval is not 1, 2, 5, 10, 20 or 50 kg";
    case WEIGHBRIDGE_TERMINAL_MAX:
        return "Max is not 500 to 10,000 whole intervals";
    case WEIGHBRIDGE_TERMINAL_WINDOW:
        return "the window is not 4 to 64 readings";
    case WEIGHBRIDGE_TERMINAL_BAND:
        return "the band is not 1 or 2 tenths of the interval";
    case WEIGHBRIDGE_TERMINAL_PACE:
        return "the pace is not 2 to 50 readings a second";
    case WEIGHBRIDGE_TERMINAL_WAIT:
        return "the wait is not 1 to 600 readings";
    case WEIGHBRIDGE_TERMINAL_SERIAL:
        return "the serial is not 1 to 16 characters of A-Z and 0-9";
    case WEIGHBRIDGE_TERMINAL_NO_TERMINAL:
        return "there is no terminal";
    default:
        return "unknown";
    }
}

/** Returns the text of a state. */
static inline const char *weighbridge_terminal_state(uint32_t state) {
    switch (state) {
    case WEIGHBRIDGE_TERMINAL_NO_LOAD:
        return "NO LOAD";
    case WEIGHBRIDGE_TERMINAL_OVERLOAD:
        return "OVERLOAD";
    case WEIGHBRIDGE_TERMINAL_UNDERLOAD:
        return "UNDERLOAD";
    case WEIGHBRIDGE_TERMINAL_MOVING:
        return "MOVING";
    case WEIGHBRIDGE_TERMINAL_STABLE:
        return "STABLE";
    default:
        return "unknown";
    }
}

#ifdef __cplusplus
}
#endif

#endif
