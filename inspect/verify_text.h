/* Of verify.c: its end with a refusal, memory, texts, SHA-256, findings and files. */
#include <errno.h>
#include <inttypes.h>
#include <limits.h>
#include <openssl/evp.h>
#include <stdarg.h>
#include <stdbool.h>
#include <stdint.h>
#include <stdio.h>
#include <stdlib.h>
#include <string.h>
#include <unistd.h>

#define CAPITALS "ABCDEFGHIJKLMNOPQRSTUVWXYZ"
#define DIGITS "0123456789"
#define LAST_NUMBER 4294967295
#define DIGEST_LENGTH 64

/* ---- Endings and memory ---- */

static const char *asked;        /* the journal's path, as it was given */
static char scratch[PATH_MAX];   /* the folder with the copies; empty if there is none */
static const char *const ENDINGS[] = {"-newest", "", "-wal", "-journal", "-shm"};
enum { NEWEST, FILE_ITSELF, WAL, ROLLBACK, ENDING_COUNT };

/* Removes the folder with the copies, if there is one. */
static void remove_scratch(void) {
    char path[PATH_MAX + 32];
    if (scratch[0] == 0)
        return;
    for (size_t at = 0; at < sizeof ENDINGS / sizeof *ENDINGS; at++) {
        snprintf(path, sizeof path, "%s/journal.db%s", scratch, ENDINGS[at]);
        unlink(path);
    }
    rmdir(scratch);
    scratch[0] = 0;
}

/* Prints why the journal, an export or an argument can't be read, and ends with status 2. */
static _Noreturn void refuse(const char *format, ...) {
    va_list words;
    fprintf(stderr, "verify: %s: ", asked);
    va_start(words, format);
    vfprintf(stderr, format, words);
    va_end(words);
    fputc('\n', stderr);
    remove_scratch();
    exit(2);
}

/* Refuses because of the system's error `number` at this file. */
static _Noreturn void refuse_file(int number, const char *path) {
    refuse("[Errno %d] %s: '%s'", number, strerror(number), path);
}

/* Returns `block` with room for `count` items of `each` bytes, at least one. Ends the program if
 * there is no memory. */
static void *resized(void *block, size_t count, size_t each) {
    void *found;
    if (count > SIZE_MAX / 2 / each)
        refuse("out of memory");
    found = realloc(block, count > 0 ? count * each : 1);
    if (found == NULL)
        refuse("out of memory");
    return found;
}

/* Returns `block` with room for one item after `count` items. It grows by doubling. */
static void *grown(void *block, size_t count, size_t each) {
    bool is_full = count == 0 || (count >= 16 && (count & (count - 1)) == 0);
    return is_full ? resized(block, count < 16 ? 16 : 2 * count, each) : block;
}

/* ---- Texts ---- */

/* Bytes with their length. They may hold zero bytes, and a zero byte follows them. */
struct text {
    char *bytes;
    size_t length, room;
};

static void add_bytes(struct text *text, const void *bytes, size_t length) {
    if (length > SIZE_MAX / 4 - text->length)
        refuse("out of memory");
    if (text->room <= text->length + length) {
        text->room = 2 * (text->length + length) + 64;
        text->bytes = resized(text->bytes, text->room, 1);
    }
    if (length > 0)
        memcpy(text->bytes + text->length, bytes, length);
    text->length += length;
    text->bytes[text->length] = 0;
}

static void add_words(struct text *text, const char *format, va_list words) {
    va_list again;
    int length;
    va_copy(again, words);
    length = vsnprintf(NULL, 0, format, again);
    va_end(again);
    if (length < 0)
        refuse("out of memory");
    add_bytes(text, "", 0);
    if (text->room - text->length <= (size_t)length) {
        text->room = text->length + (size_t)length + 64;
        text->bytes = resized(text->bytes, text->room, 1);
    }
    vsnprintf(text->bytes + text->length, (size_t)length + 1, format, words);
    text->length += (size_t)length;
}

/* Adds what printf would print. */
static void add(struct text *text, const char *format, ...) {
    va_list words;
    va_start(words, format);
    add_words(text, format, words);
    va_end(words);
}

/* Returns the length of the character in UTF-8 at the beginning of these bytes, and writes it to
 * `found`. Returns 0 if they don't begin with one. */
static size_t character_at(const char *bytes, size_t length, uint32_t *found) {
    static const uint32_t least[] = {0, 0, 0x80, 0x800, 0x10000};
    uint32_t first = length > 0 ? (unsigned char)bytes[0] : 0x80;
    size_t size = first < 0x80 ? 1 : first < 0xC0 ? 0 : first < 0xE0 ? 2 : first < 0xF0 ? 3 : 4;
    if (size == 0 || size > length || first > 0xF4)
        return 0;
    *found = size == 1 ? first : first & (0x7Fu >> size);
    for (size_t at = 1; at < size; at++) {
        if (((unsigned char)bytes[at] & 0xC0) != 0x80)
            return 0;
        *found = *found << 6 | ((unsigned char)bytes[at] & 0x3F);
    }
    bool is_surrogate = *found >= 0xD800 && *found <= 0xDFFF;
    return *found < least[size] || *found > 0x10FFFF || is_surrogate ? 0 : size;
}

/* Returns the number of characters, where each byte that is none in UTF-8 counts as one. Writes to
 * `is_utf8` whether there is no such byte. */
static size_t characters_in(const char *bytes, size_t length, bool *is_utf8) {
    size_t count = 0;
    *is_utf8 = true;
    for (size_t at = 0; at < length; count++) {
        uint32_t letter;
        size_t size = character_at(bytes + at, length - at, &letter);
        *is_utf8 = *is_utf8 && size > 0;
        at += size > 0 ? size : 1;
    }
    return count;
}

/* Returns true if there are `least` to `most` bytes, all of them in `allowed`. */
static bool is_of(const char *bytes, size_t length, size_t least, size_t most,
                  const char *allowed) {
    for (size_t at = 0; at < length; at++)
        if (bytes[at] == 0 || strchr(allowed, bytes[at]) == NULL)
            return false;
    return length >= least && length <= most;
}

/* Returns the number that 1 to 10 digits name, or -1 if it is no number of an entry. */
static int64_t number_in(const char *digits, size_t length) {
    int64_t found = 0;
    if (!is_of(digits, length, 1, 10, DIGITS))
        return -1;
    for (size_t at = 0; at < length; at++)
        found = 10 * found + (digits[at] - '0');
    return found >= 1 && found <= LAST_NUMBER ? found : -1;
}

/* Adds the bytes in quotes, all in ASCII, so that they can't command the inspector's terminal. */
static void add_quoted(struct text *text, const char *bytes, size_t length) {
    bool has_quote = memchr(bytes, '\'', length) != NULL;
    char mark = has_quote && memchr(bytes, '"', length) == NULL ? '"' : '\'';
    add(text, "%c", mark);
    for (size_t at = 0, size; at < length; at += size > 0 ? size : 1) {
        uint32_t letter = 0;
        size = character_at(bytes + at, length - at, &letter);
        if (size == 0)
            add(text, "\\udc%02x", (unsigned)(unsigned char)bytes[at]);
        else if (letter == (unsigned char)mark || letter == '\\')
            add(text, "\\%c", (int)letter);
        else if (letter == '\n' || letter == '\r' || letter == '\t')
            add(text, "\\%c", letter == '\n' ? 'n' : letter == '\r' ? 'r' : 't');
        else if (letter >= ' ' && letter < 0x7F)
            add(text, "%c", (int)letter);
        else if (letter < 0x100)
            add(text, "\\x%02x", letter);
        else
            add(text, letter < 0x10000 ? "\\u%04x" : "\\U%08x", letter);
    }
    add(text, "%c", mark);
}

/* Writes SHA-256 of the bytes as 64 lower-case hexadecimal digits and a zero byte. */
static void digest_bytes(const void *bytes, size_t length, char digest[DIGEST_LENGTH + 1]) {
    unsigned char found[EVP_MAX_MD_SIZE];
    unsigned int size = 0;
    if (EVP_Digest(bytes, length, found, &size, EVP_sha256(), NULL) != 1
        || size != DIGEST_LENGTH / 2)
        refuse("OpenSSL can't calculate SHA-256");
    for (size_t at = 0; at < DIGEST_LENGTH / 2; at++)
        snprintf(digest + 2 * at, 3, "%02x", (unsigned)found[at]);
}

/* ---- What is found ---- */

struct findings {
    struct text lines;
    size_t count;
};

static struct findings wrong, unknown, confirmed;

/* Adds a line to the findings. */
static void report(struct findings *findings, const char *format, ...) {
    va_list words;
    va_start(words, format);
    add_words(&findings->lines, format, words);
    va_end(words);
    add(&findings->lines, "\n");
    findings->count++;
}

/* ---- Files ---- */

/* Reads a whole file. Ends the program if that fails. */
static struct text file_bytes(const char *path) {
    struct text found = {0};
    char block[65536];
    size_t length;
    FILE *file = fopen(path, "rb");
    if (file == NULL)
        refuse_file(errno, path);
    add_bytes(&found, "", 0);
    while ((length = fread(block, 1, sizeof block, file)) > 0)
        add_bytes(&found, block, length);
    if (ferror(file))
        refuse_file(errno, path);
    fclose(file);
    return found;
}

static void write_file(const char *path, const struct text *text) {
    FILE *file = fopen(path, "wb");
    if (file == NULL)
        refuse_file(errno, path);
    size_t written = fwrite(text->bytes, 1, text->length, file);
    if (fclose(file) != 0 || written != text->length)
        refuse("%s: can't be written", path);
}

/* ---- Values ---- */

enum type { ABSENT, INTEGER, REAL, TEXT, BLOB };

/* A field of a row, which may hold anything. */
struct value {
    enum type type;
    int64_t number;
    double real;
    struct text text; /* of TEXT and BLOB */
};

static void free_value(struct value *value) {
    free(value->text.bytes);
    value->text = (struct text){0};
}

/* Returns true if this is the text, byte by byte. */
static bool is_words(const struct value *value, const char *words) {
    return value->type == TEXT && value->text.length == strlen(words)
        && memcmp(value->text.bytes, words, value->text.length) == 0;
}

/* Orders values by type and content, and returns less than, equal to or more than 0 as strcmp. */
static int compare(const struct value *one, const struct value *other) {
    if (one->type != other->type)
        return one->type < other->type ? -1 : 1;
    if (one->type == INTEGER)
        return (one->number > other->number) - (one->number < other->number);
    if (one->type == REAL)
        return (one->real > other->real) - (one->real < other->real);
    size_t one_length = one->text.length, other_length = other->text.length;
    size_t common = one_length < other_length ? one_length : other_length;
    int order = common > 0 ? memcmp(one->text.bytes, other->text.bytes, common) : 0;
    return order != 0 ? order : (one_length > other_length) - (one_length < other_length);
}
