/* Of verify.c: numbers and digests that printouts and exports show. */
#define MOST_OF_A_FIELD 131072 /* characters of a field of an export, as verify.py has it */

/* ---- What is known from elsewhere ---- */

/* An entry of a printout or an export. `source` is TYPED or the path of the export. */
struct known {
    int64_t number;
    struct value digest;
    const char *source;
    size_t order; /* its place among all that were given */
};

static const char TYPED[] = "--known";

/* Everything that was given, in the order of numbers, and of one number in the order given. */
struct given {
    struct known *known;
    size_t count;
};

static void add_known(struct given *given, int64_t number, const char *digest, size_t length,
                      const char *source) {
    given->known = grown(given->known, given->count, sizeof *given->known);
    struct known *known = &given->known[given->count];
    *known = (struct known){.number = number, .source = source, .order = given->count++};
    known->digest.type = TEXT;
    add_bytes(&known->digest.text, digest, length);
}

/* Adds the number and digest that somebody typed. A digest that isn't whole would look like a
 * changed one. */
static void add_typed(struct given *given, const char *number, const char *digest) {
    size_t length = strlen(digest);
    int64_t found = number_in(number, strlen(number));
    bool is_utf8;
    if (found < 0)
        refuse("--known: %s is no number of an entry", number);
    if (!is_of(digest, length, DIGEST_LENGTH, DIGEST_LENGTH, DIGITS "abcdef")) {
        size_t count = characters_in(digest, length, &is_utf8);
        char what[48] = "a character that no digest has";
        if (count != DIGEST_LENGTH)
            snprintf(what, sizeof what, "%zu characters", count);
        refuse("--known: the digest of number %s has %s: type all 64 of 0 to 9 and a to f, in small "
               "letters and without blanks", number, what);
    }
    add_known(given, found, digest, length, TYPED);
}

/* A record of an export: its fields one after another, and where each of them ends. */
struct record {
    struct text bytes;
    size_t *ends;
    size_t fields;
};

static void end_field(struct record *record) {
    record->ends = grown(record->ends, record->fields, sizeof *record->ends);
    record->ends[record->fields++] = record->bytes.length;
}

static void free_record(struct record *record) {
    free(record->bytes.bytes);
    free(record->ends);
    *record = (struct record){0};
}

/* Adds the next field's bytes, up to the comma or line end behind it. Returns the byte where it
 * stopped. A quote is one only where the field begins. */
static size_t add_field(struct record *record, const struct text *file, size_t at,
                        const char *path) {
    size_t begin = record->bytes.length;
    bool is_quoted = at < file->length && file->bytes[at] == '"', is_open = is_quoted, is_utf8;
    for (at += is_quoted; at < file->length; at++) {
        char letter = file->bytes[at];
        if (is_open && letter == '"') {
            is_open = false;
        } else if (is_quoted && letter == '"') {
            is_open = true;
            add_bytes(&record->bytes, &letter, 1);
        } else if (!is_open && (letter == ',' || letter == '\n' || letter == '\r')) {
            break;
        } else {
            is_quoted = is_open;
            add_bytes(&record->bytes, &letter, 1);
        }
    }
    if (record->bytes.length - begin > MOST_OF_A_FIELD
        && characters_in(record->bytes.bytes + begin, record->bytes.length - begin, &is_utf8)
            > MOST_OF_A_FIELD)
        refuse("%s is no export of a journal: field larger than field limit (%d)", path,
               MOST_OF_A_FIELD);
    return at;
}

/* Reads the record that begins at byte `at`, and returns the byte behind its line end. A line
 * without a byte is a record without a field. */
static size_t read_record(struct record *record, const struct text *file, size_t at,
                          const char *path) {
    bool is_empty = file->bytes[at] == '\n' || file->bytes[at] == '\r';
    *record = (struct record){0};
    add_bytes(&record->bytes, "", 0);
    while (!is_empty) {
        at = add_field(record, file, at, path);
        end_field(record);
        if (at == file->length || file->bytes[at] != ',')
            break;
        at++;
    }
    if (at + 1 < file->length && file->bytes[at] == '\r' && file->bytes[at + 1] == '\n')
        at++;
    return at < file->length ? at + 1 : at;
}

/* Finds the bytes of a field. Returns false if the record ends before it. */
static bool finds_field(const struct record *record, size_t field, const char **bytes,
                        size_t *length) {
    if (field >= record->fields)
        return false;
    size_t begin = field > 0 ? record->ends[field - 1] : 0;
    *bytes = record->bytes.bytes + begin;
    *length = record->ends[field] - begin;
    return true;
}

/* Returns the last column of this name, or the count of columns if there is none. */
static size_t column_of(const struct record *header, const char *name) {
    size_t found = header->fields, length;
    const char *bytes;
    for (size_t field = 0; finds_field(header, field, &bytes, &length); field++)
        if (length == strlen(name) && memcmp(bytes, name, length) == 0)
            found = field;
    return found;
}

/* Adds number and digest of each entry in an export of the journal. */
static void add_export(struct given *given, const char *path) {
    struct text file = file_bytes(path);
    struct record record = {0};
    size_t at = 0, length = 0, digest_length = 0, records = 0;
    const char *bytes, *digest;
    bool is_utf8;
    characters_in(file.bytes, file.length, &is_utf8);
    if (!is_utf8)
        refuse("%s is no export of a journal: it isn't UTF-8", path);
    if (file.length > 0)
        at = read_record(&record, &file, at, path);
    size_t numbers = column_of(&record, "number"), digests = column_of(&record, "digest");
    if (numbers == record.fields || digests == record.fields)
        refuse("%s is no export of a journal: its first line names no columns number and digest",
               path);
    free_record(&record);
    while (at < file.length) {
        at = read_record(&record, &file, at, path);
        records += record.fields > 0;
        bool is_whole = finds_field(&record, numbers, &bytes, &length)
            && finds_field(&record, digests, &digest, &digest_length)
            && number_in(bytes, length) > 0;
        if (record.fields > 0 && !is_whole)
            refuse("%s is no export of a journal: record %zu below its first line has no number "
                   "and digest of an entry", path, records);
        if (record.fields > 0)
            add_known(given, number_in(bytes, length), digest, digest_length, path);
        free_record(&record);
    }
    free(file.bytes);
}

static int by_number_and_order(const void *one, const void *other) {
    const struct known *left = one, *right = other;
    if (left->number != right->number)
        return left->number < right->number ? -1 : 1;
    return (left->order > right->order) - (left->order < right->order);
}

static int by_order(const void *one, const void *other) {
    const struct known *left = one, *right = other;
    return (left->order > right->order) - (left->order < right->order);
}

/* Returns the place behind the last known entry with the number of the one at `from`. */
static size_t end_of_group(const struct given *given, size_t from) {
    size_t to = from + 1;
    while (to < given->count && given->known[to].number == given->known[from].number)
        to++;
    return to;
}

/* Returns true if each digest that was given for the number at `from` is this one. */
static bool are_all(const struct given *given, size_t from, const struct value *digest) {
    for (size_t at = from; at < end_of_group(given, from); at++)
        if (compare(&given->known[at].digest, digest) != 0)
            return false;
    return true;
}
