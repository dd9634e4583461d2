/* The baseline of the bench: a plain C implementation of the check, the shortener, the writer, the two Tib checks, the QForm reader and the
 * reading of reals in decimals.
 *
 * It is what a C programmer would write first and keep: one pass of recursion per task, a table that is searched from its start,
 * and a shortener that writes a nested message where it will most likely stand and moves it if its length needs more octets. The
 * check finds in its one pass whether a message is short already, and the shortener copies such a message. A mask on 64 bits, one for
 * each entry of the table, keeps which single fields a message has.
 */
#include "plain.h"

#include <string.h>

#include "../include/crudvim.h"

enum {
    MESSAGE_LIMIT = 65536,
    DEPTH_LIMIT = 8,
    MOST_OPEN = 7,
    TABLE_LIMIT = 64,
    LAST_REVISION = 2,
    TIBMSG_HEADER = 9,
    TIBRV_HEADER = 8,
    QFORM_HEADER = 8,
    DICTIONARY_LIMIT = 512,
    DICTIONARY_RECORD = 8,
    FIDS = 16384,
    LAST_TYPE = 21,
    GROCERY = 15,
    GROCERY_SIZE = 9,
    TENTHS = 17, /* the hints of decimals: from tenths to billionths */
    BILLIONTHS = 25
};

enum kind { RAW, UINT, INT, STRING, TEXT, MESSAGE };

/* The key is the message number and the field tag in one number, so that one comparison finds an entry. Under revision 1 no entry is
 * single. */
struct entry {
    uint32_t key;
    uint8_t kind;
    uint8_t inner;
    uint8_t single; /* 0 or 1 */
};

/* Behind the last entry stands one of kind RAW. */
struct table {
    size_t count;
    struct entry entries[TABLE_LIMIT + 1];
};

struct field {
    uint32_t tag;
    enum kind kind;
    unsigned inner;
    size_t order; /* of its entry */
    const uint8_t *contents;
    size_t length;
};

/* What a walk over a message has found so far. The start is that of the lent buffer, for the places. */
struct walk {
    const struct table *table;
    const uint8_t *start;
    uint64_t fields;
    uint64_t depth;
    uint64_t place;
    int longer; /* some control part or number has more octets than it needs */
};

static uint64_t big_endian(const uint8_t *octets, size_t count)
{
    uint64_t value = 0;
    for (size_t i = 0; i < count; i++)
        value = value << 8 | octets[i];
    return value;
}

static uint8_t *put_big_endian(uint8_t *out, uint64_t value, size_t count)
{
    for (size_t i = count; i > 0; i--) {
        out[i - 1] = (uint8_t)value;
        value >>= 8;
    }
    return out + count;
}

/* ---- the field table ---- */

/* The order of the entry for a message number and a tag; the count of entries if there is none. */
static size_t find(const struct table *table, unsigned number, uint32_t tag)
{
    uint32_t key = (uint32_t)number << 16 | tag;
    for (size_t i = 0; i < table->count; i++)
        if (table->entries[i].key == key)
            return i;
    return table->count;
}

/* The count of octets of the record at the front, or 0 if it is cut or faulty. A record of nine octets ends with a mark. */
static size_t record_size(const uint8_t *record, size_t left)
{
    if (left < 8 || record[0] != 1 || record[1] != 0)
        return 0;
    size_t size = 3 + (size_t)record[2];
    unsigned kind = record[6];
    if (size != 8 && (size != 9 || left < 9 || record[8] > 1))
        return 0;
    if (record[3] > 15 || kind < UINT || kind > MESSAGE || record[7] > (kind == MESSAGE ? 15 : 0))
        return 0;
    return size;
}

static uint64_t load(struct table *table, const uint8_t *octets, size_t len, uint64_t revision, uint64_t *place)
{
    size_t size;
    table->count = 0;
    for (size_t at = 0; at < len; at += size) {
        const uint8_t *record = octets + at;
        size = record_size(record, len - at);
        if (size == 0 || table->count == TABLE_LIMIT) {
            *place = at;
            return CRUDVIM_TABLE;
        }
        uint32_t tag = (uint32_t)record[4] << 8 | record[5];
        if (find(table, record[3], tag) < table->count) {
            *place = at;
            return CRUDVIM_TABLE;
        }
        struct entry *entry = &table->entries[table->count++];
        entry->key = (uint32_t)record[3] << 16 | tag;
        entry->kind = record[6];
        entry->inner = record[7];
        entry->single = revision == 2 && size == 9 && record[8] == 1;
    }
    table->entries[table->count] = (struct entry){0, RAW, 0, 0};
    return CRUDVIM_ACCEPTED;
}

/* ---- reading one field ---- */

/* Reads the field that starts at `at`, which is before the end. Looks at its control part and its length, not at its contents. Without
 * the word inline gcc would call it for each field, and the check would take a third more instructions. */
static inline uint64_t read_field(const struct table *table, unsigned number, const uint8_t *at, const uint8_t *end,
                                  struct field *field)
{
    size_t left = (size_t)(end - at);
    unsigned high = at[0] >> 4;
    unsigned low = at[0] & 15;
    size_t tag_size = high < 14 ? 0 : high - 13;
    size_t length_size = low < 12 ? 0 : (size_t)1 << (low - 12);
    size_t control = 1 + tag_size + length_size;
    if (left < control)
        return CRUDVIM_CUT;
    uint32_t tag = tag_size == 0 ? high : (uint32_t)big_endian(at + 1, tag_size);
    uint64_t length = length_size == 0 ? low : big_endian(at + 1 + tag_size, length_size);
    if (length > left - control)
        return CRUDVIM_PAST_THE_END;
    size_t order = find(table, number, tag);
    field->tag = tag;
    field->kind = table->entries[order].kind;
    field->inner = table->entries[order].inner;
    field->order = order;
    field->contents = at + control;
    field->length = (size_t)length;
    return CRUDVIM_ACCEPTED;
}

/* UTF-8 as RFC 3629 has it. The lead says how many octets follow, and some leads leave the first of these a narrower range: else
 * the form would not be the shortest, or the value a surrogate or above 10ffff. */
static int text_good(const uint8_t *at, size_t length)
{
    const uint8_t *end = at + length;
    while (at < end) {
        uint8_t lead = *at++;
        uint8_t low = 0x80, high = 0xbf;
        size_t more;
        if (lead < 0x80)
            continue;
        if (lead >= 0xc2 && lead < 0xe0)
            more = 1;
        else if (lead >= 0xe0 && lead < 0xf0)
            more = 2;
        else if (lead >= 0xf0 && lead < 0xf5)
            more = 3;
        else
            return 0;
        switch (lead) {
        case 0xe0: low = 0xa0; break;
        case 0xed: high = 0x9f; break;
        case 0xf0: low = 0x90; break;
        case 0xf4: high = 0x8f; break;
        }
        if ((size_t)(end - at) < more || *at < low || *at > high)
            return 0;
        at++;
        for (; more > 1; more--)
            if ((*at++ & 0xc0) != 0x80)
                return 0;
    }
    return 1;
}

/* ---- the check ---- */

/* Whether the control part at `at` has more octets than its tag and length need. A control part of one octet never has. */
static inline int control_longer(const uint8_t *at, const struct field *field)
{
    static const uint64_t least[] = {12, 256, 65536, (uint64_t)1 << 32};
    unsigned high = at[0] >> 4;
    unsigned low = at[0] & 15;
    if (high >= 14 && field->tag < (high == 14 ? 14 : 256))
        return 1;
    return low >= 12 && field->length < least[low - 12];
}

/* Whether an int has an octet more than it needs. Then its first octet has only the sign, and the rest has room for the size and a
 * sign, or the number is a negative power of two that the sign bit of the rest alone means. A sign bit without a size is the lowest
 * number, and needs all its octets. */
static inline int int_longer(const uint8_t *contents, size_t length)
{
    if (length < 2)
        return length == 1 && contents[0] == 0;
    if ((contents[0] & 0x7f) != 0)
        return 0;
    if (contents[0] == 0)
        return contents[1] < 0x80;
    uint64_t size = big_endian(contents + 1, length - 1);
    return size != 0 && size <= (uint64_t)1 << (8 * (length - 1) - 1);
}

/* Whether a uint or an int has more octets than it needs. */
static inline int number_longer(const struct field *field)
{
    if (field->kind == INT)
        return int_longer(field->contents, field->length);
    return field->length > 0 && field->contents[0] == 0;
}

/* Not to be inlined into itself: gcc would make copies for the outer depths, and the check would take a sixth to a half longer. */
__attribute__((noinline)) static uint64_t check_message(struct walk *walk, unsigned number, const uint8_t *at, const uint8_t *end,
                                                        unsigned depth)
{
    int longer = 0;
    uint64_t seen = 0; /* the single fields so far, each a bit by the order of its entry */
    if (depth > walk->depth)
        walk->depth = depth;
    while (at < end) {
        struct field field;
        uint64_t refusal = read_field(walk->table, number, at, end, &field);
        if (refusal == CRUDVIM_ACCEPTED && walk->table->entries[field.order].single) {
            uint64_t bit = (uint64_t)1 << field.order;
            /* A message too deep comes first, but it is refused at once, so that no repeat of it is reached. */
            if ((seen & bit) != 0)
                refusal = CRUDVIM_REPEATED;
            seen |= bit;
        }
        if (refusal == CRUDVIM_ACCEPTED && field.kind == MESSAGE && depth < DEPTH_LIMIT) {
            refusal = check_message(walk, field.inner, field.contents, field.contents + field.length, depth + 1);
            if (refusal != CRUDVIM_ACCEPTED)
                return refusal;
        } else if (refusal == CRUDVIM_ACCEPTED) {
            if (field.kind == MESSAGE)
                refusal = CRUDVIM_TOO_DEEP;
            else if ((field.kind == UINT || field.kind == INT) && field.length > 8)
                refusal = CRUDVIM_NUMBER_TOO_WIDE;
            else if (field.kind == UINT || field.kind == INT)
                longer |= number_longer(&field);
            else if (field.kind == TEXT && !text_good(field.contents, field.length))
                refusal = CRUDVIM_TEXT;
        }
        if (refusal != CRUDVIM_ACCEPTED) {
            walk->place = (uint64_t)(at - walk->start);
            return refusal;
        }
        longer |= control_longer(at, &field);
        walk->fields++;
        at = field.contents + field.length;
    }
    walk->longer |= longer;
    return CRUDVIM_ACCEPTED;
}

/* Loads the table and checks the message. The walk's place is that of the refusal, 0 if there is none. */
static uint64_t load_and_check(struct table *table, struct walk *walk, const uint8_t *octets, size_t octets_len, uint64_t revision,
                               uint64_t number, const uint8_t *message, size_t message_len)
{
    walk->table = table;
    walk->start = message;
    walk->fields = 0;
    walk->depth = 0;
    walk->place = 0;
    walk->longer = 0;
    if (message_len > MESSAGE_LIMIT)
        return CRUDVIM_TOO_LONG;
    uint64_t refusal = load(table, octets, octets_len, revision, &walk->place);
    if (refusal != CRUDVIM_ACCEPTED)
        return refusal;
    if (revision < 1 || revision > LAST_REVISION || number > 15)
        return CRUDVIM_TABLE;
    return check_message(walk, (unsigned)number, message, message + message_len, 1);
}

uint64_t plain_check(const uint8_t *octets, size_t octets_len, uint64_t revision, uint64_t number, const uint8_t *message,
                     size_t message_len, uint64_t *place, uint64_t *fields, uint64_t *depth, uint64_t *shortest)
{
    struct table table;
    struct walk walk;
    uint64_t refusal = load_and_check(&table, &walk, octets, octets_len, revision, number, message, message_len);
    *place = walk.place;
    *fields = refusal == CRUDVIM_ACCEPTED ? walk.fields : 0;
    *depth = refusal == CRUDVIM_ACCEPTED ? walk.depth : 0;
    *shortest = refusal == CRUDVIM_ACCEPTED && !walk.longer;
    return refusal;
}

/* ---- the shortener ---- */

static size_t octets_for(uint64_t value)
{
    size_t count = 0;
    for (; value != 0; value >>= 8)
        count++;
    return count;
}

/* The shortest form of a uint's or an int's contents: answers its count of octets and sets the number that they hold.
 * An int is a sign bit before its size, and a sign bit alone is the negative power of two in its place. */
static size_t short_number(const struct field *field, uint64_t *value)
{
    size_t count = field->length;
    *value = big_endian(field->contents, count);
    if (field->kind == UINT || count == 0)
        return octets_for(*value);
    uint64_t sign = *value & (uint64_t)1 << (8 * count - 1);
    uint64_t size = *value ^ sign;
    if (size == 0)
        return sign != 0 ? count : 0;
    size_t least = octets_for(size);
    uint64_t top = (uint64_t)1 << (8 * least - 1);
    if ((size & top) != 0 && (sign == 0 || size != top))
        least++;
    *value = sign != 0 ? size | (uint64_t)1 << (8 * least - 1) : size;
    return least;
}

static size_t control_size(uint32_t tag, size_t length)
{
    size_t size = tag < 14 ? 1 : tag < 256 ? 2 : 3;
    if (length >= 12)
        size += length < 256 ? 1 : length < 65536 ? 2 : 4;
    return size;
}

static uint8_t *put_control(uint8_t *out, uint32_t tag, size_t length)
{
    unsigned high = tag < 14 ? tag : tag < 256 ? 14 : 15;
    unsigned low = length < 12 ? (unsigned)length : length < 256 ? 12 : length < 65536 ? 13 : 14;
    *out++ = (uint8_t)(high << 4 | low);
    if (high >= 14)
        out = put_big_endian(out, tag, high - 13);
    if (low >= 12)
        out = put_big_endian(out, length, (size_t)1 << (low - 12));
    return out;
}

/* The length of the shortest form of a message that the check accepted. */
static size_t short_length(const struct table *table, unsigned number, const uint8_t *at, const uint8_t *end)
{
    size_t total = 0;
    struct field field;
    while (at < end && read_field(table, number, at, end, &field) == CRUDVIM_ACCEPTED) {
        uint64_t value;
        size_t length = field.length;
        if (field.kind == UINT || field.kind == INT)
            length = short_number(&field, &value);
        else if (field.kind == MESSAGE)
            length = short_length(table, field.inner, field.contents, field.contents + field.length);
        total += control_size(field.tag, length) + length;
        at = field.contents + field.length;
    }
    return total;
}

static uint8_t *write_short(const struct table *table, unsigned number, const uint8_t *at, const uint8_t *end, uint8_t *out);

/* Writes the contents of a nested message behind the smallest control part that its tag allows. If their length needs a larger
 * one they are moved up, so no octet beyond the message's own is ever touched. */
static uint8_t *write_nested(const struct table *table, const struct field *field, uint8_t *out)
{
    size_t guess = control_size(field->tag, 0);
    uint8_t *out_end = write_short(table, field->inner, field->contents, field->contents + field->length, out + guess);
    size_t length = (size_t)(out_end - (out + guess));
    size_t control = control_size(field->tag, length);
    if (control != guess)
        memmove(out + control, out + guess, length);
    put_control(out, field->tag, length);
    return out + control + length;
}

/* Writes the shortest form of a message that the check accepted, and answers its end. */
static uint8_t *write_short(const struct table *table, unsigned number, const uint8_t *at, const uint8_t *end, uint8_t *out)
{
    struct field field;
    while (at < end && read_field(table, number, at, end, &field) == CRUDVIM_ACCEPTED) {
        if (field.kind == UINT || field.kind == INT) {
            uint64_t value;
            size_t count = short_number(&field, &value);
            out = put_control(out, field.tag, count);
            out = put_big_endian(out, value, count);
        } else if (field.kind == MESSAGE) {
            out = write_nested(table, &field, out);
        } else {
            out = put_control(out, field.tag, field.length);
            memcpy(out, field.contents, field.length);
            out += field.length;
        }
        at = field.contents + field.length;
    }
    return out;
}

uint64_t plain_shorten(const uint8_t *octets, size_t octets_len, uint64_t revision, uint64_t number, const uint8_t *message,
                       size_t message_len, uint8_t *out, size_t out_len, uint64_t *place, uint64_t *length)
{
    struct table table;
    struct walk walk;
    *length = 0;
    uint64_t refusal = load_and_check(&table, &walk, octets, octets_len, revision, number, message, message_len);
    *place = walk.place;
    if (refusal != CRUDVIM_ACCEPTED)
        return refusal;
    const uint8_t *end = message + message_len;
    if (!walk.longer) {
        if (out_len < message_len)
            return CRUDVIM_NO_ROOM;
        if (message_len > 0)
            memcpy(out, message, message_len);
        *length = message_len;
        return CRUDVIM_ACCEPTED;
    }
    /* The shortest form is never longer than the message, so only a smaller buffer makes the measuring needed. */
    if (out_len < message_len && short_length(&table, (unsigned)number, message, end) > out_len)
        return CRUDVIM_NO_ROOM;
    *length = (uint64_t)(write_short(&table, (unsigned)number, message, end, out) - out);
    return CRUDVIM_ACCEPTED;
}

/* ---- the writer ---- */

/* Whether a state has sound words. The marks do not rise, so the first one is the highest and the last one the lowest. */
static int state_good(const uint64_t *state, size_t state_len)
{
    if (state_len != CRUDVIM_STATE_WORDS)
        return 0;
    const uint64_t *numbers = state + CRUDVIM_STATE_NUMBERS;
    const uint64_t *marks = state + CRUDVIM_STATE_MARKS;
    const uint64_t *tags = state + CRUDVIM_STATE_TAGS;
    uint64_t opened = state[CRUDVIM_STATE_OPENED];
    uint64_t revision = state[CRUDVIM_STATE_REVISION];
    uint64_t lowest = state[CRUDVIM_STATE_LENGTH];
    if (lowest > MESSAGE_LIMIT || opened > MOST_OPEN || revision < 1 || revision > LAST_REVISION || numbers[opened] > 15)
        return 0;
    for (size_t i = 0; i < opened; i++) {
        if (marks[i] > lowest || numbers[i] > 15 || tags[i] > 65535)
            return 0;
        lowest = marks[i];
    }
    return state[CRUDVIM_STATE_START] <= lowest;
}

/* The mask of the innermost message under way. */
static uint64_t *current_mask(uint64_t *state)
{
    return state + CRUDVIM_STATE_MASKS + state[CRUDVIM_STATE_OPENED];
}

/* Loads the table and finds the entry of a tag in the innermost message under way. It has to be of one of the kinds, each a bit, and not
 * a single field that the message has already. Sets the bit that the mask gets for it, 0 if it is not single. */
static uint64_t find_for_put(struct table *table, const uint8_t *octets, size_t octets_len, uint64_t *state, uint64_t tag,
                             unsigned kinds, const struct entry **entry, uint64_t *bit, uint64_t *place)
{
    uint64_t refusal = load(table, octets, octets_len, state[CRUDVIM_STATE_REVISION], place);
    if (refusal != CRUDVIM_ACCEPTED)
        return refusal;
    if (tag > 65535)
        return CRUDVIM_TAG_OR_KIND;
    size_t order = find(table, (unsigned)state[CRUDVIM_STATE_NUMBERS + state[CRUDVIM_STATE_OPENED]], (uint32_t)tag);
    *entry = &table->entries[order];
    if ((kinds >> (*entry)->kind & 1) == 0)
        return CRUDVIM_TAG_OR_KIND;
    *bit = (*entry)->single ? (uint64_t)1 << order : 0;
    return (*current_mask(state) & *bit) != 0 ? CRUDVIM_REPEATED : CRUDVIM_ACCEPTED;
}

/* Puts a field of one of the kinds before the earlier ones. */
static uint64_t put_field(const uint8_t *octets, size_t octets_len, uint64_t *state, size_t state_len, uint64_t tag, unsigned kinds,
                          const uint8_t *contents, size_t length, uint8_t *buffer, size_t buffer_len, uint64_t *place)
{
    struct table table;
    const struct entry *entry;
    uint64_t bit;
    *place = 0;
    if (!state_good(state, state_len) || buffer_len != state[CRUDVIM_STATE_LENGTH])
        return CRUDVIM_STATE;
    uint64_t refusal = find_for_put(&table, octets, octets_len, state, tag, kinds, &entry, &bit, place);
    if (refusal != CRUDVIM_ACCEPTED)
        return refusal;
    if (entry->kind == TEXT && !text_good(contents, length))
        return CRUDVIM_TEXT;
    size_t start = (size_t)state[CRUDVIM_STATE_START];
    size_t control = control_size((uint32_t)tag, length);
    if (control > start || length > start - control)
        return CRUDVIM_NO_ROOM;
    start -= control + length;
    put_control(buffer + start, (uint32_t)tag, length);
    if (length > 0)
        memcpy(buffer + start + control, contents, length);
    *current_mask(state) |= bit;
    state[CRUDVIM_STATE_START] = start;
    return CRUDVIM_ACCEPTED;
}

uint64_t plain_start(const uint8_t *octets, size_t octets_len, uint64_t revision, uint64_t number, const uint8_t *buffer,
                     size_t buffer_len, uint64_t *state, size_t state_len, uint64_t *place)
{
    struct table table;
    (void)buffer;
    *place = 0;
    if (state_len > 0)
        memset(state, 0, state_len * sizeof *state);
    if (state_len != CRUDVIM_STATE_WORDS)
        return CRUDVIM_STATE;
    if (buffer_len > MESSAGE_LIMIT)
        return CRUDVIM_TOO_LONG;
    uint64_t refusal = load(&table, octets, octets_len, revision, place);
    if (refusal != CRUDVIM_ACCEPTED)
        return refusal;
    if (revision < 1 || revision > LAST_REVISION || number > 15)
        return CRUDVIM_TABLE;
    state[CRUDVIM_STATE_LENGTH] = state[CRUDVIM_STATE_START] = buffer_len;
    state[CRUDVIM_STATE_REVISION] = revision;
    state[CRUDVIM_STATE_NUMBERS] = number;
    return CRUDVIM_ACCEPTED;
}

uint64_t plain_put_uint(const uint8_t *octets, size_t octets_len, uint64_t *state, size_t state_len, uint64_t tag, uint64_t value,
                        uint8_t *buffer, size_t buffer_len, uint64_t *place)
{
    uint8_t contents[8];
    size_t count = octets_for(value);
    put_big_endian(contents, value, count);
    return put_field(octets, octets_len, state, state_len, tag, 1u << UINT, contents, count, buffer, buffer_len, place);
}

/* The sign bit is that of the first octet, which has room for it if the size leaves it free or is a negative power of two. */
uint64_t plain_put_int(const uint8_t *octets, size_t octets_len, uint64_t *state, size_t state_len, uint64_t tag, int64_t value,
                       uint8_t *buffer, size_t buffer_len, uint64_t *place)
{
    uint8_t contents[8];
    uint64_t size = value < 0 ? -(uint64_t)value : (uint64_t)value;
    size_t count = octets_for(size);
    if (count > 0) {
        uint64_t top = (uint64_t)1 << (8 * count - 1);
        if ((size & top) != 0 && (value > 0 || size != top))
            count++;
        put_big_endian(contents, size, count);
        if (value < 0)
            contents[0] |= 0x80;
    }
    return put_field(octets, octets_len, state, state_len, tag, 1u << INT, contents, count, buffer, buffer_len, place);
}

uint64_t plain_put_octets(const uint8_t *octets, size_t octets_len, uint64_t *state, size_t state_len, uint64_t tag,
                          const uint8_t *contents, size_t contents_len, uint8_t *buffer, size_t buffer_len, uint64_t *place)
{
    return put_field(octets, octets_len, state, state_len, tag, 1u << STRING | 1u << TEXT, contents, contents_len, buffer, buffer_len,
                     place);
}

uint64_t plain_open(const uint8_t *octets, size_t octets_len, uint64_t *state, size_t state_len, uint64_t tag, uint64_t *place)
{
    struct table table;
    const struct entry *entry;
    uint64_t bit;
    *place = 0;
    if (!state_good(state, state_len))
        return CRUDVIM_STATE;
    uint64_t refusal = find_for_put(&table, octets, octets_len, state, tag, 1u << MESSAGE, &entry, &bit, place);
    if (refusal != CRUDVIM_ACCEPTED)
        return refusal;
    uint64_t opened = state[CRUDVIM_STATE_OPENED];
    if (opened == MOST_OPEN)
        return CRUDVIM_TOO_DEEP;
    *current_mask(state) |= bit;
    state[CRUDVIM_STATE_MARKS + opened] = state[CRUDVIM_STATE_START];
    state[CRUDVIM_STATE_TAGS + opened] = tag;
    state[CRUDVIM_STATE_OPENED] = ++opened;
    state[CRUDVIM_STATE_NUMBERS + opened] = entry->inner;
    state[CRUDVIM_STATE_MASKS + opened] = 0;
    return CRUDVIM_ACCEPTED;
}

uint64_t plain_close(const uint8_t *octets, size_t octets_len, uint64_t *state, size_t state_len, uint8_t *buffer, size_t buffer_len,
                     uint64_t *place)
{
    struct table table;
    *place = 0;
    if (!state_good(state, state_len) || buffer_len != state[CRUDVIM_STATE_LENGTH])
        return CRUDVIM_STATE;
    uint64_t refusal = load(&table, octets, octets_len, state[CRUDVIM_STATE_REVISION], place);
    if (refusal != CRUDVIM_ACCEPTED)
        return refusal;
    uint64_t opened = state[CRUDVIM_STATE_OPENED];
    if (opened == 0)
        return CRUDVIM_NOTHING_OPEN;
    uint32_t tag = (uint32_t)state[CRUDVIM_STATE_TAGS + opened - 1];
    size_t start = (size_t)state[CRUDVIM_STATE_START];
    size_t length = (size_t)state[CRUDVIM_STATE_MARKS + opened - 1] - start;
    size_t control = control_size(tag, length);
    if (control > start)
        return CRUDVIM_NO_ROOM;
    put_control(buffer + start - control, tag, length);
    state[CRUDVIM_STATE_OPENED] = opened - 1;
    state[CRUDVIM_STATE_START] = start - control;
    return CRUDVIM_ACCEPTED;
}

uint64_t plain_finish(const uint64_t *state, size_t state_len, uint64_t *place, uint64_t *start)
{
    *place = *start = 0;
    if (!state_good(state, state_len))
        return CRUDVIM_STATE;
    if (state[CRUDVIM_STATE_OPENED] > 0)
        return CRUDVIM_STILL_OPEN;
    *start = state[CRUDVIM_STATE_START];
    return CRUDVIM_ACCEPTED;
}

/* ---- the Tib messages ---- */

static int number_size(uint64_t size)
{
    return size == 1 || size == 2 || size == 4 || size == 8;
}

/* Reads the name and its size octet, and moves `at` behind them. */
static uint64_t skip_name(const uint8_t **at, const uint8_t *end)
{
    size_t size = **at;
    const uint8_t *name = *at + 1;
    if ((size_t)(end - name) < size)
        return CRUDVIM_CUT;
    if (size > 0 && memchr(name, 0, size) != name + size - 1)
        return CRUDVIM_NAME;
    *at = name + size;
    return CRUDVIM_ACCEPTED;
}

/* Reads the hint of a field of a type and a data size, and moves `at` behind it. */
static uint64_t skip_hint(const uint8_t **at, const uint8_t *end, unsigned type, size_t size)
{
    const uint8_t *hint = *at;
    if (end - hint < 2)
        return CRUDVIM_CUT;
    *at = hint + 2;
    if (type == 9)
        return hint[0] == 6 ? CRUDVIM_ACCEPTED : CRUDVIM_TYPE_SIZE_OR_HINT;
    if (!number_size(hint[1]))
        return CRUDVIM_TYPE_SIZE_OR_HINT;
    if (type == 8) {
        int good = hint[0] >= 4 && hint[0] <= 7 && size % hint[1] == 0;
        return good ? CRUDVIM_ACCEPTED : CRUDVIM_TYPE_SIZE_OR_HINT;
    }
    if (hint[0] != 5 && hint[0] != 6)
        return CRUDVIM_TYPE_SIZE_OR_HINT;
    if (end - *at < hint[1])
        return CRUDVIM_CUT;
    *at += hint[1];
    return CRUDVIM_ACCEPTED;
}

/* Reads one field of a TibMsg, and moves `at` behind it. */
static uint64_t skip_tibmsg_field(const uint8_t **at, const uint8_t *end)
{
    uint64_t refusal = skip_name(at, end);
    if (refusal != CRUDVIM_ACCEPTED)
        return refusal;
    if (*at == end)
        return CRUDVIM_CUT;
    unsigned octet = *(*at)++;
    unsigned type = octet & 15;
    int hinted = (octet & 0x40) != 0;
    if (type > 10 || (octet & 0x30) != 0 || ((type == 8 || type == 9) && !hinted))
        return CRUDVIM_TYPE_SIZE_OR_HINT;
    size_t width = (octet & 0x80) != 0 ? 4 : 1;
    if ((size_t)(end - *at) < width)
        return CRUDVIM_CUT;
    size_t size = (size_t)big_endian(*at, width);
    *at += width;
    if ((type == 5 || type == 6) && !number_size(size))
        return CRUDVIM_TYPE_SIZE_OR_HINT;
    if (type == 7 && size != 4 && size != 8)
        return CRUDVIM_TYPE_SIZE_OR_HINT;
    if ((size_t)(end - *at) < size)
        return CRUDVIM_PAST_THE_END;
    *at += size;
    return hinted ? skip_hint(at, end, type, size) : CRUDVIM_ACCEPTED;
}

static uint64_t tibmsg_header(const uint8_t *message, size_t message_len)
{
    static const uint8_t magic[5] = {0xce, 0x13, 0xaa, 0x1f, 1};
    if (message_len > MESSAGE_LIMIT)
        return CRUDVIM_TOO_LONG;
    if (message_len < TIBMSG_HEADER)
        return CRUDVIM_CUT;
    if (memcmp(message, magic, sizeof magic) != 0)
        return CRUDVIM_MAGIC;
    return big_endian(message + 5, 4) == message_len - TIBMSG_HEADER ? CRUDVIM_ACCEPTED : CRUDVIM_SIZE;
}

uint64_t plain_tibmsg_check(const uint8_t *message, size_t message_len, uint64_t *place, uint64_t *fields, uint64_t *depth)
{
    *place = *fields = *depth = 0;
    uint64_t refusal = tibmsg_header(message, message_len);
    if (refusal != CRUDVIM_ACCEPTED)
        return refusal;
    const uint8_t *at = message + TIBMSG_HEADER;
    const uint8_t *end = message + message_len;
    uint64_t count = 0;
    while (at < end) {
        const uint8_t *start = at;
        refusal = skip_tibmsg_field(&at, end);
        if (refusal != CRUDVIM_ACCEPTED) {
            *place = (uint64_t)(start - message);
            return refusal;
        }
        count++;
    }
    *fields = count;
    *depth = 1;
    return CRUDVIM_ACCEPTED;
}

/* Reads the size of a TibrvMsg field and moves `at` to its data, which for a nested message are its size octets. */
static uint64_t skip_tibrv_size(const uint8_t **at, const uint8_t *end, unsigned type, size_t *size)
{
    if (*at == end)
        return CRUDVIM_CUT;
    unsigned marker = *(*at)++;
    if (marker > 0x7a)
        return CRUDVIM_TYPE_SIZE_OR_HINT;
    size_t width = marker < 0x79 ? 0 : marker == 0x79 ? 2 : 4;
    if ((size_t)(end - *at) < width)
        return CRUDVIM_CUT;
    size_t count = width == 0 ? marker : (size_t)big_endian(*at, width);
    size_t own = width == 0 ? 1 : width;
    if (count < own || (type == 1 && width != 4))
        return CRUDVIM_TYPE_SIZE_OR_HINT;
    if (type == 1) {
        *size = count;
    } else {
        *size = count - own;
        *at += width;
    }
    return (size_t)(end - *at) < *size ? CRUDVIM_PAST_THE_END : CRUDVIM_ACCEPTED;
}

static int tibrv_magic_good(const uint8_t *message)
{
    static const uint8_t magic[4] = {0x99, 0x55, 0xee, 0xaa};
    return memcmp(message + 4, magic, sizeof magic) == 0;
}

static uint64_t tibrv_message(struct walk *walk, const uint8_t *message, const uint8_t *end, unsigned depth)
{
    walk->place = (uint64_t)(message - walk->start);
    if (end - message < TIBRV_HEADER)
        return CRUDVIM_CUT;
    if (!tibrv_magic_good(message))
        return CRUDVIM_MAGIC;
    if (depth > walk->depth)
        walk->depth = depth;
    if (depth == 1 && big_endian(message, 4) != (uint64_t)(end - message))
        return CRUDVIM_SIZE;
    const uint8_t *at = message + TIBRV_HEADER;
    while (at < end) {
        walk->place = (uint64_t)(at - walk->start);
        size_t size;
        uint64_t refusal = skip_name(&at, end);
        if (refusal != CRUDVIM_ACCEPTED)
            return refusal;
        if (at == end)
            return CRUDVIM_CUT;
        unsigned type = *at++;
        refusal = skip_tibrv_size(&at, end, type, &size);
        if (refusal != CRUDVIM_ACCEPTED)
            return refusal;
        if (type == 1) {
            if (depth == DEPTH_LIMIT)
                return CRUDVIM_TOO_DEEP;
            refusal = tibrv_message(walk, at, at + size, depth + 1);
            if (refusal != CRUDVIM_ACCEPTED)
                return refusal;
        }
        at += size;
        walk->fields++;
    }
    return CRUDVIM_ACCEPTED;
}

uint64_t plain_tibrv_check(const uint8_t *message, size_t message_len, uint64_t *place, uint64_t *fields, uint64_t *depth)
{
    struct walk walk = {.start = message};
    uint64_t refusal = CRUDVIM_TOO_LONG;
    if (message_len <= MESSAGE_LIMIT)
        refusal = tibrv_message(&walk, message, message + message_len, 1);
    *place = refusal == CRUDVIM_ACCEPTED ? 0 : walk.place;
    *fields = refusal == CRUDVIM_ACCEPTED ? walk.fields : 0;
    *depth = refusal == CRUDVIM_ACCEPTED ? walk.depth : 0;
    return refusal;
}

/* ---- QForm ---- */

/* For each fid, how many pairs of octets its field has, the FID and the padding octet included: 0 if the fid is not in the dictionary,
 * and else from 1 to 32769. */
typedef uint16_t pairs_of_fid[FIDS];

/* Reads the dictionary. On a refusal the place is that of the faulty record. */
static uint64_t load_dictionary(pairs_of_fid pairs, const uint8_t *dictionary, size_t dictionary_len, uint64_t *place)
{
    memset(pairs, 0, FIDS * sizeof pairs[0]);
    for (size_t at = 0; at < dictionary_len; at += DICTIONARY_RECORD) {
        const uint8_t *record = dictionary + at;
        *place = at;
        if (at == DICTIONARY_LIMIT * DICTIONARY_RECORD || dictionary_len - at < DICTIONARY_RECORD)
            return CRUDVIM_TABLE;
        unsigned fid = (unsigned)record[3] << 8 | record[4];
        unsigned type = record[5];
        unsigned size = (unsigned)record[6] << 8 | record[7];
        if (record[0] != 2 || record[1] != 0 || record[2] != 5 || fid >= FIDS || pairs[fid] != 0)
            return CRUDVIM_TABLE;
        if (type > LAST_TYPE || (type == GROCERY && size != GROCERY_SIZE))
            return CRUDVIM_TABLE;
        pairs[fid] = (uint16_t)(1 + (size + 1) / 2);
    }
    *place = 0;
    return CRUDVIM_ACCEPTED;
}

static uint64_t qform_header(const uint8_t *message, size_t message_len)
{
    static const uint8_t magic[4] = {0x11, 0x11, 0x11, 0x12};
    if (message_len < QFORM_HEADER)
        return CRUDVIM_CUT;
    if (memcmp(message, magic, sizeof magic) != 0)
        return CRUDVIM_MAGIC;
    return big_endian(message + 4, 4) == message_len - QFORM_HEADER ? CRUDVIM_ACCEPTED : CRUDVIM_SIZE;
}

/* The size of the field at the front, of which so many octets are left, with its FID and its padding octet. */
static inline uint64_t qform_field_size(const pairs_of_fid pairs, const uint8_t *field, size_t left, size_t *size)
{
    if (left < 2)
        return CRUDVIM_CUT;
    unsigned octets = (unsigned)field[0] << 8 | field[1];
    if (octets < 0xc000)
        return CRUDVIM_TYPE_SIZE_OR_HINT;
    *size = 2 * (size_t)pairs[octets - 0xc000];
    if (*size == 0)
        return CRUDVIM_NOT_IN_DICTIONARY;
    return *size > left ? CRUDVIM_PAST_THE_END : CRUDVIM_ACCEPTED;
}

/* Checks the whole message and counts its fields. On the way it notes where the k-th field stands; at 0 if there is none. */
static inline uint64_t walk_qform(const uint8_t *dictionary, size_t dictionary_len, const uint8_t *message, size_t message_len,
                                  uint64_t k, uint64_t *place, uint64_t *fields, size_t *found)
{
    pairs_of_fid pairs;
    *place = 0;
    if (message_len > MESSAGE_LIMIT)
        return CRUDVIM_TOO_LONG;
    uint64_t refusal = load_dictionary(pairs, dictionary, dictionary_len, place);
    if (refusal == CRUDVIM_ACCEPTED)
        refusal = qform_header(message, message_len);
    if (refusal != CRUDVIM_ACCEPTED)
        return refusal;
    uint64_t count = 0;
    size_t at = QFORM_HEADER;
    while (at < message_len) {
        size_t size = 0;
        refusal = qform_field_size(pairs, message + at, message_len - at, &size);
        if (refusal != CRUDVIM_ACCEPTED) {
            *place = at;
            return refusal;
        }
        if (count == k)
            *found = at;
        count++;
        at += size;
    }
    *fields = count;
    return CRUDVIM_ACCEPTED;
}

uint64_t plain_qform_check(const uint8_t *dictionary, size_t dictionary_len, const uint8_t *message, size_t message_len,
                           uint64_t *place, uint64_t *fields, uint64_t *depth)
{
    size_t found;
    *fields = 0;
    uint64_t refusal = walk_qform(dictionary, dictionary_len, message, message_len, UINT64_MAX, place, fields, &found);
    *depth = refusal == CRUDVIM_ACCEPTED;
    return refusal;
}

uint64_t plain_qform_field(const uint8_t *dictionary, size_t dictionary_len, const uint8_t *message, size_t message_len, uint64_t k,
                           uint64_t *place, uint64_t *fid, uint64_t *type, uint64_t *data_start, uint64_t *data_length)
{
    uint64_t fields;
    size_t found = 0;
    *fid = *type = *data_start = *data_length = 0;
    uint64_t refusal = walk_qform(dictionary, dictionary_len, message, message_len, k, place, &fields, &found);
    if (refusal != CRUDVIM_ACCEPTED)
        return refusal;
    if (found == 0)
        return CRUDVIM_ABSENT;
    const uint8_t *octets = message + found;
    const uint8_t *record = dictionary;
    while (record[3] != (octets[0] & 0x3f) || record[4] != octets[1])
        record += DICTIONARY_RECORD;
    *fid = big_endian(record + 3, 2);
    *type = record[5];
    *data_start = found + 2;
    *data_length = big_endian(record + 6, 2);
    return CRUDVIM_ACCEPTED;
}

/* ---- reals in decimals ---- */

__extension__ typedef unsigned __int128 uint128;

/* The whole number nearest to product / 2^down, of two the even one. The product is below 2^85, and down is from 2 to 85. An answer over
 * 2^63 only says that the number is over 2^63. The first bit of the rest is a half, and the last one stands for all that are cut off. */
static inline uint64_t nearest(uint128 product, unsigned down)
{
    const uint64_t half = (uint64_t)1 << 63;
    uint64_t high = (uint64_t)(product >> 64);
    uint64_t low = (uint64_t)product;
    uint64_t whole, rest;
    if (down <= 64) {
        if (product >> down > half)
            return UINT64_MAX;
        whole = (uint64_t)(product >> down);
        rest = low << (64 - down);
    } else {
        whole = high >> (down - 64);
        rest = high << (128 - down) | (low != 0);
    }
    return whole + (rest > half - (whole & 1));
}

/* With e the exponent field and s the significand, shifted so that its leading one is bit 63, the real is s * 2^(e - 1086) in size. So 10^k
 * times that is s * 5^k * 2^(e + k - 1086). It is below a half if e + k is below 1001, also for zero and for a significand without a
 * leading one, where e is 0. From 1085 on it is above 2^64, or the real is infinite or not a number. */
uint64_t plain_decimals(uint64_t real_bits, uint64_t hinted, uint64_t hint, uint64_t *place, int64_t *whole)
{
    static const uint32_t fives[] = {1, 5, 25, 125, 625, 3125, 15625, 78125, 390625, 1953125};
    *place = 0;
    *whole = 0;
    if (hinted == 0 || hint < TENTHS || hint > BILLIONTHS)
        return CRUDVIM_NOT_IN_FRACTIONS;
    unsigned k = (unsigned)hint - (TENTHS - 1);
    unsigned exponent = ((unsigned)(real_bits >> 52) & 0x7ff) + k;
    if (exponent >= 1085)
        return CRUDVIM_NOT_IN_FRACTIONS;
    if (exponent < 1001)
        return CRUDVIM_ACCEPTED;
    uint64_t negative = real_bits >> 63;
    uint64_t significand = real_bits << 11 | (uint64_t)1 << 63;
    uint64_t size = nearest((uint128)significand * fives[k], 1086 - exponent);
    if (size > (uint64_t)INT64_MAX + negative)
        return CRUDVIM_NOT_IN_FRACTIONS;
    *whole = (int64_t)(negative ? -size : size);
    return CRUDVIM_ACCEPTED;
}
