/* The bench: the library against the plain implementation in plain.c, on the same inputs, in one run.
 *
 *   bench                        compare all answers, then time every row and both curves
 *   bench --compare              only compare the answers
 *   bench --time                 compare the answers to the rows alone, and `shortest` only if both sides set it, then time
 *                                (compare.py)
 *   bench --time-unmarked        the same without the rows whose table has a record of length 6
 *   bench --list                 the rows: name, call, octets, fields
 *   bench --count ROW SIDE [N]   call a row N times (100 if not said). ROW is as a-meter-table-6:check, SIDE is library or plain.
 *                                It is for counting instructions (counts.py), so it compares and times nothing
 *
 * Every call takes the octets of its table or dictionary, so loading it is part of each of them, on both sides. A call for decimals takes one
 * real. A row has many reals, and its calls take them in turn. A call to build is a run of the writer: start, a step for each field, an open
 * and a close for each nested message, and finish. Each of these loads the table.
 */
#define _POSIX_C_SOURCE 200809L

#include <stdio.h>
#include <stdlib.h>
#include <string.h>
#include <time.h>

#include "../include/crudvim.h"
#include "plain.h"

enum {
    LIMIT = 65536,
    TABLE_ROOM = 513 * 8, /* a dictionary and a record more; a table needs less */
    REVISION = 2, /* of every row that does not say another */
    SAMPLES = 31,
    MAX_ROWS = 128,
    SLACK = 16,
    SMALL_FIELDS = 5,
    SMALL_FIELD_MOST = 6,
    FIDS = 16384,
    DICTIONARY_MOST = 512,
    QFORM_FIELDS = 10, /* of a small message */
    REALS = 16384, /* of a row. Of 4096 the processor still learns the signs. counts.py has this number, too */
    TENTHS = 17,
    DECIMAL_HINTS = 9,
    METER_STEPS = 160, /* enough for a meter reading */
    UNSET = 77
};

enum call { CHECK, SHORTEN, TIBMSG, TIBRV, QFORM, QFORM_FIELD, DECIMALS, BUILD, PUT };
static const char *const call_names[] = {"check", "shorten", "tibmsg", "tibrv", "qform", "qfield", "decimals", "build", "put"};

enum kind { RAW, UINT, INT, STRING, TEXT, MESSAGE };

/* The form of a row's message. The shortener copies a short one, and writes the shortest form of a longer one. */
enum form { SHORT, LONGER };

/* The records of a table's fields that are no message: of length 5, and so without a mark, or of length 6 and marked single. */
enum leaves { MANY, SINGLE };

struct octets {
    uint8_t *data;
    size_t len;
};

/* What a call for decimals takes. */
struct real {
    uint64_t bits;
    uint64_t hinted;
    uint64_t hint;
};

/* What a call of the writer takes beside the table, the state and the buffer. The value of an int is its bits. */
enum step_kind { START, PUT_UINT, PUT_INT, PUT_OCTETS, OPEN, CLOSE, FINISH, KINDS_OF_STEPS };
struct step {
    enum step_kind kind;
    uint64_t tag; /* for start: the message number */
    uint64_t value; /* for start: the revision */
    struct octets octets;
};

/* The reals of the four rows, then others for the comparison. */
enum reals { PRICES, LARGE, TINY, RANDOM, MIDDLE, TIES, ENDS, OUTERMOST, KINDS_OF_REALS };

/* For QForm the table is the dictionary, and the number is that of the field that is asked for. For decimals there are only reals, REALS
 * of them, and the number is that of the one that is asked for. For the writer the message is what the steps write, and the buffer is just
 * as long. */
struct row {
    char name[40];
    enum call call;
    struct octets table;
    uint64_t revision;
    uint64_t number;
    struct octets message;
    size_t out_len;
    uint64_t fields;
    enum form form;
    const struct real *reals;
    const struct step *steps;
    size_t step_count;
};

struct side {
    const char *name;
    uint64_t (*check)(const uint8_t *, size_t, uint64_t, uint64_t, const uint8_t *, size_t, uint64_t *, uint64_t *, uint64_t *,
                      uint64_t *);
    uint64_t (*shorten)(const uint8_t *, size_t, uint64_t, uint64_t, const uint8_t *, size_t, uint8_t *, size_t, uint64_t *,
                        uint64_t *);
    uint64_t (*tibmsg)(const uint8_t *, size_t, uint64_t *, uint64_t *, uint64_t *);
    uint64_t (*tibrv)(const uint8_t *, size_t, uint64_t *, uint64_t *, uint64_t *);
    uint64_t (*qform)(const uint8_t *, size_t, const uint8_t *, size_t, uint64_t *, uint64_t *, uint64_t *);
    uint64_t (*qform_field)(const uint8_t *, size_t, const uint8_t *, size_t, uint64_t, uint64_t *, uint64_t *, uint64_t *, uint64_t *,
                            uint64_t *);
    uint64_t (*decimals)(uint64_t, uint64_t, uint64_t, uint64_t *, int64_t *);
    uint64_t (*start)(const uint8_t *, size_t, uint64_t, uint64_t, const uint8_t *, size_t, uint64_t *, size_t, uint64_t *);
    uint64_t (*put_uint)(const uint8_t *, size_t, uint64_t *, size_t, uint64_t, uint64_t, uint8_t *, size_t, uint64_t *);
    uint64_t (*put_int)(const uint8_t *, size_t, uint64_t *, size_t, uint64_t, int64_t, uint8_t *, size_t, uint64_t *);
    uint64_t (*put_octets)(const uint8_t *, size_t, uint64_t *, size_t, uint64_t, const uint8_t *, size_t, uint8_t *, size_t,
                           uint64_t *);
    uint64_t (*open)(const uint8_t *, size_t, uint64_t *, size_t, uint64_t, uint64_t *);
    uint64_t (*close)(const uint8_t *, size_t, uint64_t *, size_t, uint8_t *, size_t, uint64_t *);
    uint64_t (*finish)(const uint64_t *, size_t, uint64_t *, uint64_t *);
};

static const struct side sides[2] = {
    {"library", crudvim_check, crudvim_shorten, crudvim_tibmsg_check, crudvim_tibrv_check, crudvim_qform_check, crudvim_qform_field,
     crudvim_decimals, crudvim_start, crudvim_put_uint, crudvim_put_int, crudvim_put_octets, crudvim_open, crudvim_close,
     crudvim_finish},
    {"plain", plain_check, plain_shorten, plain_tibmsg_check, plain_tibrv_check, plain_qform_check, plain_qform_field, plain_decimals,
     plain_start, plain_put_uint, plain_put_int, plain_put_octets, plain_open, plain_close, plain_finish},
};

struct answer {
    uint64_t refusal;
    uint64_t place;
    uint64_t first;
    uint64_t second;
    uint64_t shortest;
    uint64_t data; /* of a QForm field: its start and its length in one number */
};

static struct row rows[MAX_ROWS];
static size_t row_count;

/* Takes what the timed calls answer, so that they are not left out. */
static volatile uint64_t sink;

static void fail(const char *what)
{
    fprintf(stderr, "bench: %s\n", what);
    exit(1);
}

static void fail_row(const struct row *row, const char *what)
{
    char text[128];
    snprintf(text, sizeof text, "%s (%s) %s", row->name, call_names[row->call], what);
    fail(text);
}

/* ---- making octets ---- */

#define RANDOM_START 0x9e3779b97f4a7c15u
/* The rows (f) start with this state. So they, and the rows behind them, do not change if the rows before them do. */
#define WIDE_START 0x4084ee54ba4e5bf9u
static uint64_t random_state = RANDOM_START;

static uint64_t random_bits(void)
{
    random_state ^= random_state << 13;
    random_state ^= random_state >> 7;
    random_state ^= random_state << 17;
    return random_state;
}

static size_t random_below(size_t bound)
{
    return (size_t)((random_bits() >> 16) % bound);
}

/* A number of at most so many bits, small ones as likely as large ones. */
static uint64_t random_up_to_bits(size_t most)
{
    size_t bits = 1 + random_below(most);
    return random_bits() >> (64 - bits);
}

static struct octets room(size_t len)
{
    struct octets made = {malloc(len + SLACK), 0};
    if (made.data == NULL)
        fail("no memory");
    return made;
}

static void put(struct octets *to, const void *data, size_t len)
{
    memcpy(to->data + to->len, data, len);
    to->len += len;
}

static void put_number(struct octets *to, uint64_t value, size_t count)
{
    for (size_t i = count; i > 0; i--)
        to->data[to->len++] = i > 8 ? 0 : (uint8_t)(value >> (8 * (i - 1)));
}

static size_t octets_for(uint64_t value)
{
    size_t count = 0;
    for (; value != 0; value >>= 8)
        count++;
    return count;
}

/* A control part with at least so many octets for the tag and for the length; 0 and 0 give the shortest. */
static void put_control(struct octets *to, unsigned tag, uint64_t length, size_t tag_least, size_t length_least)
{
    size_t tag_size = tag < 14 ? 0 : tag < 256 ? 1 : 2;
    size_t length_size = length < 12 ? 0 : length < 256 ? 1 : length < 65536 ? 2 : 4;
    if (tag_size < tag_least)
        tag_size = tag_least;
    if (length_size < length_least)
        length_size = length_least;
    unsigned high = tag_size == 0 ? tag : 13 + (unsigned)tag_size;
    unsigned low = length_size == 0 ? (unsigned)length : length_size == 1 ? 12 : length_size == 2 ? 13 : length_size == 4 ? 14 : 15;
    put_number(to, high << 4 | low, 1);
    put_number(to, tag, tag_size);
    put_number(to, length, length_size);
}

static void put_field(struct octets *to, unsigned tag, const void *contents, size_t len)
{
    put_control(to, tag, len, 0, 0);
    if (len > 0)
        put(to, contents, len);
}

/* A uint on at least so many octets. Where that is 0 it has its shortest form; else its length stands on an octet of its own. */
static void put_wide_uint(struct octets *to, unsigned tag, uint64_t value, size_t least)
{
    size_t count = octets_for(value) < least ? least : octets_for(value);
    put_control(to, tag, count, 0, least > 0);
    put_number(to, value, count);
}

static void put_uint(struct octets *to, unsigned tag, uint64_t value)
{
    put_wide_uint(to, tag, value, 0);
}

/* The least octets of an int of a size below 2^55. They have room for the size and a sign bit. A negative power of two whose bit
 * stands in the place of the sign, as -80 or -8000 (hex), is the sign bit alone. */
static size_t int_octets(int negative, uint64_t size)
{
    size_t count = octets_for(size << 1);
    if (negative && count > 1 && size == (uint64_t)1 << (8 * (count - 1) - 1))
        count--;
    return count;
}

/* The same as put_wide_uint for an int of a size below 2^55. */
static void put_wide_int(struct octets *to, unsigned tag, int negative, uint64_t size, size_t least)
{
    size_t count = int_octets(negative, size) < least ? least : int_octets(negative, size);
    put_control(to, tag, count, 0, least > 0);
    put_number(to, negative && size > 0 ? size | (uint64_t)1 << (8 * count - 1) : size, count);
}

static void put_int(struct octets *to, unsigned tag, int negative, uint64_t size)
{
    put_wide_int(to, tag, negative, size, 0);
}

static void put_record(struct octets *to, unsigned number, unsigned tag, enum kind kind, unsigned inner)
{
    put_number(to, 0x010005, 3);
    put_number(to, number, 1);
    put_number(to, tag, 2);
    put_number(to, kind, 1);
    put_number(to, inner, 1);
}

static void put_marked_record(struct octets *to, unsigned number, unsigned tag, enum kind kind, unsigned inner, unsigned mark)
{
    size_t start = to->len;
    put_record(to, number, tag, kind, inner);
    to->data[start + 2] = 6;
    put_number(to, mark, 1);
}

/* The record of a field that is no message. */
static void put_leaf_record(struct octets *to, unsigned number, unsigned tag, enum kind kind, enum leaves leaves)
{
    if (leaves == SINGLE)
        put_marked_record(to, number, tag, kind, 0, 1);
    else
        put_record(to, number, tag, kind, 0);
}

/* ---- tables ---- */

/* The six entries of a meter reading: message `outer` has a serial number, a time, a unit and readings; message `outer + 1`, a
 * reading, has a register and a value. `higher` is added to every tag. */
static void put_meter_records(struct octets *to, unsigned outer, unsigned higher, enum leaves leaves)
{
    put_leaf_record(to, outer, higher + 1, UINT, leaves);
    put_leaf_record(to, outer, higher + 2, UINT, leaves);
    put_leaf_record(to, outer, higher + 3, TEXT, leaves);
    put_record(to, outer, higher + 4, MESSAGE, outer + 1);
    put_leaf_record(to, outer + 1, higher, UINT, leaves);
    put_leaf_record(to, outer + 1, higher + 1, INT, leaves);
}

static struct octets meter_table(unsigned higher, enum leaves leaves)
{
    struct octets table = room(TABLE_ROOM);
    put_meter_records(&table, 0, higher, leaves);
    return table;
}

static void shuffle_records(uint8_t *records, size_t count)
{
    for (size_t i = count; i > 1; i--) {
        size_t j = random_below(i);
        uint8_t kept[8];
        memcpy(kept, records + 8 * (i - 1), 8);
        memcpy(records + 8 * (i - 1), records + 8 * j, 8);
        memcpy(records + 8 * j, kept, 8);
    }
}

/* 58 entries that the reading does not use, in rising order, then its six, as messages 14 and 15. */
static struct octets full_table(enum leaves leaves)
{
    struct octets table = room(TABLE_ROOM);
    for (unsigned i = 0; i < 58; i++)
        put_leaf_record(&table, i / 6, i % 6, (enum kind)(UINT + i % 4), leaves);
    put_meter_records(&table, 14, 0, leaves);
    return table;
}

/* The same with those 58 in another order, and the six as well. */
static struct octets shuffled_table(void)
{
    struct octets table = full_table(MANY);
    shuffle_records(table.data, 58);
    shuffle_records(table.data + 8 * 58, 6);
    return table;
}

/* The kinds one by one for the larger rows: tag 1 to 4 uint, int, string, text; tag 5 a message with the same entries. */
static struct octets kinds_table(enum leaves leaves)
{
    struct octets table = room(TABLE_ROOM);
    put_leaf_record(&table, 0, 1, UINT, leaves);
    put_leaf_record(&table, 0, 2, INT, leaves);
    put_leaf_record(&table, 0, 3, STRING, leaves);
    put_leaf_record(&table, 0, 4, TEXT, leaves);
    put_record(&table, 0, 5, MESSAGE, 0);
    return table;
}

/* ---- messages ---- */

/* 82 fields: four of the message's own, and 26 readings of a register and a value. Where it is wide, registers have two octets, the
 * other numbers eight, and the lengths of numbers stand on an octet of their own; else every field has its shortest form. `higher`
 * is added to every tag. */
static struct octets meter_message(int wide, unsigned higher)
{
    struct octets message = room(LIMIT);
    size_t number = wide ? 8 : 0;
    put_wide_uint(&message, higher + 1, 40871236, number);
    put_wide_uint(&message, higher + 2, 1760000000, number);
    put_field(&message, higher + 3, "kWh", 3);
    put_field(&message, higher + 9, "\x07", 1);
    for (unsigned i = 0; i < 26; i++) {
        struct octets reading = room(32);
        put_wide_uint(&reading, higher, i, wide ? 2 : 0);
        put_wide_int(&reading, higher + 1, i % 4 == 3, 700 + random_below(i % 2 ? 90000 : 6000000), number);
        put_field(&message, higher + 4, reading.data, reading.len);
        free(reading.data);
    }
    return message;
}

/* One of the SMALL_FIELDS fields under kinds_table, the last of them raw: at most SMALL_FIELD_MOST octets in its shortest form. A number
 * is the value. */
static void put_field_of(struct octets *to, size_t which, uint64_t value)
{
    static const char letters[] = "meter reading of the day";
    switch (which) {
    case 0: put_uint(to, 1, value); break;
    case 1: put_int(to, 2, (int)random_below(2), value); break;
    case 2: put_field(to, 3, letters, random_below(6)); break;
    case 3: put_field(to, 4, letters, random_below(6)); break;
    default: put_field(to, 9, letters, random_below(3)); break;
    }
}

static void put_small_field(struct octets *to)
{
    uint64_t value = random_up_to_bits(24);
    put_field_of(to, random_below(SMALL_FIELDS), value);
}

/* Small fields of every kind but message, of just so many octets, each in its shortest form. */
static void put_small_fields(struct octets *to, size_t len)
{
    size_t end = to->len + len;
    while (end - to->len >= SMALL_FIELD_MOST)
        put_small_field(to);
    while (to->len < end)
        put_number(to, 0x10, 1);
}

/* A uint on one octet: 1, which needs the octet, or 0, which does not. */
static void put_form(struct octets *to, enum form form)
{
    put_control(to, 1, 1, 0, 0);
    put_number(to, form == SHORT ? 1 : 0, 1);
}

/* A message of such fields, the last one by its form. */
static struct octets small_fields(size_t len, enum form form)
{
    struct octets message = room(LIMIT);
    put_small_fields(&message, len - 2);
    put_form(&message, form);
    return message;
}

/* Nested messages that have each of the small fields once, then some that are empty, and the last field by its form. Of the tags of
 * kinds_table none but that of the nested messages stands in a message twice. */
static struct octets unrepeated_fields(size_t len, enum form form)
{
    struct octets message = room(LIMIT);
    while (len - message.len >= 2 + SMALL_FIELDS * SMALL_FIELD_MOST + 2) {
        struct octets inside = room(SMALL_FIELDS * SMALL_FIELD_MOST);
        for (size_t which = 0; which < SMALL_FIELDS; which++)
            put_field_of(&inside, which, random_up_to_bits(24));
        put_field(&message, 5, inside.data, inside.len);
        free(inside.data);
    }
    while (message.len < len - 2)
        put_field(&message, 5, NULL, 0);
    put_form(&message, form);
    return message;
}

/* One field of a tag that fills the message, its contents made by repeating a pattern of whole characters. */
static struct octets one_field(unsigned tag, const char *pattern, size_t total)
{
    struct octets message = room(LIMIT);
    size_t len = total - 3;
    size_t part = strlen(pattern);
    put_control(&message, tag, len, 0, 2);
    for (; len >= part; len -= part)
        put(&message, pattern, part);
    for (; len > 0; len--)
        put(&message, " ", 1);
    return message;
}

/* A message of `depth` levels and about `len` octets. The fields stand in the innermost one, or are spread over all. The form is that
 * of the innermost, and so that of every message around it. */
static struct octets deep(unsigned depth, size_t len, int spread, enum form form)
{
    size_t share = (len - 3 * (depth - 1)) / (spread ? depth : 1);
    struct octets message = small_fields(share, form);
    for (unsigned level = 1; level < depth; level++) {
        struct octets around = room(LIMIT);
        if (spread)
            put_small_fields(&around, share / 2);
        put_field(&around, 5, message.data, message.len);
        if (spread)
            put_small_fields(&around, share - share / 2);
        free(message.data);
        message = around;
    }
    return message;
}

/* Fields in forms wider than needed; about half of the octets are not needed. */
static struct octets wide(size_t total)
{
    struct octets message = room(LIMIT + 64);
    while (message.len + 16 <= total) {
        switch (random_below(4)) {
        case 0:
            put_control(&message, 1, 8, 0, 1);
            put_number(&message, random_bits() >> 32, 8);
            break;
        case 1:
            put_control(&message, 2, 6, 1, 1);
            put_number(&message, random_below(2) ? 0x800000 : 0, 3);
            put_number(&message, random_bits(), 3);
            break;
        case 2:
            put_control(&message, 3, 5, 2, 2);
            put(&message, "north", 5);
            break;
        default:
            put_control(&message, 5, 6, 2, 4);
            put_control(&message, 1, 3, 0, 1);
            put_number(&message, random_bits() >> 52, 3);
            put_control(&message, 2, 0, 0, 0);
            break;
        }
    }
    while (message.len < total)
        put_number(&message, 0x10, 1);
    return message;
}

/* ---- steps of the writer ---- */

static uint64_t number_of(struct octets contents)
{
    uint64_t value = 0;
    for (size_t i = 0; i < contents.len; i++)
        value = value << 8 | contents.data[i];
    return value;
}

/* The bits of an int of at most seven octets, of which a negative one is no power of two in the place of the sign. */
static uint64_t int_bits_of(struct octets contents)
{
    uint64_t value = number_of(contents);
    uint64_t sign = contents.len == 0 ? 0 : (uint64_t)1 << (8 * contents.len - 1);
    return (value & sign) != 0 ? -(value ^ sign) : value;
}

/* The steps that put the fields of a meter reading, or those of a reading in it, the last one first. Every control part is one octet.
 * Answers how many steps there are. */
static size_t put_steps(struct step *steps, struct octets message, int nested)
{
    size_t starts[64], fields = 0, count = 0;
    for (size_t at = 0; at < message.len; at += 1 + (message.data[at] & 15))
        starts[fields++] = at;
    while (fields > 0) {
        uint8_t control = message.data[starts[--fields]];
        uint64_t tag = control >> 4;
        struct octets contents = {message.data + starts[fields] + 1, control & 15};
        if (nested && tag == 1) {
            steps[count++] = (struct step){PUT_INT, tag, int_bits_of(contents), {NULL, 0}};
        } else if (nested || tag < 3) {
            steps[count++] = (struct step){PUT_UINT, tag, number_of(contents), {NULL, 0}};
        } else if (tag == 3) {
            steps[count++] = (struct step){PUT_OCTETS, tag, 0, contents};
        } else {
            steps[count++] = (struct step){OPEN, tag, 0, {NULL, 0}};
            count += put_steps(steps + count, contents, 1);
            steps[count++] = (struct step){CLOSE, 0, 0, {NULL, 0}};
        }
    }
    return count;
}

/* A meter reading in its shortest form without its raw field, which the writer refuses to put, because no table has it. */
static struct octets without_raw(struct octets message)
{
    struct octets made = room(message.len);
    size_t size;
    for (size_t at = 0; at < message.len; at += size) {
        size = 1 + (message.data[at] & 15);
        if (message.data[at] >> 4 != 9)
            put(&made, message.data + at, size);
    }
    return made;
}

/* ---- Tib messages ---- */

static struct octets from_hex(const char *hex)
{
    struct octets made = room(strlen(hex));
    unsigned value;
    int used;
    for (; sscanf(hex, " %2x%n", &value, &used) == 1; hex += used)
        put_number(&made, value, 1);
    return made;
}

static struct octets tibmsg_start(void)
{
    struct octets message = room(LIMIT);
    put_number(&message, 0xce13aa1f, 4);
    put_number(&message, 1, 1);
    put_number(&message, 0, 4);
    return message;
}

static struct octets tibrv_start(void)
{
    struct octets message = room(LIMIT);
    put_number(&message, 0, 4);
    put_number(&message, 0x9955eeaa, 4);
    return message;
}

static void set_size(struct octets *message, size_t at, size_t size)
{
    struct octets slot = {message->data + at, 0};
    put_number(&slot, size, 4);
}

static void put_name(struct octets *to, size_t len)
{
    put_number(to, len, 1);
    for (size_t i = 1; i < len; i++)
        put_number(to, 'A' + i % 26, 1);
    if (len > 0)
        put_number(to, 0, 1);
}

/* Fields of mixed types with names of 4 to 11 octets, until the message is full. */
static struct octets tibmsg_small(size_t total)
{
    struct octets message = tibmsg_start();
    for (unsigned i = 0; message.len + 40 <= total; i++) {
        put_name(&message, 4 + random_below(8));
        switch (i % 5) {
        case 0: put_number(&message, 0x050412345678, 6); break;
        case 1: put_number(&message, 0x470440490fdb, 6), put_number(&message, 0x060113, 3); break;
        case 2: put_number(&message, 0x480600010002u, 6), put_number(&message, 0x00030502, 4); break;
        case 3: put_number(&message, 0x490441415555063c, 8); break;
        default: put_number(&message, 0x020541424344, 6), put_number(&message, 0, 1); break;
        }
    }
    set_size(&message, 5, message.len - 9);
    return message;
}

static struct octets tibmsg_one(size_t total)
{
    struct octets message = tibmsg_start();
    put_name(&message, 4);
    put_number(&message, 0x83, 1);
    put_number(&message, total - message.len - 4, 4);
    memset(message.data + message.len, 7, total - message.len);
    message.len = total;
    set_size(&message, 5, total - 9);
    return message;
}

static struct octets tibmsg_long_names(size_t total)
{
    struct octets message = tibmsg_start();
    while (message.len + 260 <= total) {
        put_name(&message, 255);
        put_number(&message, 0x040101, 3);
    }
    set_size(&message, 5, message.len - 9);
    return message;
}

static void put_tibrv_field(struct octets *to, unsigned i)
{
    put_name(to, 4 + random_below(8));
    switch (i % 4) {
    case 0: put_number(to, 0x0c0512345678, 6); break;
    case 1: put_number(to, 0x0d09, 2), put_number(to, 0x3ff2000000000000, 8); break;
    case 2: put_number(to, 0x0879000741424344, 8), put_number(to, 0, 1); break;
    default: put_number(to, 0x25030102, 4); break;
    }
}

/* Small fields in messages of `depth` levels, spread over all of them. */
static struct octets tibrv_small(size_t total, unsigned depth)
{
    struct octets message = tibrv_start();
    size_t starts[9];
    size_t share = total / depth;
    unsigned i = 0;
    for (unsigned level = 0; level < depth; level++) {
        starts[level] = level == 0 ? 0 : message.len;
        if (level > 0) {
            put_name(&message, 6);
            put_number(&message, 0x017a, 2);
            starts[level] = message.len;
            put_number(&message, 0, 4);
            put_number(&message, 0x9955eeaa, 4);
        }
        while (message.len + 40 <= share * (level + 1))
            put_tibrv_field(&message, i++);
    }
    for (unsigned level = 0; level < depth; level++)
        set_size(&message, starts[level], message.len - starts[level]);
    return message;
}

static struct octets tibrv_one(size_t total)
{
    struct octets message = tibrv_start();
    put_name(&message, 4);
    put_number(&message, 0x077a, 2);
    put_number(&message, total - message.len, 4);
    memset(message.data + message.len, 7, total - message.len);
    message.len = total;
    set_size(&message, 0, total);
    return message;
}

/* ---- QForm messages ---- */

static void put_dictionary_record(struct octets *to, unsigned fid, unsigned type, unsigned size)
{
    put_number(to, 0x020005, 3);
    put_number(to, fid, 2);
    put_number(to, type, 1);
    put_number(to, size, 2);
}

/* A dictionary of so many records, with fids from all of their range in no order, and sizes from 1 to 8. */
static struct octets qform_dictionary(size_t records)
{
    static uint8_t used[FIDS];
    struct octets dictionary = room(TABLE_ROOM);
    memset(used, 0, sizeof used);
    while (records > 0) {
        unsigned fid = (unsigned)random_below(FIDS);
        if (used[fid])
            continue;
        used[fid] = 1;
        put_dictionary_record(&dictionary, fid, 2, 1 + (unsigned)random_below(8));
        records--;
    }
    return dictionary;
}

static struct octets qform_start(void)
{
    struct octets message = room(LIMIT);
    put_number(&message, 0x11111112, 4);
    put_number(&message, 0, 4);
    return message;
}

/* The field of a record, with its padding octet. */
static void put_qform_field(struct octets *to, const uint8_t *record)
{
    size_t size = (size_t)record[6] << 8 | record[7];
    put_number(to, 0xc000u | (unsigned)record[3] << 8 | record[4], 2);
    put_number(to, random_bits(), size + size % 2);
}

/* Fields of fids that are drawn from the dictionary, until the message is full. */
static struct octets qform_small(struct octets dictionary, size_t total)
{
    struct octets message = qform_start();
    while (message.len + 10 <= total)
        put_qform_field(&message, dictionary.data + 8 * random_below(dictionary.len / 8));
    set_size(&message, 4, message.len - 8);
    return message;
}

/* A field of each of the last records. */
static struct octets qform_last(struct octets dictionary)
{
    struct octets message = qform_start();
    for (size_t i = QFORM_FIELDS; i > 0; i--)
        put_qform_field(&message, dictionary.data + dictionary.len - 8 * i);
    set_size(&message, 4, message.len - 8);
    return message;
}

/* ---- reals ---- */

static uint64_t bits_of(double value)
{
    uint64_t bits;
    memcpy(&bits, &value, sizeof bits);
    return bits;
}

/* The number by which a hint multiplies: 10 for tenths. */
static double scale_of(uint64_t hint)
{
    double scale = 1;
    for (; hint >= TENTHS; hint--)
        scale *= 10;
    return scale;
}

/* Of either sign, with an exponent field from `least` to below `bound`. */
static uint64_t random_real(size_t least, size_t bound)
{
    uint64_t bits = random_bits() & 0x800fffffffffffff;
    return bits | (uint64_t)(least + random_below(bound - least)) << 52;
}

/* A real for a row, or one that only the comparison has. */
static struct real make_real(enum reals kind)
{
    struct real real = {0, 1, TENTHS + random_below(DECIMAL_HINTS)};
    double scale = scale_of(real.hint);
    switch (kind) {
    case PRICES: /* from 50.00 to 149.99, in hundredths to ten-thousandths */
        real.hint = TENTHS + 1 + random_below(3);
        real.bits = bits_of((double)(5000 + random_below(10000)) / 100);
        break;
    case LARGE: /* the whole number is from 2^62 to 2^63 in size */
        real.bits = bits_of((double)((uint64_t)1 << 62 | random_bits() >> 2) / scale);
        real.bits |= random_bits() & (uint64_t)1 << 63;
        break;
    case TINY: real.bits = random_real(0, 992); break; /* below 2^-31 in size, and so below half a billionth */
    case RANDOM: real.bits = random_bits(); break;
    case MIDDLE: real.bits = random_real(985, 1090); break; /* most are neither out of range nor rounded to 0 */
    case TIES: real.bits = bits_of((double)(random_up_to_bits(53) | 1) / (double)(4 << (real.hint - TENTHS))); break;
    case ENDS: real.bits = bits_of((random_below(2) ? 0x1p63 : 0x1p64) / scale); break;
    default: real.bits = random_below(2) ? 0 : 0x7ff0000000000000; break; /* zero and infinity */
    }
    return real;
}

/* ---- rows ---- */

static void add(const char *name, enum form form, enum call call, struct octets table, uint64_t number, struct octets message,
                size_t out_len)
{
    struct row *row = &rows[row_count++];
    if (row_count > MAX_ROWS)
        fail("too many rows");
    snprintf(row->name, sizeof row->name, "%s", name);
    row->call = call;
    row->table = table;
    row->revision = REVISION;
    row->number = number;
    row->message = message;
    row->out_len = out_len;
    row->form = form;
}

static void add_both(const char *name, enum form form, struct octets table, uint64_t number, struct octets message)
{
    add(name, form, CHECK, table, number, message, 0);
    add(name, form, SHORTEN, table, number, message, message.len);
}

/* Loading a table, and a meter reading (a, b). */
static void add_meter_rows(void)
{
    struct octets none = room(0);
    struct octets six = meter_table(0, MANY);
    struct octets six_great = meter_table(100, MANY);
    struct octets rising = full_table(MANY);
    struct octets shuffled = shuffled_table();
    /* Each reading draws the same numbers again, so the rows behind them do not depend on how many there are. */
    uint64_t state = random_state;
    struct octets meter = meter_message(0, 0);
    random_state = state;
    struct octets great_meter = meter_message(0, 100);
    random_state = state;
    struct octets wide_meter = meter_message(1, 0);
    add("load-0", SHORT, CHECK, none, 0, none, 0);
    add("load-6", SHORT, CHECK, six, 0, none, 0);
    add("load-64-rising", SHORT, CHECK, rising, 14, none, 0);
    add("load-64-shuffled", SHORT, CHECK, shuffled, 14, none, 0);
    add("load-64-single", SHORT, CHECK, full_table(SINGLE), 14, none, 0);
    add_both("a-meter-table-6", SHORT, six, 0, meter);
    add_both("a-meter-great-tags", SHORT, six_great, 0, great_meter);
    add_both("a-meter-wide-table-6", LONGER, six, 0, wide_meter);
    add_both("b-meter-table-64-rising", SHORT, rising, 14, meter);
    add_both("b-meter-table-64-shuffled", SHORT, shuffled, 14, meter);
}

/* Many fields (c, e, f) and one (d). The messages of small fields (c, e) have one number in a longer form, the last one of the
 * innermost message, so that the shortener writes them. That of c-short-fields-64K has the same fields as that of c-small-fields-64K
 * but for this number, and is short, so that the shortener copies it. */
static void add_field_rows(struct octets kinds)
{
    uint64_t state = random_state;
    add_both("c-small-fields-64K", LONGER, kinds, 0, small_fields(LIMIT, LONGER));
    random_state = state;
    add_both("c-short-fields-64K", SHORT, kinds, 0, small_fields(LIMIT, SHORT));
    add_both("d-one-string-64K", SHORT, kinds, 0, one_field(3, "octets", LIMIT));
    add_both("e-depth-8-small", LONGER, kinds, 0, deep(8, 160, 1, LONGER));
    add_both("e-depth-8-spread-64K", LONGER, kinds, 0, deep(8, LIMIT - 64, 1, LONGER));
    add_both("e-depth-8-innermost-64K", LONGER, kinds, 0, deep(8, LIMIT, 0, LONGER));
    random_state = WIDE_START;
    add_both("f-wide-200", LONGER, kinds, 0, wide(200));
    add_both("f-wide-64K", LONGER, kinds, 0, wide(LIMIT));
    add("f-wide-64K-just-room", LONGER, SHORTEN, kinds, 0, rows[row_count - 1].message, 0);
}

/* One text (g). Its length stands on two octets, which a text of 64 KiB needs and the others do not. */
static void add_text_rows(struct octets kinds)
{
    const char *ascii = "the quick brown fox ";
    const char *multi = "\xc3\xa9\xe2\x82\xac\xf0\x9f\x94\x8c\xc2\xb5";
    add("g-text-ascii-40", LONGER, CHECK, kinds, 0, one_field(4, ascii, 40), 0);
    add("g-text-multi-40", LONGER, CHECK, kinds, 0, one_field(4, multi, 40), 0);
    add("g-text-multi-200", LONGER, CHECK, kinds, 0, one_field(4, multi, 200), 0);
    add_both("g-text-ascii-64K", SHORT, kinds, 0, one_field(4, ascii, LIMIT));
    add_both("g-text-multi-64K", SHORT, kinds, 0, one_field(4, multi, LIMIT));
    add_both("g-text-mixed-64K", SHORT, kinds, 0, one_field(4, "Z\xc3\xa4hler f\xc3\xbcr 5 \xe2\x82\xac ", LIMIT));
}

static const struct row *row_named(const char *name)
{
    for (size_t i = 0; i < row_count; i++)
        if (strcmp(rows[i].name, name) == 0)
            return &rows[i];
    fail(name);
    return NULL;
}

/* Single fields (s): the meter readings of (a) and a message like those of (c), where every field that is no message is single and no
 * message repeats one. For comparison, the message like those of (c) also under a table without marks, and the meter reading of (a)
 * under revision 1, each time with no single field. The rows behind these do not depend on them. */
static void add_single_rows(struct octets kinds)
{
    uint64_t state = random_state;
    const struct row *meter = row_named("a-meter-table-6");
    const struct row *wide_meter = row_named("a-meter-wide-table-6");
    struct octets six_single = meter_table(0, SINGLE);
    struct octets kinds_single = kinds_table(SINGLE);
    struct octets longer = unrepeated_fields(LIMIT, LONGER);
    random_state = state;
    struct octets shortest = unrepeated_fields(LIMIT, SHORT);
    random_state = state;
    add_both("s-meter-single", SHORT, six_single, 0, meter->message);
    add_both("s-meter-wide-single", LONGER, six_single, 0, wide_meter->message);
    add_both("s-meter-revision-1", SHORT, meter->table, 0, meter->message);
    rows[row_count - 2].revision = rows[row_count - 1].revision = 1;
    add_both("s-fields-single-64K", LONGER, kinds_single, 0, longer);
    add_both("s-fields-many-64K", LONGER, kinds, 0, longer);
    add_both("s-short-fields-single-64K", SHORT, kinds_single, 0, shortest);
    add_both("s-short-fields-many-64K", SHORT, kinds, 0, shortest);
}

/* Tib messages have one form only, and no table. */
static void add_tib(const char *name, enum call call, struct octets message)
{
    add(name, SHORT, call, room(0), 0, message, 0);
}

/* The format's worked examples with their sizes put right, then large messages. */
static void add_tib_rows(void)
{
    add_tib("tibmsg-int", TIBMSG, from_hex("ce13aa1f 01 0000000b 046e616d00 0504 12345678"));
    add_tib("tibmsg-date", TIBMSG,
            from_hex("ce13aa1f 01 0000001e 0b485354434c534441544500 420c 323520415052203139393400 0602 0102"));
    add_tib("tibmsg-partial", TIBMSG, from_hex("ce13aa1f 01 00000011 08524f5736345f3400 4904 41415555 063c"));
    add_tib("tibmsg-array", TIBMSG, from_hex("ce13aa1f 01 00000011 06415252415900 4806 000100020003 0502"));
    add_tib("tibmsg-real", TIBMSG, from_hex("ce13aa1f 01 00000017 09545244505243 5f3100 4708 3ff2000000000000 0601 13"));
    add_tib("tibmsg-small-64K", TIBMSG, tibmsg_small(LIMIT));
    add_tib("tibmsg-names-64K", TIBMSG, tibmsg_long_names(LIMIT));
    add_tib("tibmsg-one-64K", TIBMSG, tibmsg_one(LIMIT));
    add_tib("tibrv-uint", TIBRV, from_hex("00000013 9955eeaa 046e616d00 0c05 12345678"));
    add_tib("tibrv-nested", TIBRV,
            from_hex("00000027 9955eeaa 056461746100 017a 00000017 9955eeaa 066669656c6400 0807 76616c756500"));
    add_tib("tibrv-tibmsg", TIBRV,
            from_hex("00000032 9955eeaa 075f646174615f00 0721 ce13aa1f 01 00000017 0954524450 52435f3100"
                     "4708 3ff2000000000000 0601 13"));
    add_tib("tibrv-small-64K", TIBRV, tibrv_small(LIMIT, 1));
    add_tib("tibrv-depth-8-64K", TIBRV, tibrv_small(LIMIT, 8));
    add_tib("tibrv-one-64K", TIBRV, tibrv_one(LIMIT));
}

/* A large message and a small one under a dictionary of 512 records, and the small one under its own ten. The small one's fids stand last in
 * the dictionary. A field is the last of its message. */
static void add_qform_rows(void)
{
    struct octets full = qform_dictionary(DICTIONARY_MOST);
    struct octets ten = room(TABLE_ROOM);
    struct octets small = qform_last(full);
    put(&ten, full.data + full.len - 8 * QFORM_FIELDS, 8 * QFORM_FIELDS);
    add("qform-small-64K", SHORT, QFORM, full, 0, qform_small(full, LIMIT), 0);
    add("qform-ten-fields-512", SHORT, QFORM, full, 0, small, 0);
    add("qform-ten-fields-10", SHORT, QFORM, ten, 0, small, 0);
    add("qform-ten-fields-512", SHORT, QFORM_FIELD, full, QFORM_FIELDS - 1, small, 0);
    add("qform-ten-fields-10", SHORT, QFORM_FIELD, ten, QFORM_FIELDS - 1, small, 0);
}

static void add_reals(const char *name, enum reals kind)
{
    struct real *reals = malloc(REALS * sizeof *reals);
    if (reals == NULL)
        fail("no memory");
    for (size_t i = 0; i < REALS; i++)
        reals[i] = make_real(kind);
    add(name, SHORT, DECIMALS, room(0), 0, room(0), 0);
    rows[row_count - 1].reals = reals;
}

/* Of random bits about half are refused, and most of the others are rounded to 0. */
#define RANDOM_REALS "decimals-random"

static void add_decimal_rows(void)
{
    add_reals("decimals-prices", PRICES);
    add_reals("decimals-large", LARGE);
    add_reals("decimals-tiny", TINY);
    add_reals(RANDOM_REALS, RANDOM);
}

static void add_built(const char *name, enum call call, struct octets table, uint64_t number, struct octets message,
                      const struct step *steps, size_t step_count)
{
    add(name, SHORT, call, table, number, message, message.len);
    rows[row_count - 1].steps = steps;
    rows[row_count - 1].step_count = step_count;
}

/* The writer (w): the meter reading of (a) and (b) without its raw field, built by calls, and one put of its first field. */
static void add_writer_rows(void)
{
    static struct step steps[METER_STEPS];
    const struct row *six = row_named("a-meter-table-6");
    const struct row *full = row_named("b-meter-table-64-rising");
    struct octets message = without_raw(six->message);
    size_t count = put_steps(steps, message, 0);
    add_built("w-meter-table-6", BUILD, six->table, six->number, message, steps, count);
    add_built("w-meter-table-64", BUILD, full->table, full->number, message, steps, count);
    struct octets first = {message.data, 1 + (message.data[0] & 15)};
    add_built("w-one-put-table-6", PUT, six->table, six->number, first, steps + count - 1, 1);
}

/* Names that begin with `length-` or `depth-` are points of the curves. Each point starts with the same random state, so that its
 * fields are those of its neighbours but for the last ones. They have one number in a longer form, too. */
static void add_curve_rows(struct octets kinds)
{
    char name[40];
    for (size_t len = 256; len <= LIMIT; len *= 2) {
        snprintf(name, sizeof name, "length-%zu", len);
        random_state = RANDOM_START;
        add_both(name, LONGER, kinds, 0, small_fields(len, LONGER));
    }
    for (unsigned depth = 1; depth <= 8; depth++) {
        snprintf(name, sizeof name, "depth-%u", depth);
        random_state = RANDOM_START;
        add_both(name, LONGER, kinds, 0, deep(depth, 16384, 0, LONGER));
    }
}

/* Leaves out the rows whose table has a record of length 6. An archive from before the calls took a revision refuses them. */
static void drop_marked_rows(void)
{
    size_t kept = 0;
    for (size_t i = 0; i < row_count; i++) {
        const struct octets *table = &rows[i].table;
        size_t at = 0;
        while (at < table->len && table->data[at + 2] == 5)
            at += 8;
        if (at >= table->len)
            rows[kept++] = rows[i];
    }
    row_count = kept;
}

static void add_rows(void)
{
    struct octets kinds = kinds_table(MANY);
    add_meter_rows();
    add_field_rows(kinds);
    add_text_rows(kinds);
    add_single_rows(kinds);
    add_tib_rows();
    add_qform_rows();
    add_decimal_rows();
    add_writer_rows();
    add_curve_rows(kinds);
}

/* ---- calling ---- */

static struct answer ask(const struct side *side, const struct row *row, uint8_t *out)
{
    struct answer answer = {UNSET, UNSET, UNSET, 0, UNSET, 0};
    uint64_t start = UNSET, length = UNSET;
    const uint8_t *table = row->table.data;
    const uint8_t *message = row->message.data;
    size_t len = row->message.len;
    switch (row->call) {
    case CHECK:
        answer.refusal = side->check(table, row->table.len, row->revision, row->number, message, len, &answer.place, &answer.first,
                                     &answer.second, &answer.shortest);
        break;
    case SHORTEN:
        answer.refusal = side->shorten(table, row->table.len, row->revision, row->number, message, len, out, row->out_len,
                                       &answer.place, &answer.first);
        break;
    case TIBMSG: answer.refusal = side->tibmsg(message, len, &answer.place, &answer.first, &answer.second); break;
    case TIBRV: answer.refusal = side->tibrv(message, len, &answer.place, &answer.first, &answer.second); break;
    case QFORM:
        answer.refusal = side->qform(table, row->table.len, message, len, &answer.place, &answer.first, &answer.second);
        break;
    case QFORM_FIELD:
        answer.refusal = side->qform_field(table, row->table.len, message, len, row->number, &answer.place, &answer.first,
                                           &answer.second, &start, &length);
        answer.data = start << 32 | length;
        break;
    case DECIMALS: {
        const struct real *real = &row->reals[row->number];
        int64_t whole = UNSET;
        answer.refusal = side->decimals(real->bits, real->hinted, real->hint, &answer.place, &whole);
        answer.first = (uint64_t)whole;
        break;
    }
    default: break; /* the writer's, below */
    }
    return answer;
}

/* What the writer works on. Its state may have another length than it should. */
struct desk {
    struct octets table;
    uint64_t state[CRUDVIM_STATE_WORDS + 1];
    size_t words;
    uint8_t *buffer;
    size_t room;
};

static uint64_t make_step(const struct side *side, const struct step *step, struct desk *desk, uint64_t *place, uint64_t *start)
{
    const uint8_t *t = desk->table.data;
    uint64_t *s = desk->state;
    uint8_t *b = desk->buffer;
    size_t tl = desk->table.len, sl = desk->words, bl = desk->room;
    switch (step->kind) {
    case START: return side->start(t, tl, step->value, step->tag, b, bl, s, sl, place);
    case PUT_UINT: return side->put_uint(t, tl, s, sl, step->tag, step->value, b, bl, place);
    case PUT_INT: return side->put_int(t, tl, s, sl, step->tag, (int64_t)step->value, b, bl, place);
    case PUT_OCTETS: return side->put_octets(t, tl, s, sl, step->tag, step->octets.data, step->octets.len, b, bl, place);
    case OPEN: return side->open(t, tl, s, sl, step->tag, place);
    case CLOSE: return side->close(t, tl, s, sl, b, bl, place);
    default: return side->finish(s, sl, place, start);
    }
}

/* A run of a row's steps from start to finish. The first result is where the message starts. */
static struct answer build(const struct side *side, const struct row *row, uint8_t *out)
{
    struct answer answer = {0, UNSET, UNSET, 0, UNSET, 0};
    struct desk desk = {.table = row->table, .words = CRUDVIM_STATE_WORDS, .buffer = out, .room = row->out_len};
    const struct step first = {START, row->number, row->revision, {NULL, 0}}, last = {FINISH, 0, 0, {NULL, 0}};
    answer.refusal = make_step(side, &first, &desk, &answer.place, NULL);
    for (size_t i = 0; answer.refusal == CRUDVIM_ACCEPTED && i < row->step_count; i++)
        answer.refusal = make_step(side, &row->steps[i], &desk, &answer.place, NULL);
    if (answer.refusal == CRUDVIM_ACCEPTED)
        answer.refusal = make_step(side, &last, &desk, &answer.place, &answer.first);
    return answer;
}

/* One put into a buffer that has just room for it. The first result is where the field starts. */
static struct answer put_once(const struct side *side, const struct row *row, struct desk *desk)
{
    struct answer answer = {UNSET, UNSET, UNSET, 0, UNSET, 0};
    desk->state[CRUDVIM_STATE_START] = row->out_len;
    answer.refusal = make_step(side, &row->steps[0], desk, &answer.place, NULL);
    answer.first = desk->state[CRUDVIM_STATE_START];
    return answer;
}

static struct desk put_desk(const struct row *row, uint8_t *out)
{
    struct desk desk = {.table = row->table, .words = CRUDVIM_STATE_WORDS, .buffer = out, .room = row->out_len};
    desk.state[CRUDVIM_STATE_LENGTH] = row->out_len;
    desk.state[CRUDVIM_STATE_REVISION] = row->revision;
    desk.state[CRUDVIM_STATE_NUMBERS] = row->number;
    return desk;
}

/* `ask` has no writer in it, because gcc would no longer inline it, and the calls of the other rows would cost more. */
static struct answer ask_any(const struct side *side, const struct row *row, uint8_t *out)
{
    if (row->call == BUILD)
        return build(side, row, out);
    if (row->call != PUT)
        return ask(side, row, out);
    struct desk desk = put_desk(row, out);
    return put_once(side, row, &desk);
}

/* Reads the reals of a row in turn. A call takes a few nanoseconds, so `ask` would be a large part of its time. */
static uint64_t repeat_reals(const struct side *side, const struct row *row, size_t times)
{
    uint64_t sum = 0;
    for (size_t i = 0; i < times; i++) {
        const struct real *real = &row->reals[i % REALS];
        uint64_t place;
        int64_t whole;
        sum += side->decimals(real->bits, real->hinted, real->hint, &place, &whole);
        sum += (uint64_t)whole;
    }
    return sum;
}

/* Builds the message again and again, or puts the same field on one state: to make the state anew would be a part of the time of a put. */
static uint64_t repeat_writes(const struct side *side, const struct row *row, uint8_t *out, size_t times)
{
    uint64_t sum = 0;
    struct desk desk = put_desk(row, out);
    for (size_t i = 0; i < times; i++) {
        struct answer answer = row->call == BUILD ? build(side, row, out) : put_once(side, row, &desk);
        sum += answer.refusal + answer.first;
    }
    return sum;
}

/* Kept out of the callers so that each side's calls are made by the same instructions. */
__attribute__((noinline)) static uint64_t repeat(const struct side *side, const struct row *row, uint8_t *out, size_t times)
{
    uint64_t sum = 0;
    if (row->call == DECIMALS)
        return repeat_reals(side, row, times);
    if (row->call == BUILD || row->call == PUT)
        return repeat_writes(side, row, out, times);
    for (size_t i = 0; i < times; i++) {
        struct answer answer = ask(side, row, out);
        sum += answer.refusal + answer.first;
    }
    return sum;
}

/* ---- comparing the answers ---- */

static uint64_t compared;
static uint64_t refused_with[32];
static uint64_t short_checks[2]; /* accepted checks of messages that could be shortened, and of short ones */
/* compare.py may link an archive from before crudvim_check had the result `shortest`. On x86-64 such a function does not see the
 * pointer to it and leaves it unset. Only in what compare.py runs may that be, and then it is not compared. */
static int may_be_unset;

static void show_difference(const struct row *row, const struct answer answers[2])
{
    printf("the answers differ in %s (%s), table of %zu octets, revision %llu, number %llu, message of %zu octets, room %zu\n",
           row->name, call_names[row->call], row->table.len, (unsigned long long)row->revision, (unsigned long long)row->number,
           row->message.len, row->out_len);
    for (int i = 0; i < 2; i++)
        printf("  %-8s refusal %llu place %llu results %llu %llu shortest %llu data %llx\n", sides[i].name,
               (unsigned long long)answers[i].refusal, (unsigned long long)answers[i].place, (unsigned long long)answers[i].first,
               (unsigned long long)answers[i].second, (unsigned long long)answers[i].shortest, (unsigned long long)answers[i].data);
    if (row->call == DECIMALS) {
        const struct real *real = &row->reals[row->number];
        printf("  real %016llx hinted %llu hint %llu\n", (unsigned long long)real->bits, (unsigned long long)real->hinted,
               (unsigned long long)real->hint);
    }
    printf("  table");
    for (size_t i = 0; i < row->table.len; i++)
        printf(" %02x", row->table.data[i]);
    printf("\n  message");
    for (size_t i = 0; i < row->message.len && i < 512; i++)
        printf(" %02x", row->message.data[i]);
    printf("%s\n", row->message.len > 512 ? " .." : "");
    exit(1);
}

/* Asks both sides and compares the answers and every octet of the second buffer, which is larger than it is said to be. */
static struct answer compare(const struct row *row)
{
    static uint8_t outs[2][LIMIT + 256];
    struct answer answers[2];
    size_t used = row->call == SHORTEN || row->call == BUILD || row->call == PUT ? row->out_len + 16 : 0;
    for (int i = 0; i < 2; i++) {
        memset(outs[i], 0xa5, used);
        answers[i] = ask_any(&sides[i], row, outs[i]);
    }
    if (may_be_unset && (answers[0].shortest == UNSET || answers[1].shortest == UNSET))
        answers[0].shortest = answers[1].shortest = UNSET;
    int same = memcmp(&answers[0], &answers[1], sizeof answers[0]) == 0 && memcmp(outs[0], outs[1], used) == 0;
    if (!same)
        show_difference(row, answers);
    compared++;
    refused_with[answers[0].refusal & 31]++;
    if (row->call == CHECK && answers[0].refusal == CRUDVIM_ACCEPTED)
        short_checks[answers[0].shortest & 1]++;
    return answers[0];
}

/* Damages octets in one of several ways; may change their length by a few. */
static void damage(struct octets *octets, size_t most)
{
    size_t at = octets->len == 0 ? 0 : random_below(octets->len);
    switch (random_below(6)) {
    case 0:
        if (octets->len > 0)
            octets->data[at] ^= (uint8_t)(1u << random_below(8));
        break;
    case 1:
        if (octets->len > 0)
            octets->data[at] = (uint8_t)random_bits();
        break;
    case 2: octets->len = at; break;
    case 3:
        if (octets->len > 0)
            memmove(octets->data + at, octets->data + at + 1, --octets->len - at);
        break;
    case 4:
        if (octets->len < most) {
            memmove(octets->data + at + 1, octets->data + at, octets->len++ - at);
            octets->data[at] = (uint8_t)random_bits();
        }
        break;
    default:
        if (octets->len > 0) {
            static const uint8_t edges[] = {0x00, 0x7f, 0x80, 0xbf, 0xc0, 0xff, 0x5c, 0x5f, 0x79, 0x7a, 0xed, 0xfe};
            octets->data[at] = edges[random_below(sizeof edges)];
        }
        break;
    }
}

/* Puts the message's own length into a Tib or QForm header, so that damage behind it is looked at. */
static void mend_header(struct row *row)
{
    if (row->call == TIBMSG && row->message.len >= 9)
        set_size(&row->message, 5, row->message.len - 9);
    if (row->call == TIBRV && row->message.len >= 8)
        set_size(&row->message, 0, row->message.len);
    if ((row->call == QFORM || row->call == QFORM_FIELD) && row->message.len >= 8)
        set_size(&row->message, 4, row->message.len - 8);
}

/* Any revision, most often one of the two that there are. */
static uint64_t random_revision(void)
{
    static const uint64_t others[] = {0, 3, 4, 255, 257, 258, 65537, (uint64_t)1 << 32 | 2, (uint64_t)1 << 63, UINT64_MAX};
    return random_below(16) ? 1 + random_below(2) : others[random_below(sizeof others / sizeof others[0])];
}

static void compare_damaged(const struct row *row, size_t times)
{
    struct octets table = room(TABLE_ROOM + 8);
    struct octets message = room(LIMIT + 8);
    for (size_t i = 0; i < times; i++) {
        struct row hurt = *row;
        table.len = message.len = 0;
        put(&table, row->table.data, row->table.len);
        put(&message, row->message.data, row->message.len);
        hurt.table = table;
        hurt.message = message;
        if (random_below(8) == 0)
            damage(&hurt.table, TABLE_ROOM);
        for (size_t n = random_below(4); n > 0; n--)
            damage(&hurt.message, LIMIT + 1);
        if (random_below(16) == 0)
            hurt.number = random_below(4) ? random_below(18) : random_bits();
        if (random_below(4) == 0)
            hurt.revision = random_revision();
        if (random_below(4) > 0)
            mend_header(&hurt);
        if (row->call == SHORTEN)
            hurt.out_len = random_below(3) ? hurt.message.len : random_below(hurt.message.len + 8);
        compare(&hurt);
    }
    free(table.data);
    free(message.data);
}

/* A record of either length; so often of 16 a single one. */
static void put_any_record(struct octets *to, unsigned number, unsigned tag, enum kind kind, size_t single)
{
    if (random_below(16) < single)
        put_marked_record(to, number, tag, kind, 0, 1);
    else if (random_below(2))
        put_marked_record(to, number, tag, kind, 0, 0);
    else
        put_record(to, number, tag, kind, 0);
}

/* The entries of kinds_table and others whose tags stand at the ends of what one form of a tag can hold. Somewhere before or between
 * them stand up to 54 entries of another message number. */
static void put_edge_records(struct octets *to, size_t single)
{
    static const struct {
        unsigned tag;
        enum kind kind;
    } fields[] = {{1, UINT},  {2, INT},      {3, STRING}, {4, TEXT},  {5, MESSAGE},
                  {13, UINT}, {14, MESSAGE}, {255, TEXT}, {256, INT}, {65535, MESSAGE}};
    size_t others = random_below(2) ? 0 : random_below(3) ? random_below(55) : 54;
    size_t behind = random_below(sizeof fields / sizeof fields[0]);
    for (size_t i = 0; i < sizeof fields / sizeof fields[0]; i++) {
        for (unsigned tag = 0; i == behind && tag < others; tag++)
            put_any_record(to, 15, tag, UINT, single);
        put_any_record(to, 0, fields[i].tag, fields[i].kind, single);
    }
}

/* A random field list under such a table, in random forms, some of them nested. */
static void put_random(struct octets *to, unsigned depth)
{
    static const size_t widths[] = {0, 0, 1, 2, 4, 8};
    static const size_t lengths[] = {11, 12, 13, 255, 256};
    static const unsigned tags[] = {1, 2, 3, 4, 6, 13, 14, 255, 256, 65535, 5, 5, 5, 5};
    for (size_t n = 1 + random_below(3); n > 0 && to->len < 1000; n--) {
        unsigned tag = tags[random_below(sizeof tags / sizeof tags[0])];
        struct octets contents = room(16384);
        if ((tag == 5 || tag == 14 || tag == 65535) && depth < 9) {
            put_random(&contents, depth + 1);
        } else {
            size_t zeros = random_below(4);
            put_number(&contents, random_below(3) ? 0 : 0x80u << 8 * zeros, 1 + zeros);
            uint64_t value = random_up_to_bits(64);
            put_number(&contents, value, random_below(6));
            if (random_below(8) == 0)
                contents.len = 0;
            if (tag == 3)
                put_number(&contents, 0, lengths[random_below(5)] - contents.len);
            for (size_t i = 0; (tag == 4 || tag == 255) && i < contents.len; i++)
                contents.data[i] &= random_below(6) ? 0x7f : 0xff;
        }
        size_t tag_least = random_below(3);
        put_control(to, tag, contents.len, tag_least, widths[random_below(6)]);
        put(to, contents.data, contents.len);
        free(contents.data);
    }
}

/* A TibMsg of one field of a random type, size and hint, most of them good or nearly so. */
static struct octets random_tibmsg(void)
{
    static const uint8_t sizes[] = {0, 1, 2, 3, 4, 5, 6, 8, 9, 16};
    struct octets message = tibmsg_start();
    uint64_t flags = random_below(4) ? 0x40 : random_below(16) << 4;
    size_t size = sizes[random_below(sizeof sizes)];
    put_name(&message, random_below(4));
    put_number(&message, flags | random_below(12), 1);
    put_number(&message, size, flags & 0x80 ? 4 : 1);
    put_number(&message, 0, size);
    put_number(&message, 3 + random_below(6), 1);
    size_t hint_size = sizes[random_below(sizeof sizes)];
    put_number(&message, hint_size, 1);
    put_number(&message, 0, random_below(2) ? hint_size : random_below(10));
    set_size(&message, 5, message.len - 9);
    return message;
}

/* A TibrvMsg of one field of a random type and size, its size near the field's own. */
static struct octets random_tibrv(void)
{
    struct octets message = tibrv_start();
    put_name(&message, random_below(4));
    put_number(&message, random_below(3), 1);
    uint64_t marker = 0x77 + random_below(5);
    size_t width = marker == 0x79 ? 2 : marker == 0x7a ? 4 : 0;
    size_t left = random_below(2) ? random_below(12) : 0x70 + random_below(12);
    put_number(&message, width == 0 && random_below(2) ? left + 1 : marker, 1);
    put_number(&message, left + width - 1 + random_below(3), width);
    put_number(&message, 0x9955eeaa, 4);
    put_number(&message, 0, left < 4 ? 0 : left - 4);
    set_size(&message, 0, message.len);
    return message;
}

static void compare_random_tib(size_t times)
{
    for (size_t i = 0; i < times; i++) {
        struct row tibmsg = {.name = "random-tibmsg", .call = TIBMSG, .message = random_tibmsg()};
        struct row tibrv = {.name = "random-tibrv", .call = TIBRV, .message = random_tibrv()};
        compare(&tibmsg);
        compare(&tibrv);
        free(tibmsg.message.data);
        free(tibrv.message.data);
    }
}

/* Any of the reals or a neighbour, of either sign; some with no hint or another one. */
static struct real random_call(void)
{
    static const uint64_t hints[] = {0, 1, 8, 16, 26, (uint64_t)1 << 32 | TENTHS, (uint64_t)1 << 63 | TENTHS, UINT64_MAX};
    struct real real = make_real((enum reals)random_below(KINDS_OF_REALS));
    real.bits += random_below(3);
    real.bits = (real.bits - 1) ^ (random_bits() & (uint64_t)1 << 63);
    if (random_below(16) == 0)
        real.hinted = random_below(2) ? 0 : random_bits();
    if (random_below(16) == 0)
        real.hint = hints[random_below(sizeof hints / sizeof hints[0])];
    return real;
}

static void compare_random_reals(size_t times)
{
    struct real real;
    struct row row = {.name = "random-real", .call = DECIMALS, .reals = &real};
    for (size_t i = 0; i < times; i++) {
        real = random_call();
        compare(&row);
    }
}

/* A random step for a table of edge records, most often one that it allows. */
static struct step random_step(void)
{
    static uint8_t octets[] = "a text that is long enough for a length of its own \xc3\xa9\xe2\x82\xac";
    static const uint64_t uints[] = {1, 13}, ints[] = {2, 256}, texts[] = {3, 4, 255}, messages[] = {5, 14, 65535};
    struct step step = {(enum step_kind)(random_below(32) ? 1 + random_below(KINDS_OF_STEPS - 1) : START), 0, random_up_to_bits(64),
                        {octets, random_below(sizeof octets)}};
    switch (step.kind) {
    case START: step.tag = random_below(4) ? 0 : random_below(18), step.value = random_revision(); break;
    case PUT_UINT: step.tag = uints[random_below(2)]; break;
    case PUT_INT: step.tag = ints[random_below(2)], step.value = random_below(2) ? step.value : -step.value; break;
    case PUT_OCTETS: step.tag = texts[random_below(3)]; break;
    case OPEN: step.tag = messages[random_below(3)]; break;
    default: break;
    }
    if (step.kind != START && random_below(16) == 0)
        step.tag = random_below(2) ? random_up_to_bits(64) : step.tag + 65536;
    return step;
}

/* Changes what a step works on: a word of the state, its count of words, the table or the length of the buffer. */
static void hurt_desk(struct desk *desk)
{
    static const uint64_t words[] = {0, 1, 2, 3, 7, 8, 15, 16, 65535, 65536, 65537, UINT64_MAX};
    uint64_t *word = &desk->state[random_below(CRUDVIM_STATE_WORDS)];
    switch (random_below(8)) {
    case 0: desk->words = CRUDVIM_STATE_WORDS + 1 - 2 * random_below(2); break;
    case 1: desk->room = random_below(desk->room + 2); break;
    case 2: desk->table.len = random_below(desk->table.len + 1); break;
    case 3: *word += random_below(2) ? 1 : UINT64_MAX; break;
    case 4: *word = desk->state[random_below(CRUDVIM_STATE_WORDS)]; break;
    default: *word = words[random_below(sizeof words / sizeof words[0])]; break;
    }
}

/* Makes a step on both sides, each on a desk of its own, and compares all that it leaves. */
static void compare_step(const struct step *step, struct desk desks[2])
{
    uint64_t refusals[2], places[2] = {UNSET, UNSET}, starts[2] = {UNSET, UNSET};
    for (int i = 0; i < 2; i++)
        refusals[i] = make_step(&sides[i], step, &desks[i], &places[i], &starts[i]);
    int same = refusals[0] == refusals[1] && places[0] == places[1] && starts[0] == starts[1] &&
               memcmp(desks[0].state, desks[1].state, sizeof desks[0].state) == 0 &&
               memcmp(desks[0].buffer, desks[1].buffer, desks[0].room + 16) == 0;
    if (!same) {
        printf("step %d tag %llu value %llu: refusals %llu %llu, places %llu %llu\n", step->kind, (unsigned long long)step->tag,
               (unsigned long long)step->value, (unsigned long long)refusals[0], (unsigned long long)refusals[1],
               (unsigned long long)places[0], (unsigned long long)places[1]);
        fail("the writers differ");
    }
    compared++;
    refused_with[refusals[0] & 31]++;
}

/* The same with damage, alike on both sides. The words of the states stay as they are. */
static void compare_hurt_step(const struct step *step, const struct desk desks[2])
{
    struct desk hurt[2] = {desks[0], desks[0]};
    hurt_desk(&hurt[0]);
    hurt[1] = hurt[0];
    hurt[1].buffer = desks[1].buffer;
    compare_step(step, hurt);
}

/* Runs of random steps, of which some are also made with damage. */
static void compare_random_runs(size_t times)
{
    static const size_t singles[] = {0, 2, 8, 16};
    static uint8_t buffers[2][LIMIT + 64];
    struct octets table = room(TABLE_ROOM);
    for (size_t i = 0; i < times; i++) {
        struct desk desks[2] = {{.words = CRUDVIM_STATE_WORDS}, {.words = CRUDVIM_STATE_WORDS}};
        struct step step = {START, 0, 1 + random_below(2), {NULL, 0}};
        size_t len = random_below(64) ? random_below(200) : LIMIT - 2 + random_below(4);
        table.len = 0;
        put_edge_records(&table, singles[random_below(4)]);
        for (int side = 0; side < 2; side++) {
            desks[side].table = table;
            desks[side].buffer = buffers[side];
            desks[side].room = len;
        }
        for (size_t n = 1 + random_below(40); n > 0; n--, step = random_step()) {
            if (random_below(8) == 0)
                compare_hurt_step(&step, desks);
            compare_step(&step, desks);
        }
    }
    free(table.data);
}

static void compare_random(size_t times)
{
    static const size_t singles[] = {0, 2, 8, 16};
    struct row row = {.name = "random", .table = room(TABLE_ROOM), .message = room(65536)};
    for (size_t i = 0; i < times; i++) {
        row.revision = random_revision();
        row.table.len = row.message.len = 0;
        put_edge_records(&row.table, singles[random_below(4)]);
        put_random(&row.message, 1);
        row.out_len = random_below(3) ? row.message.len : random_below(row.message.len + 1);
        row.call = CHECK;
        compare(&row);
        row.call = SHORTEN;
        compare(&row);
    }
    free(row.message.data);
    free(row.table.data);
}

/* Small forms of what the rows have only in large, where damage seldom meets a limit, and a message that is too deep. */
static void compare_small(size_t times)
{
    struct octets none = room(0);
    struct octets kinds = kinds_table(MANY);
    struct octets kinds_single = kinds_table(SINGLE);
    struct octets dictionary = qform_dictionary(6);
    /* Some characters, and the first or last ones of four rows of the grammar of UTF-8. */
    const char *characters = "\xc3\xa9\xe2\x82\xac\xf0\x9f\x94\x8c\xe0\xa0\x80\xed\x9f\xbf\xf0\x90\x80\x80\xf4\x8f\xbf\xbf";
    struct row small[] = {
        {.name = "text-small", .call = CHECK, .table = kinds, .message = one_field(4, characters, 52)},
        {.name = "fields-small", .call = CHECK, .table = kinds, .message = small_fields(60, SHORT)},
        {.name = "deep-small", .call = CHECK, .table = kinds, .message = deep(8, 60, 1, SHORT)},
        {.name = "too-deep-small", .call = CHECK, .table = kinds, .message = deep(9, 60, 1, SHORT)},
        {.name = "single-small", .call = CHECK, .table = kinds_single, .message = unrepeated_fields(60, SHORT)},
        {.name = "repeated-small", .call = CHECK, .table = kinds_single, .message = small_fields(24, SHORT)},
        {.name = "tibmsg-small", .call = TIBMSG, .table = none, .message = tibmsg_small(180)},
        {.name = "tibrv-small", .call = TIBRV, .table = none, .message = tibrv_small(180, 1)},
        {.name = "tibrv-deep-small", .call = TIBRV, .table = none, .message = tibrv_small(480, 8)},
        {.name = "tibrv-too-deep-small", .call = TIBRV, .table = none, .message = tibrv_small(540, 9)},
        {.name = "qform-small", .call = QFORM, .table = dictionary, .message = qform_small(dictionary, 60)},
        {.name = "qform-one-field", .call = QFORM, .table = dictionary, .message = qform_small(dictionary, 18)},
    };
    for (size_t i = 0; i < sizeof small / sizeof small[0]; i++) {
        small[i].revision = REVISION;
        compare(&small[i]);
        compare_damaged(&small[i], times);
        if (small[i].call == CHECK) {
            small[i].call = SHORTEN;
            compare_damaged(&small[i], times);
        }
        if (small[i].call == QFORM) {
            small[i].call = QFORM_FIELD;
            compare_damaged(&small[i], times);
        }
        free(small[i].message.data);
    }
    free(none.data);
    free(kinds.data);
    free(kinds_single.data);
    free(dictionary.data);
}

/* Compares the answers to a row, or to each of its reals. Only of random reals may some be refused. */
static void compare_row(const struct row *row)
{
    struct row asked = *row;
    for (size_t left = row->call == DECIMALS ? REALS : 1; left > 0; left--) {
        struct answer answer = compare(&asked);
        if (answer.refusal != CRUDVIM_ACCEPTED && strcmp(row->name, RANDOM_REALS) != 0)
            fail_row(row, "is refused");
        asked.number++;
    }
}

/* Compares the answers to every row. Stops at the first difference. */
static void compare_rows(void)
{
    for (size_t i = 0; i < row_count; i++)
        compare_row(&rows[i]);
}

/* Compares the answers to every row, to 3000 damaged forms of a small message and fewer of a large one, to small forms, and to random
 * messages, reals and runs of the writer. */
static void compare_all(void)
{
    compare_rows();
    for (size_t i = 0; i < row_count; i++)
        if (rows[i].call < DECIMALS)
            compare_damaged(&rows[i], rows[i].message.len < 1024 ? 3000 : rows[i].message.len < 20000 ? 300 : 100);
    compare_small(20000);
    compare_random(20000);
    compare_random_tib(20000);
    compare_random_reals(400000);
    compare_random_runs(20000);
    printf("answers compared: %llu, all alike; by refusal:", (unsigned long long)compared);
    for (int i = 0; i < 32; i++)
        if (refused_with[i] > 0)
            printf(" %d:%llu", i, (unsigned long long)refused_with[i]);
    printf("\nhproto messages that the check accepted: %llu short already, %llu not\n\n", (unsigned long long)short_checks[1],
           (unsigned long long)short_checks[0]);
    if (short_checks[0] == 0 || short_checks[1] == 0)
        fail("all accepted messages are short, or none is");
    if (refused_with[CRUDVIM_REPEATED] == 0)
        fail("no message repeats a single field");
    if (refused_with[CRUDVIM_NOT_IN_DICTIONARY] == 0)
        fail("no message has a fid that its dictionary has not");
    if (refused_with[CRUDVIM_NOT_IN_FRACTIONS] == 0)
        fail("no real is refused");
    if (refused_with[CRUDVIM_TAG_OR_KIND] == 0 || refused_with[CRUDVIM_STATE] == 0 || refused_with[CRUDVIM_NOTHING_OPEN] == 0 ||
        refused_with[CRUDVIM_STILL_OPEN] == 0)
        fail("the writer does not refuse a tag, a state, a close or a finish");
}

/* A row has to have the form that it says. If it had not, the shortener would copy where it should write, or the reverse. */
static void check_form(const struct row *row, uint64_t shortest)
{
    if (may_be_unset && shortest == UNSET)
        return;
    if (shortest != (row->form == SHORT))
        fail_row(row, row->form == SHORT ? "should be short and is not" : "is short and should not be");
}

/* What a row can only know from an answer: its count of fields, and the room that is just enough where none was said. */
static void complete(struct row *row)
{
    static uint8_t out[LIMIT];
    struct row asked = *row;
    if (row->call == DECIMALS)
        return;
    if (row->call == SHORTEN && row->out_len == 0) {
        asked.out_len = row->message.len;
        row->out_len = ask(&sides[1], &asked, out).first;
    }
    if (row->call == SHORTEN)
        asked.call = CHECK;
    if (row->call == QFORM_FIELD)
        asked.call = QFORM;
    if (row->call == BUILD || row->call == PUT) {
        if (ask_any(&sides[1], row, out).first != 0 || memcmp(out, row->message.data, row->message.len) != 0)
            fail_row(row, "does not write its message");
        asked.call = CHECK;
    }
    struct answer answer = ask(&sides[1], &asked, out);
    row->fields = answer.first;
    if (asked.call == CHECK)
        check_form(row, answer.shortest);
}

static void complete_all(void)
{
    for (size_t i = 0; i < row_count; i++)
        complete(&rows[i]);
}

/* ---- timing ---- */

static double now(void)
{
    struct timespec time;
    clock_gettime(CLOCK_PROCESS_CPUTIME_ID, &time);
    return (double)time.tv_sec * 1e9 + (double)time.tv_nsec;
}

static int by_value(const void *a, const void *b)
{
    double x = *(const double *)a;
    double y = *(const double *)b;
    return (x > y) - (x < y);
}

/* The median time of one call on each side. The sides take turns, and which of them is first changes from sample to sample. */
static void time_row(const struct row *row, double median[2])
{
    static uint8_t out[LIMIT];
    double samples[2][SAMPLES];
    size_t times = 1;
    for (;; times *= 2) {
        double start = now();
        sink += repeat(&sides[1], row, out, times);
        if (now() - start > 1e6)
            break;
    }
    sink += repeat(&sides[0], row, out, times);
    for (int sample = 0; sample < SAMPLES; sample++)
        for (int turn = 0; turn < 2; turn++) {
            int side = (sample + turn) % 2;
            double start = now();
            sink += repeat(&sides[side], row, out, times);
            samples[side][sample] = (now() - start) / (double)times;
        }
    for (int side = 0; side < 2; side++) {
        qsort(samples[side], SAMPLES, sizeof(double), by_value);
        median[side] = samples[side][SAMPLES / 2];
    }
}

static void time_all(void)
{
    printf("Median of %d samples, nanoseconds of processor time for one call.\n", SAMPLES);
    printf("Ratio: library by plain, below 1 the library is ahead.\n\n");
    printf("%-28s %-8s %7s %7s %12s %12s %7s\n", "row", "call", "octets", "fields", "library-ns", "plain-ns", "ratio");
    for (size_t i = 0; i < row_count; i++) {
        double median[2];
        time_row(&rows[i], median);
        printf("%-28s %-8s %7zu %7llu %12.1f %12.1f %7.3f\n", rows[i].name, call_names[rows[i].call], rows[i].message.len,
               (unsigned long long)rows[i].fields, median[0], median[1], median[0] / median[1]);
        fflush(stdout);
    }
}

/* ---- the program ---- */

static void list(void)
{
    for (size_t i = 0; i < row_count; i++)
        printf("%s %s %zu %llu\n", rows[i].name, call_names[rows[i].call], rows[i].message.len, (unsigned long long)rows[i].fields);
}

/* Calls the wanted row and prints nothing, so that runs of different lengths differ in the calls alone. */
static void count(const char *wanted, const char *side_name, size_t times)
{
    static uint8_t out[LIMIT];
    int side = strcmp(side_name, "plain") == 0;
    if (strcmp(side_name, sides[side].name) != 0)
        fail("the side is library or plain");
    for (size_t i = 0; i < row_count; i++) {
        size_t len = strlen(rows[i].name);
        if (strncmp(wanted, rows[i].name, len) == 0 && wanted[len] == ':' &&
            strcmp(wanted + len + 1, call_names[rows[i].call]) == 0) {
            complete(&rows[i]);
            sink += repeat(&sides[side], &rows[i], out, times);
            return;
        }
    }
    fail("no such row");
}

int main(int argc, char **argv)
{
    add_rows();
    if (argc == 1) {
        complete_all();
        compare_all();
        time_all();
    } else if (argc == 2 && strcmp(argv[1], "--compare") == 0) {
        complete_all();
        compare_all();
    } else if (argc == 2 && (strcmp(argv[1], "--time") == 0 || strcmp(argv[1], "--time-unmarked") == 0)) {
        if (strcmp(argv[1], "--time") != 0)
            drop_marked_rows();
        may_be_unset = 1;
        complete_all();
        compare_rows();
        time_all();
    } else if (argc == 2 && strcmp(argv[1], "--list") == 0) {
        complete_all();
        list();
    } else if ((argc == 4 || argc == 5) && strcmp(argv[1], "--count") == 0) {
        count(argv[2], argv[3], argc == 5 ? strtoul(argv[4], NULL, 10) : 100);
    } else {
        fail("usage: bench [--compare | --time | --time-unmarked | --list | --count ROW:CALL SIDE [N]]");
    }
    return 0;
}
