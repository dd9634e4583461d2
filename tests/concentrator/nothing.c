/* Calls every function that takes octets with null pointers and length 0, and tests every answer. */
#include "crudvim.h"

#include <stdio.h>

static int failed;

static void expect(const char *what, uint64_t got, uint64_t wanted)
{
    if (got != wanted) {
        printf("%s: %llu, not %llu\n", what, (unsigned long long)got, (unsigned long long)wanted);
        failed = 1;
    }
}

/* Results. Each test sets them to another number first, so that a result that is not stored is found. */
static uint64_t a, b, c, d, e, f, g, h, i, j;
static int64_t s;

static void reset(void)
{
    a = b = c = d = e = f = g = h = i = j = 99;
    s = 99;
}

static void test_check(void)
{
    reset();
    expect("check", crudvim_check(NULL, 0, 2, 0, NULL, 0, &a, &b, &c, &d), CRUDVIM_ACCEPTED);
    expect("check: place and fields", a | b, 0);
    expect("check: depth", c, 1);
    expect("check: shortest", d, 1);
    reset();
    expect("check under revision 1", crudvim_check(NULL, 0, 1, 0, NULL, 0, &a, &b, &c, &d), CRUDVIM_ACCEPTED);
    expect("check under revision 1: depth", c, 1);
    reset();
    expect("check under revision 3", crudvim_check(NULL, 0, 3, 0, NULL, 0, &a, &b, &c, &d), CRUDVIM_TABLE);
    expect("check under revision 3: results", a | b | c | d, 0);
    reset();
    expect("check of number 16", crudvim_check(NULL, 0, 2, 16, NULL, 0, &a, &b, &c, &d), CRUDVIM_TABLE);
    expect("check of number 16: results", a | b | c | d, 0);
}

static void test_shorten(void)
{
    const uint8_t octet = 0xc0;
    reset();
    expect("shorten", crudvim_shorten(NULL, 0, 2, 0, NULL, 0, NULL, 0, &a, &b), CRUDVIM_ACCEPTED);
    expect("shorten: results", a | b, 0);
    reset();
    expect("shorten into nothing", crudvim_shorten(NULL, 0, 2, 0, &octet, 1, NULL, 0, &a, &b), CRUDVIM_NO_ROOM);
    expect("shorten into nothing: results", a | b, 0);
    reset();
    expect("shorten under revision 0", crudvim_shorten(NULL, 0, 0, 0, NULL, 0, NULL, 0, &a, &b), CRUDVIM_TABLE);
    expect("shorten under revision 0: results", a | b, 0);
}

static void test_lookup(void)
{
    reset();
    expect("lookup", crudvim_lookup(NULL, 0, 2, 0, NULL, 0, 1, 0, &a, &b, &c, &s, &d, &e), CRUDVIM_ABSENT);
    expect("lookup: results", a | b | c | d | e | (uint64_t)s, 0);
    reset();
    expect("lookup last", crudvim_lookup_last(NULL, 0, 2, 0, NULL, 0, 1, &a, &b, &c, &s, &d, &e), CRUDVIM_ABSENT);
    expect("lookup last: results", a | b | c | d | e | (uint64_t)s, 0);
}

static void test_frames(void)
{
    reset();
    expect("frame read", crudvim_frame_read(NULL, 0, &a, &b, &c), CRUDVIM_CUT);
    expect("frame read: results", a | b | c, 0);
    reset();
    expect("frame write", crudvim_frame_write(NULL, 0, NULL, 0, &a, &b), CRUDVIM_NO_ROOM);
    expect("frame write: results", a | b, 0);
}

static void test_tib(void)
{
    reset();
    expect("tibmsg check", crudvim_tibmsg_check(NULL, 0, &a, &b, &c), CRUDVIM_CUT);
    expect("tibmsg check: results", a | b | c, 0);
    reset();
    expect("tibmsg field", crudvim_tibmsg_field(NULL, 0, 0, &a, &b, &c, &d, &e, &f, &g, &h, &i, &j), CRUDVIM_CUT);
    expect("tibmsg field: results", a | b | c | d | e | f | g | h | i | j, 0);
    reset();
    expect("tibrv check", crudvim_tibrv_check(NULL, 0, &a, &b, &c), CRUDVIM_CUT);
    expect("tibrv check: results", a | b | c, 0);
    reset();
    expect("tibrv field", crudvim_tibrv_field(NULL, 0, 0, &a, &b, &c, &d, &e, &f), CRUDVIM_CUT);
    expect("tibrv field: results", a | b | c | d | e | f, 0);
}

/* A QForm message without fields; and a dictionary that ends inside its first record. */
static void test_qform(void)
{
    static const uint8_t empty[] = {0x11, 0x11, 0x11, 0x12, 0, 0, 0, 0};
    const uint8_t cut = 2;
    reset();
    expect("qform check", crudvim_qform_check(NULL, 0, NULL, 0, &a, &b, &c), CRUDVIM_CUT);
    expect("qform check: results", a | b | c, 0);
    reset();
    expect("qform check, no dictionary", crudvim_qform_check(NULL, 0, empty, 8, &a, &b, &c), CRUDVIM_ACCEPTED);
    expect("qform check, no dictionary: place and fields", a | b, 0);
    expect("qform check, no dictionary: depth", c, 1);
    reset();
    expect("qform field", crudvim_qform_field(NULL, 0, empty, 8, 0, &a, &b, &c, &d, &e), CRUDVIM_ABSENT);
    expect("qform field: results", a | b | c | d | e, 0);
    reset();
    expect("qform field of nothing", crudvim_qform_field(&cut, 1, NULL, 0, 0, &a, &b, &c, &d, &e), CRUDVIM_TABLE);
    expect("qform field of nothing: results", a | b | c | d | e, 0);
}

/* Message 0: tag 1 is a uint, tag 2 an int, tag 3 a text, tag 4 message 0. */
static const uint8_t table[] = {1, 0, 5, 0, 0, 1, 1, 0, 1, 0, 5, 0, 0, 2, 2, 0,
                                1, 0, 5, 0, 0, 3, 4, 0, 1, 0, 5, 0, 0, 4, 5, 0};
static uint64_t state[CRUDVIM_STATE_WORDS];
#define TABLE table, sizeof table
#define STATE state, CRUDVIM_STATE_WORDS

/* The state of an array, and of the message in it: nothing is stored or open. */
static void expect_begun(const char *what, uint64_t length)
{
    size_t n;
    for (n = 0; n < CRUDVIM_STATE_WORDS; n++)
        expect(what, state[n], n == CRUDVIM_STATE_REVISION ? 2 : n <= CRUDVIM_STATE_START ? length : 0);
}

static void test_start(void)
{
    size_t n;
    for (n = 0; n < CRUDVIM_STATE_WORDS; n++)
        state[n] = 99;
    reset();
    expect("start", crudvim_start(NULL, 0, 2, 0, NULL, 0, STATE, &a), CRUDVIM_ACCEPTED);
    expect("start: place", a, 0);
    expect_begun("start: state", 0);
    reset();
    expect("start under revision 3", crudvim_start(NULL, 0, 3, 0, NULL, 0, STATE, &a), CRUDVIM_TABLE);
    expect("start under revision 3: place and state", a | state[CRUDVIM_STATE_REVISION], 0);
    reset();
    expect("start, no state", crudvim_start(NULL, 0, 2, 0, NULL, 0, NULL, 0, &a), CRUDVIM_STATE);
    expect("start, no state: place", a, 0);
}

/* Without a state, every call is rejected for that. */
static void test_no_state(void)
{
    reset();
    expect("put_uint, no state", crudvim_put_uint(NULL, 0, NULL, 0, 1, 5, NULL, 0, &a), CRUDVIM_STATE);
    expect("put_uint, no state: place", a, 0);
    reset();
    expect("put_int, no state", crudvim_put_int(NULL, 0, NULL, 0, 1, -5, NULL, 0, &a), CRUDVIM_STATE);
    expect("put_int, no state: place", a, 0);
    reset();
    expect("put_octets, no state", crudvim_put_octets(NULL, 0, NULL, 0, 1, NULL, 0, NULL, 0, &a), CRUDVIM_STATE);
    expect("put_octets, no state: place", a, 0);
    reset();
    expect("open, no state", crudvim_open(NULL, 0, NULL, 0, 1, &a), CRUDVIM_STATE);
    expect("open, no state: place", a, 0);
    reset();
    expect("close, no state", crudvim_close(NULL, 0, NULL, 0, NULL, 0, &a), CRUDVIM_STATE);
    expect("close, no state: place", a, 0);
    reset();
    expect("finish, no state", crudvim_finish(NULL, 0, &a, &b), CRUDVIM_STATE);
    expect("finish, no state: results", a | b, 0);
}

static void begin(const uint8_t *buffer, size_t length)
{
    expect("begin", crudvim_start(TABLE, 2, 0, buffer, length, STATE, &a), CRUDVIM_ACCEPTED);
    reset();
}

/* Without a table no tag is known, and nothing is open. */
static void test_no_table(void)
{
    begin(NULL, 0);
    expect("put_uint, no table", crudvim_put_uint(NULL, 0, STATE, 1, 5, NULL, 0, &a), CRUDVIM_TAG_OR_KIND);
    expect("put_uint, no table: place", a, 0);
    reset();
    expect("put_int, no table", crudvim_put_int(NULL, 0, STATE, 2, -5, NULL, 0, &a), CRUDVIM_TAG_OR_KIND);
    expect("put_int, no table: place", a, 0);
    reset();
    expect("put_octets, no table", crudvim_put_octets(NULL, 0, STATE, 3, NULL, 0, NULL, 0, &a), CRUDVIM_TAG_OR_KIND);
    expect("put_octets, no table: place", a, 0);
    reset();
    expect("open, no table", crudvim_open(NULL, 0, STATE, 4, &a), CRUDVIM_TAG_OR_KIND);
    expect("open, no table: place", a, 0);
    reset();
    expect("close, no table", crudvim_close(NULL, 0, STATE, NULL, 0, &a), CRUDVIM_NOTHING_OPEN);
    expect("close, no table: place", a, 0);
    expect_begun("no table: state", 0);
}

/* A buffer of no octets has room for nothing, not even for an empty text or for the end of a field. */
static void test_no_buffer(void)
{
    begin(NULL, 0);
    expect("put_uint, no buffer", crudvim_put_uint(TABLE, STATE, 1, 0, NULL, 0, &a), CRUDVIM_NO_ROOM);
    expect("put_uint, no buffer: place", a, 0);
    reset();
    expect("put_int, no buffer", crudvim_put_int(TABLE, STATE, 2, -5, NULL, 0, &a), CRUDVIM_NO_ROOM);
    expect("put_int, no buffer: place", a, 0);
    reset();
    expect("put_octets, no buffer", crudvim_put_octets(TABLE, STATE, 3, NULL, 0, NULL, 0, &a), CRUDVIM_NO_ROOM);
    expect("put_octets, no buffer: place", a, 0);
    expect_begun("no buffer: state", 0);
    reset();
    expect("finish, no buffer", crudvim_finish(STATE, &a, &b), CRUDVIM_ACCEPTED);
    expect("finish, no buffer: results", a | b, 0);
    reset();
    expect("open, no buffer", crudvim_open(TABLE, STATE, 4, &a), CRUDVIM_ACCEPTED);
    expect("open, no buffer: place", a, 0);
    reset();
    expect("close, no buffer", crudvim_close(TABLE, STATE, NULL, 0, &a), CRUDVIM_NO_ROOM);
    expect("close, no buffer: place", a, 0);
    reset();
    expect("finish, still open", crudvim_finish(STATE, &a, &b), CRUDVIM_STILL_OPEN);
    expect("finish, still open: results", a | b, 0);
}

/* A text of no octets, in a buffer of one. */
static void test_no_octets(void)
{
    uint8_t octet = 99;
    begin(&octet, 1);
    expect("put_octets of nothing", crudvim_put_octets(TABLE, STATE, 3, NULL, 0, &octet, 1, &a), CRUDVIM_ACCEPTED);
    expect("put_octets of nothing: place", a, 0);
    expect("put_octets of nothing: octet", octet, 0x30);
    reset();
    expect("finish", crudvim_finish(STATE, &a, &b), CRUDVIM_ACCEPTED);
    expect("finish: results", a | b, 0);
}

int main(void)
{
    test_check();
    test_shorten();
    test_lookup();
    test_frames();
    test_tib();
    test_qform();
    test_start();
    test_no_state();
    test_no_table();
    test_no_buffer();
    test_no_octets();
    return failed;
}
