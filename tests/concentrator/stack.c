/* Measures the stack of each function. A call runs on a stack of its own that is filled with one octet. What lies
 * between the caller's frame and the lowest octet that changed is the stack of the call, 256 octets at least. Messages
 * are eight deep and the writer has seven fields open: there the functions that call themselves use the most.
 *
 * Each measured call has to return the refusal that its row names, mostly that it is accepted. The program fails if one
 * does not, or if a call uses more than its limit. The first argument is the limit; the second is that of the functions
 * for QForm, which have cells for all fids. */
#define _GNU_SOURCE
#include "crudvim.h"

#include <pthread.h>
#include <stdio.h>
#include <stdlib.h>
#include <string.h>

enum { STACK = 1 << 18, FILL = 0xa5, MARGIN = 256, DEPTH = 8 };

static uint64_t a, b, c, d, e, f, g, h, i, j;
static int64_t s;

/* Tag 1 of message 0 is message 0, tag 2 an int, tag 3 a text, tag 16 a uint, tag 17 a string. All are single. A table
 * with a tag over 15 takes the most stack. */
static const uint8_t table[] = {1, 0, 6, 0, 0, 1, 5, 0, 1, 1, 0, 6, 0, 0, 2,  2, 0, 1, 1, 0, 6, 0, 0, 3, 4, 0, 1,
                                1, 0, 6, 0, 0, 16, 1, 0, 1, 1, 0, 6, 0, 0, 17, 3, 0, 1};
#define TABLE table, sizeof table

/* hproto: the nested message in its longest form, and in its shortest. */

static uint8_t nest[65536], least[65536], shorter[65536];
static size_t nest_length;
static uint64_t least_length;

static uint64_t check(void)
{
    return crudvim_check(TABLE, 2, 0, nest, nest_length, &a, &b, &c, &d);
}

static uint64_t check_least(void)
{
    return crudvim_check(TABLE, 2, 0, least, least_length, &a, &b, &c, &d);
}

/* The buffer is long enough for any form of the message; for the shortest form only; and for none. */
static uint64_t shorten(void)
{
    return crudvim_shorten(TABLE, 2, 0, nest, nest_length, shorter, nest_length, &a, &b);
}

static uint64_t shorten_exactly(void)
{
    return crudvim_shorten(TABLE, 2, 0, nest, nest_length, shorter, least_length, &a, &b);
}

static uint64_t shorten_no_room(void)
{
    return crudvim_shorten(TABLE, 2, 0, nest, nest_length, shorter, least_length - 1, &a, &b);
}

static uint64_t shorten_least(void)
{
    return crudvim_shorten(TABLE, 2, 0, least, least_length, shorter, least_length, &a, &b);
}

static uint64_t lookup(void)
{
    return crudvim_lookup(TABLE, 2, 0, nest, nest_length, 1, 0, &a, &b, &c, &s, &d, &e);
}

static uint64_t lookup_last(void)
{
    return crudvim_lookup_last(TABLE, 2, 0, nest, nest_length, 1, &a, &b, &c, &s, &d, &e);
}

static uint64_t frame_read(void)
{
    static const uint8_t frame[] = {0xff, 0, 0, 0, 0, 0, 0, 0, 1, 7};
    return crudvim_frame_read(frame, sizeof frame, &a, &b, &c);
}

static uint64_t frame_write(void)
{
    return crudvim_frame_write(nest, nest_length, shorter, sizeof shorter, &a, &b);
}

/* The writer: a state with seven open fields, or with six, in the longest buffer. */

static uint8_t room[65536], text[60000];
static uint64_t state[CRUDVIM_STATE_WORDS];
#define STATE state, CRUDVIM_STATE_WORDS
#define ROOM room, sizeof room

static void must(uint64_t refusal, const char *what)
{
    if (refusal == CRUDVIM_ACCEPTED)
        return;
    printf("%s: %s\n", what, crudvim_refusal_text(refusal));
    exit(2);
}

static void opened(int fields)
{
    must(crudvim_start(TABLE, 2, 0, ROOM, STATE, &a), "start");
    for (int n = 0; n < fields; n++)
        must(crudvim_open(TABLE, STATE, 1, &a), "open");
}

static void open_none(void)
{
    opened(0);
}

static void open_six(void)
{
    opened(DEPTH - 2);
}

static void open_seven(void)
{
    opened(DEPTH - 1);
}

static void open_seven_long(void)
{
    open_seven();
    must(crudvim_put_octets(TABLE, STATE, 17, text, sizeof text, ROOM, &a), "put of octets");
}

static uint64_t start(void)
{
    return crudvim_start(TABLE, 2, 0, ROOM, STATE, &a);
}

static uint64_t put_uint(void)
{
    return crudvim_put_uint(TABLE, STATE, 16, UINT64_MAX, ROOM, &a);
}

static uint64_t put_int(void)
{
    return crudvim_put_int(TABLE, STATE, 2, INT64_MIN, ROOM, &a);
}

static uint64_t put_string(void)
{
    return crudvim_put_octets(TABLE, STATE, 17, text, sizeof text, ROOM, &a);
}

static uint64_t put_text(void)
{
    return crudvim_put_octets(TABLE, STATE, 3, text, sizeof text, ROOM, &a);
}

static uint64_t open_field(void)
{
    return crudvim_open(TABLE, STATE, 1, &a);
}

static uint64_t close_field(void)
{
    return crudvim_close(TABLE, STATE, ROOM, &a);
}

static uint64_t finish(void)
{
    return crudvim_finish(STATE, &a, &b);
}

/* TibMsg: a field without a name, and a real with a name and a hint. */

static const uint8_t tibmsg[] = {0xce, 0x13, 0xaa, 0x1f, 1, 0, 0, 0, 21, 0, 2, 1, 'x',
                                 3, 'k', 'W', 0, 0x47, 8, 0x40, 10, 0, 0, 0, 0, 0, 0, 6, 1, 2};

static uint64_t tibmsg_check(void)
{
    return crudvim_tibmsg_check(tibmsg, sizeof tibmsg, &a, &b, &c);
}

static uint64_t tibmsg_field(void)
{
    return crudvim_tibmsg_field(tibmsg, sizeof tibmsg, 1, &a, &b, &c, &d, &e, &f, &g, &h, &i, &j);
}

static uint8_t tibrv[65536];
static size_t tibrv_length;

static uint64_t tibrv_check(void)
{
    return crudvim_tibrv_check(tibrv, tibrv_length, &a, &b, &c);
}

static uint64_t tibrv_field(void)
{
    return crudvim_tibrv_field(tibrv, tibrv_length, 0, &a, &b, &c, &d, &e, &f);
}

/* QForm: fid 1 has three octets and fid 16383 has none. */

static const uint8_t dictionary[] = {2, 0, 5, 0, 1, 2, 0, 3, 2, 0, 5, 0x3f, 0xff, 0, 0, 0};
static const uint8_t qform[] = {0x11, 0x11, 0x11, 0x12, 0, 0, 0, 8, 0xc0, 1, 'k', 'W', 'h', 0, 0xff, 0xff};

static uint64_t qform_check(void)
{
    return crudvim_qform_check(dictionary, sizeof dictionary, qform, sizeof qform, &a, &b, &c);
}

static uint64_t qform_field(void)
{
    return crudvim_qform_field(dictionary, sizeof dictionary, qform, sizeof qform, 1, &a, &b, &c, &d, &e);
}

/* Reals: 3.25 in quarters, and 2.675 in hundredths. */

static uint64_t fractions(void)
{
    return crudvim_fractions(UINT64_C(0x400a000000000000), 1, 2, &a, &s);
}

static uint64_t decimals(void)
{
    return crudvim_decimals(UINT64_C(0x4005666666666666), 1, 18, &a, &s);
}

/* What is measured: what to do first, the call, and the refusal that it returns. fids marks the functions for QForm. */
struct row {
    const char *name;
    void (*prepare)(void);
    uint64_t (*call)(void);
    uint64_t refusal;
    int fids;
};

static const struct row rows[] = {
    {"crudvim_check", NULL, check, CRUDVIM_ACCEPTED, 0},
    {"crudvim_check, short already", NULL, check_least, CRUDVIM_ACCEPTED, 0},
    {"crudvim_shorten", NULL, shorten, CRUDVIM_ACCEPTED, 0},
    {"crudvim_shorten, exact buffer", NULL, shorten_exactly, CRUDVIM_ACCEPTED, 0},
    {"crudvim_shorten, no room", NULL, shorten_no_room, CRUDVIM_NO_ROOM, 0},
    {"crudvim_shorten, short already", NULL, shorten_least, CRUDVIM_ACCEPTED, 0},
    {"crudvim_lookup", NULL, lookup, CRUDVIM_ACCEPTED, 0},
    {"crudvim_lookup_last", NULL, lookup_last, CRUDVIM_ACCEPTED, 0},
    {"crudvim_frame_read", NULL, frame_read, CRUDVIM_ACCEPTED, 0},
    {"crudvim_frame_write", NULL, frame_write, CRUDVIM_ACCEPTED, 0},
    {"crudvim_start", NULL, start, CRUDVIM_ACCEPTED, 0},
    {"crudvim_put_uint", open_seven, put_uint, CRUDVIM_ACCEPTED, 0},
    {"crudvim_put_int", open_seven, put_int, CRUDVIM_ACCEPTED, 0},
    {"crudvim_put_octets, string", open_seven, put_string, CRUDVIM_ACCEPTED, 0},
    {"crudvim_put_octets, text", open_seven, put_text, CRUDVIM_ACCEPTED, 0},
    {"crudvim_put_octets, no room", open_seven_long, put_text, CRUDVIM_NO_ROOM, 0},
    {"crudvim_open", open_six, open_field, CRUDVIM_ACCEPTED, 0},
    {"crudvim_open, too deep", open_seven, open_field, CRUDVIM_TOO_DEEP, 0},
    {"crudvim_close", open_seven_long, close_field, CRUDVIM_ACCEPTED, 0},
    {"crudvim_finish", open_none, finish, CRUDVIM_ACCEPTED, 0},
    {"crudvim_finish, still open", open_seven, finish, CRUDVIM_STILL_OPEN, 0},
    {"crudvim_tibmsg_check", NULL, tibmsg_check, CRUDVIM_ACCEPTED, 0},
    {"crudvim_tibmsg_field", NULL, tibmsg_field, CRUDVIM_ACCEPTED, 0},
    {"crudvim_tibrv_check", NULL, tibrv_check, CRUDVIM_ACCEPTED, 0},
    {"crudvim_tibrv_field", NULL, tibrv_field, CRUDVIM_ACCEPTED, 0},
    {"crudvim_qform_check", NULL, qform_check, CRUDVIM_ACCEPTED, 1},
    {"crudvim_qform_field", NULL, qform_field, CRUDVIM_ACCEPTED, 1},
    {"crudvim_fractions", NULL, fractions, CRUDVIM_ACCEPTED, 0},
    {"crudvim_decimals", NULL, decimals, CRUDVIM_ACCEPTED, 0},
};

struct job {
    uint64_t (*call)(void);
    uint8_t *stack;
    uint64_t refusal;
    size_t octets;
};

/* Fills the stack below its own frame, except for a margin that the filling itself needs. */
static void *measured(void *x)
{
    struct job *job = x;
    uint8_t *top = __builtin_frame_address(0);
    size_t n = 0, below = (size_t)(top - job->stack) - MARGIN;
    memset(job->stack, FILL, below);
    job->refusal = job->call();
    while (n < below && job->stack[n] == FILL)
        n++;
    job->octets = (size_t)(top - job->stack) - n;
    return NULL;
}

static void measure(struct job *job)
{
    pthread_attr_t attributes;
    pthread_t thread;
    job->stack = aligned_alloc(4096, STACK);
    pthread_attr_init(&attributes);
    if (job->stack == NULL || pthread_attr_setstack(&attributes, job->stack, STACK) != 0
        || pthread_create(&thread, &attributes, measured, job) != 0)
        exit(2);
    pthread_join(thread, NULL);
    pthread_attr_destroy(&attributes);
    free(job->stack);
}

/* Measures a row and prints it. Returns whether the call used more than the limit or returned another refusal. */
static int fails(const struct row *row, size_t limit)
{
    struct job job = {row->call, NULL, 0, 0};
    if (row->prepare != NULL)
        row->prepare();
    measure(&job);
    printf("%-30s %5zu octets", row->name, job.octets);
    if (job.octets > limit)
        printf(", more than its limit");
    if (job.refusal != row->refusal)
        printf(", not measured as named: %s", crudvim_refusal_text(job.refusal));
    printf("\n");
    return job.octets > limit || job.refusal != row->refusal;
}

/* Eight levels: each has a field with the tag 1 around the next, an int, a uint and a text. Tags, lengths and numbers
 * are in their longest form, so that the check reads them the general way, at the deepest level too. */
static void fill_nest(void)
{
    static const uint8_t inside[] = {0xff, 0, 2,  0, 0, 0, 0, 0, 0, 0, 8, 0, 0, 0, 0, 0, 0, 0, 5,
                                     0xff, 0, 16, 0, 0, 0, 0, 0, 0, 0, 8, 0, 0, 0, 0, 0, 0, 0, 5,
                                     0x33, 'k', 'W', 'h'};
    size_t at = sizeof nest, level, k, length;
    for (level = 0; level < DEPTH - 1; level++) {
        at -= sizeof inside;
        memcpy(nest + at, inside, sizeof inside);
        length = sizeof nest - at;
        at -= 9;
        nest[at] = 0x1f;
        for (k = 0; k < 8; k++)
            nest[at + 1 + k] = (uint8_t)(k < 6 ? 0 : length >> (8 * (7 - k)));
    }
    nest_length = sizeof nest - at;
    memmove(nest, nest + at, nest_length);
}

/* Eight levels of TibrvMsg: a header and one field of type 1. */
static void fill_tibrv(void)
{
    size_t at = sizeof tibrv, level, k, length;
    for (level = 0; level < DEPTH; level++) {
        if (level > 0) {
            at -= 3;
            memcpy(tibrv + at, "\0\1\x7a", 3);
        }
        at -= 8;
        length = sizeof tibrv - at;
        memcpy(tibrv + at + 4, "\x99\x55\xee\xaa", 4);
        for (k = 0; k < 4; k++)
            tibrv[at + k] = (uint8_t)(length >> (8 * (3 - k)));
    }
    tibrv_length = sizeof tibrv - at;
    memmove(tibrv, tibrv + at, tibrv_length);
}

/* Characters of one to four octets. */
static void fill_text(void)
{
    size_t at;
    for (at = 0; at < sizeof text; at += 10)
        memcpy(text + at, "h\xc3\xa9\xe2\x82\xac\xf0\x9d\x84\x9e", 10);
}

static void expect(int holds, const char *what)
{
    if (holds)
        return;
    printf("the inputs are not as planned: %s\n", what);
    exit(2);
}

/* Fills the inputs, and tests that they are what the measurement needs. */
static void fill(void)
{
    fill_nest();
    fill_tibrv();
    fill_text();
    must(crudvim_shorten(TABLE, 2, 0, nest, nest_length, least, sizeof least, &a, &least_length), "shorten");
    must(check(), "check");
    expect(c == DEPTH && d == 0, "the nested message is eight deep and not short");
    must(check_least(), "check of the shortest form");
    expect(c == DEPTH && d == 1, "its shortest form is eight deep and short");
    must(tibmsg_check(), "TibMsg");
    expect(b == 2, "the TibMsg has two fields");
    must(tibmsg_field(), "field of the TibMsg");
    expect(g == 1 && i == 2 && crudvim_real(j) > 3.2, "its second field is a real with a hint");
    must(tibrv_check(), "TibrvMsg");
    expect(c == DEPTH, "the TibrvMsg is eight deep");
    must(qform_check(), "QForm");
    expect(b == 2, "the QForm message has two fields");
}

int main(int argc, char **argv)
{
    size_t limits[2] = {STACK, STACK}, k;
    int failed = 0;
    for (k = 0; k < 2 && (int)k + 1 < argc; k++)
        limits[k] = strtoul(argv[k + 1], NULL, 10);
    fill();
    for (k = 0; k < sizeof rows / sizeof rows[0]; k++)
        failed |= fails(&rows[k], limits[rows[k].fids]);
    return failed;
}
