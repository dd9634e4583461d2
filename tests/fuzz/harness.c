/* Calls one entry of the library, or a run of the writer's, on one input and looks at what must hold of every answer.
 *
 * An input is: entry (1 octet), revision (2), number (2), first word (2), second word (2), table length (2), table, and the rest is the
 * message. All are big-endian. The entries are numbered as in the enum below. For QForm the table is the dictionary. The words are the tag
 * and k of lookup, k of a Tib or QForm field, hinted and the hint of fractions and decimals (whose real is the first eight octets of the
 * message); for the entries that write, the second word is the room: from ff00 on the message's length and so many octets more. An input
 * that is too short is filled up with zeros. The table's records are as long as its octets say.
 *
 * For the writer the second word is the length of the buffer: from ff00 on word 0 of the state and so many octets more, from ff80 on 65472
 * and so many more. In the place of the message stand the count of words of the state (1 octet) and the words (8 each), then for a put and
 * for open the tag (8), and for a put the value (8) or the octets. For a run the steps stand there: each is an octet (modulo 6: put_uint,
 * put_int, put_octets, open, close, finish), then for the first four the tag (2), and for a put the value (8), or a length (2) and octets.
 *
 * Each call is made three times: with buffers of just their size from malloc, for AddressSanitizer; with buffers that end just
 * before a page that cannot be touched; and with buffers that start just after one. The pages find a stray access in an archive
 * that was built without AddressSanitizer, too.
 *
 * The check's answers are also compared with those of bench/plain.c, a separate implementation, and with those under the other revision.
 * So are both answers for QForm, those in decimals and those of the writer, refused or not, with those of bench/plain.c. After each call of
 * the writer the words of its state and the octets of its buffer are compared, too, and a message that a run finishes is checked.
 *
 * Built with -fsanitize=fuzzer it is driven by libFuzzer. Built with -DSTANDALONE it runs the files that it is given, or its
 * standard input.
 */
#define _DEFAULT_SOURCE

#include "crudvim.h"

#include "../../bench/plain.h"

#include <stdio.h>
#include <stdlib.h>
#include <string.h>
#include <sys/mman.h>

enum entry {
    CHECK,
    SHORTEN,
    LOOKUP,
    LOOKUP_LAST,
    FRAME_READ,
    FRAME_WRITE,
    TIBMSG_CHECK,
    TIBMSG_FIELD,
    TIBRV_CHECK,
    TIBRV_FIELD,
    QFORM_CHECK,
    QFORM_FIELD,
    FRACTIONS,
    DECIMALS,
    START,
    PUT_UINT,
    PUT_INT,
    PUT_OCTETS,
    OPEN,
    CLOSE,
    FINISH,
    RUN,
    ENTRIES
};

/* Those of the writer have their own functions, below. */
static const unsigned result_counts[START] = {3, 1, 5, 5, 2, 1, 2, 9, 2, 5, 2, 4, 1, 1};

enum placement { EXACT, BEFORE_A_PAGE, AFTER_A_PAGE, PLACEMENTS };

#define MOST_RESULTS 9
#define GARBAGE 0x5a5a1234beefbeefu

struct input {
    enum entry entry;
    uint64_t revision, number, first, second;
    const uint8_t *table, *message;
    size_t table_len, message_len, room;
};

struct answer {
    uint64_t refusal, place, results[MOST_RESULTS];
};

#define HOLDS(condition)                                                      \
    do {                                                                      \
        if (!(condition)) {                                                   \
            fprintf(stderr, "%s:%d: not so: %s\n", __FILE__, __LINE__, #condition); \
            abort();                                                          \
        }                                                                     \
    } while (0)

/* What libFuzzer takes as newly reached, since the archive itself may be built without its counters. */
#define REFUSALS (CRUDVIM_REPEATED + 1)
#define PLACES 64
#define SIZES 65
#if defined(__linux__) && !defined(STANDALONE)
__attribute__((section("__libfuzzer_extra_counters")))
#endif
static volatile uint8_t reached[ENTRIES * REFUSALS * PLACES + ENTRIES * MOST_RESULTS * SIZES];

static unsigned bits_in(uint64_t number)
{
    return number == 0 ? 0 : 64 - (unsigned)__builtin_clzll(number);
}

static void note(const struct input *in, const struct answer *answer)
{
    size_t place = answer->place < PLACES ? answer->place : PLACES - 1;
    reached[(in->entry * REFUSALS + answer->refusal) * PLACES + place] = 1;
    for (unsigned i = 0; i < result_counts[in->entry]; i++) {
        size_t kind = (in->entry * MOST_RESULTS + i) * SIZES + bits_in(answer->results[i]);
        reached[ENTRIES * REFUSALS * PLACES + kind] = 1;
    }
}

/* Buffers that a call is lent. */

#define PAGE 4096u
#define AREA (64u * PAGE)
#define AREAS 4u

struct lent {
    uint8_t *octets;
    void *allocated;
};

/* The area with this number: AREA octets between two pages that cannot be touched. */
static uint8_t *area(unsigned number)
{
    static uint8_t *areas[AREAS];
    if (areas[number] == NULL) {
        uint8_t *all = mmap(NULL, AREA + 2 * PAGE, PROT_NONE, MAP_PRIVATE | MAP_ANONYMOUS, -1, 0);
        HOLDS(all != MAP_FAILED);
        HOLDS(mprotect(all + PAGE, AREA, PROT_READ | PROT_WRITE) == 0);
        areas[number] = all + PAGE;
    }
    return areas[number];
}

static struct lent lend(unsigned number, enum placement placement, size_t length)
{
    struct lent lent = {NULL, NULL};
    if (placement == BEFORE_A_PAGE && length <= AREA) {
        lent.octets = area(number) + (AREA - length);
    } else if (placement == AFTER_A_PAGE && length <= AREA) {
        lent.octets = area(number);
    } else if (length > 0) {
        lent.allocated = malloc(length);
        HOLDS(lent.allocated != NULL);
        lent.octets = lent.allocated;
    }
    return lent;
}

static struct lent lend_copy(unsigned number, enum placement placement, const uint8_t *octets, size_t length)
{
    struct lent lent = lend(number, placement, length);
    if (length > 0)
        memcpy(lent.octets, octets, length);
    return lent;
}

static uint8_t poison(size_t place)
{
    return (uint8_t)(place * 7 + 13);
}

static int is_poison(const uint8_t *octets, size_t from, size_t to)
{
    for (size_t i = from; i < to; i++)
        if (octets[i] != poison(i))
            return 0;
    return 1;
}

static int same(const uint8_t *one, const uint8_t *other, size_t length)
{
    return length == 0 || memcmp(one, other, length) == 0;
}

/* The real that stands in the first eight octets of a message. */
static uint64_t real_bits(const uint8_t *message, size_t message_len)
{
    uint64_t bits = 0;
    for (size_t i = 0; i < 8; i++)
        bits = bits << 8 | (i < message_len ? message[i] : 0);
    return bits;
}

/* The call of the input's entry, on the given octets. */
static uint64_t call(const struct input *in, const uint8_t *t, const uint8_t *m, uint8_t *out, uint64_t *p, uint64_t *r)
{
    size_t tl = in->table_len, ml = in->message_len;
    uint64_t rev = in->revision, n = in->number;
    switch (in->entry) {
    case CHECK: return crudvim_check(t, tl, rev, n, m, ml, p, r, r + 1, r + 2);
    case SHORTEN: return crudvim_shorten(t, tl, rev, n, m, ml, out, in->room, p, r);
    case LOOKUP:
        return crudvim_lookup(t, tl, rev, n, m, ml, in->first, in->second, p, r, r + 1, (int64_t *)(r + 2), r + 3, r + 4);
    case LOOKUP_LAST:
        return crudvim_lookup_last(t, tl, rev, n, m, ml, in->first, p, r, r + 1, (int64_t *)(r + 2), r + 3, r + 4);
    case FRAME_READ: return crudvim_frame_read(m, ml, p, r, r + 1);
    case FRAME_WRITE: return crudvim_frame_write(m, ml, out, in->room, p, r);
    case TIBMSG_CHECK: return crudvim_tibmsg_check(m, ml, p, r, r + 1);
    case TIBMSG_FIELD:
        return crudvim_tibmsg_field(m, ml, in->first, p, r, r + 1, r + 2, r + 3, r + 4, r + 5, r + 6, r + 7, r + 8);
    case TIBRV_CHECK: return crudvim_tibrv_check(m, ml, p, r, r + 1);
    case TIBRV_FIELD: return crudvim_tibrv_field(m, ml, in->first, p, r, r + 1, r + 2, r + 3, r + 4);
    case QFORM_CHECK: return crudvim_qform_check(t, tl, m, ml, p, r, r + 1);
    case QFORM_FIELD: return crudvim_qform_field(t, tl, m, ml, in->first, p, r, r + 1, r + 2, r + 3);
    case FRACTIONS: return crudvim_fractions(real_bits(m, ml), in->first, in->second, p, (int64_t *)r);
    case DECIMALS: return crudvim_decimals(real_bits(m, ml), in->first, in->second, p, (int64_t *)r);
    default: abort();
    }
}

/* What holds of every call: a refusal leaves the buffer and zeros the results, an acceptance zeros the place, and neither touches
 * the inputs or stores behind the results. */
static void check_answer(const struct input *in, const struct answer *answer, const uint8_t *out)
{
    unsigned count = result_counts[in->entry];
    HOLDS(answer->refusal <= CRUDVIM_REPEATED);
    for (unsigned i = count; i < MOST_RESULTS; i++)
        HOLDS(answer->results[i] == GARBAGE);
    if (answer->refusal == CRUDVIM_ACCEPTED) {
        HOLDS(answer->place == 0);
        return;
    }
    HOLDS(is_poison(out, 0, in->room));
    for (unsigned i = 0; i < count; i++)
        HOLDS(answer->results[i] == 0);
    HOLDS(answer->place <= in->message_len || answer->refusal == CRUDVIM_TABLE);
    HOLDS(answer->refusal != CRUDVIM_REPEATED || in->revision == 2);
    HOLDS(answer->refusal != CRUDVIM_NOT_IN_DICTIONARY || in->entry == QFORM_CHECK || in->entry == QFORM_FIELD);
}

/* Makes the call with buffers placed so, and puts what was written into `written` (of in->room octets). */
static struct answer ask_placed(const struct input *in, enum placement placement, uint8_t *written)
{
    struct lent table = lend_copy(0, placement, in->table, in->table_len);
    struct lent message = lend_copy(1, placement, in->message, in->message_len);
    struct lent out = lend(2, placement, in->room);
    struct answer answer = {0, GARBAGE, {0}};
    for (unsigned i = 0; i < MOST_RESULTS; i++)
        answer.results[i] = GARBAGE;
    for (size_t i = 0; i < in->room; i++)
        out.octets[i] = poison(i);
    answer.refusal = call(in, table.octets, message.octets, out.octets, &answer.place, answer.results);
    HOLDS(same(table.octets, in->table, in->table_len));
    HOLDS(same(message.octets, in->message, in->message_len));
    check_answer(in, &answer, out.octets);
    if (written != NULL && in->room > 0)
        memcpy(written, out.octets, in->room);
    free(table.allocated);
    free(message.allocated);
    free(out.allocated);
    return answer;
}

/* Another call on the way, with exact buffers. */
static struct answer ask(const struct input *in, uint8_t *written)
{
    return ask_placed(in, EXACT, written);
}

static int same_answer(const struct answer *one, const struct answer *other, unsigned results)
{
    return one->refusal == other->refusal && one->place == other->place
        && memcmp(one->results, other->results, results * sizeof(uint64_t)) == 0;
}

/* The plain implementation gives the same answer to a check. Only this finds a message that is wrongly called short: the library's
 * shortener copies it. */
static void compare_with_plain(const struct input *in, const struct answer *answer)
{
    uint64_t place, fields, depth, shortest;
    uint64_t refusal = plain_check(in->table, in->table_len, in->revision, in->number, in->message, in->message_len, &place, &fields,
                                   &depth, &shortest);
    HOLDS(answer->refusal == refusal && answer->place == place);
    HOLDS(answer->results[0] == fields && answer->results[1] == depth);
    HOLDS(answer->results[2] == shortest);
}

/* The plain implementation gives the same answer for QForm: to the check, and for the field that is asked for. */
static void compare_qform_with_plain(const struct input *in, const struct answer *answer)
{
    struct answer plain = {0, 0, {0}};
    uint64_t *r = plain.results;
    if (in->entry == QFORM_CHECK)
        plain.refusal = plain_qform_check(in->table, in->table_len, in->message, in->message_len, &plain.place, r, r + 1);
    else
        plain.refusal = plain_qform_field(in->table, in->table_len, in->message, in->message_len, in->first, &plain.place, r, r + 1,
                                          r + 2, r + 3);
    HOLDS(same_answer(answer, &plain, result_counts[in->entry]));
}

/* The plain implementation gives the same answer in decimals. */
static void compare_decimals_with_plain(const struct input *in, const struct answer *answer)
{
    uint64_t place;
    int64_t whole;
    uint64_t refusal = plain_decimals(real_bits(in->message, in->message_len), in->first, in->second, &place, &whole);
    HOLDS(answer->refusal == refusal && answer->place == place);
    HOLDS((int64_t)answer->results[0] == whole);
}

/* Under revision 1 the marks have no effect: the check gives the same answer, or one that refuses no earlier place where revision 2
 * refuses a repeat. */
static void compare_revisions(const struct input *in, const struct answer *answer)
{
    struct input other = *in;
    if (in->revision != 2)
        return;
    other.revision = 1;
    struct answer one = ask(&other, NULL);
    compare_with_plain(&other, &one);
    if (answer->refusal == CRUDVIM_REPEATED)
        HOLDS(one.refusal == CRUDVIM_ACCEPTED || one.place >= answer->place);
    else
        HOLDS(same_answer(&one, answer, 3));
}

/* What holds of the accepted calls of each entry. */

/* The check of a message and of its shortest form, of `length` octets: the counts are the same, the shortest form is short, and the
 * message is short exactly where it is its own shortest form. The plain implementation agrees on both. */
static void compare_checks(const struct input *in, const uint8_t *shortest, size_t length)
{
    struct input message = *in, shortened = *in;
    message.entry = shortened.entry = CHECK;
    message.room = shortened.room = 0;
    shortened.message = shortest;
    shortened.message_len = length;
    struct answer counts = ask(&message, NULL), short_counts = ask(&shortened, NULL);
    int unchanged = length == in->message_len && same(shortest, in->message, length);
    HOLDS(counts.refusal == CRUDVIM_ACCEPTED && same_answer(&counts, &short_counts, 2));
    HOLDS(counts.results[2] == (unchanged ? 1 : 0));
    HOLDS(short_counts.results[2] == 1);
    compare_with_plain(&message, &counts);
    compare_with_plain(&shortened, &short_counts);
}

static void after_check(const struct input *in, const struct answer *answer)
{
    HOLDS(answer->results[0] <= in->message_len);
    HOLDS(answer->results[1] >= 1 && answer->results[1] <= 8);
    HOLDS(answer->results[2] <= 1);
    struct input shorten = *in;
    shorten.entry = SHORTEN;
    shorten.room = in->message_len;
    uint8_t *written = malloc(in->message_len + 1);
    HOLDS(written != NULL);
    struct answer short_answer = ask(&shorten, written);
    HOLDS(short_answer.refusal == CRUDVIM_ACCEPTED);
    HOLDS(short_answer.results[0] <= in->message_len);
    compare_checks(in, written, short_answer.results[0]);
    free(written);
}

/* The tag of the first word means the same in the message and in the shortened one. */
static void compare_lookups(const struct input *in, const struct input *shortened)
{
    struct input one = *in, other = *shortened;
    one.entry = other.entry = LOOKUP_LAST;
    one.room = other.room = 0;
    struct answer first = ask(&one, NULL), second = ask(&other, NULL);
    HOLDS(same_answer(&first, &second, 3));
}

static void after_shorten(const struct input *in, const struct answer *answer, const uint8_t *written)
{
    size_t length = answer->results[0];
    HOLDS(length <= in->message_len && length <= in->room);
    HOLDS(is_poison(written, length, in->room));
    compare_checks(in, written, length);
    struct input shortened = *in;
    shortened.message = written;
    shortened.message_len = length;
    compare_lookups(in, &shortened);
    shortened.entry = SHORTEN;
    shortened.room = length;
    uint8_t *again = malloc(length + 1);
    HOLDS(again != NULL);
    struct answer twice = ask(&shortened, again);
    HOLDS(twice.refusal == CRUDVIM_ACCEPTED && twice.results[0] == length && same(again, written, length));
    free(again);
    if (length > 0) {
        shortened.room = length - 1;
        HOLDS(ask(&shortened, NULL).refusal == CRUDVIM_NO_ROOM);
    }
}

static void after_lookup(const struct input *in, const struct answer *answer)
{
    uint64_t kind = answer->results[0], start = answer->results[3], length = answer->results[4];
    HOLDS(kind <= 5);
    HOLDS(start <= in->message_len && length <= in->message_len - start);
    HOLDS(kind == 1 || answer->results[1] == 0);
    HOLDS(kind == 2 || answer->results[2] == 0);
    HOLDS((kind != 1 && kind != 2) || length <= 8);
    if (in->entry == LOOKUP_LAST)
        return;
    struct input next = *in, last = *in;
    next.second++;
    last.entry = LOOKUP_LAST;
    struct answer last_answer = ask(&last, NULL);
    HOLDS(last_answer.refusal == CRUDVIM_ACCEPTED);
    if (ask(&next, NULL).refusal == CRUDVIM_ABSENT)
        HOLDS(same_answer(answer, &last_answer, 5));
}

static void after_frame_read(const struct input *in, const struct answer *answer)
{
    uint64_t start = answer->results[0], end = answer->results[1];
    HOLDS(start >= 1 && start <= end && end <= in->message_len && end - start <= 65536);
    struct input write = *in;
    write.entry = FRAME_WRITE;
    write.message = in->message + start;
    write.message_len = end - start;
    write.room = end;
    struct answer written = ask(&write, NULL);
    HOLDS(written.refusal == CRUDVIM_ACCEPTED && written.results[0] <= end);
}

static void after_frame_write(const struct input *in, const struct answer *answer, const uint8_t *written)
{
    size_t length = answer->results[0];
    HOLDS(length > in->message_len && length <= in->message_len + 5 && length <= in->room);
    HOLDS(is_poison(written, length, in->room));
    struct input read = *in;
    read.entry = FRAME_READ;
    read.message = written;
    read.message_len = length;
    read.room = 0;
    struct answer back = ask(&read, NULL);
    HOLDS(back.refusal == CRUDVIM_ACCEPTED && back.results[1] == length);
    HOLDS(back.results[0] == length - in->message_len);
    HOLDS(same(written + back.results[0], in->message, in->message_len));
}

static void after_tib_check(const struct input *in, const struct answer *answer)
{
    HOLDS(answer->results[0] <= in->message_len);
    HOLDS(answer->results[1] >= 1 && answer->results[1] <= (in->entry == TIBRV_CHECK ? 8 : 1));
    if (answer->results[1] == 1) {
        struct input field = *in;
        field.entry = in->entry == TIBRV_CHECK ? TIBRV_FIELD : TIBMSG_FIELD;
        field.first = answer->results[0];
        HOLDS(ask(&field, NULL).refusal == CRUDVIM_ABSENT);
    }
}

static void after_tib_field(const struct input *in, const struct answer *answer)
{
    const uint64_t *r = answer->results;
    HOLDS(r[0] <= in->message_len && r[1] <= 255 && r[1] <= in->message_len - r[0]);
    HOLDS(r[1] == 0 || in->message[r[0] + r[1] - 1] == 0);
    HOLDS(r[3] <= in->message_len && r[4] <= in->message_len - r[3]);
    HOLDS(r[0] + r[1] < r[3]);
    if (in->entry == TIBMSG_FIELD) {
        HOLDS(r[2] <= 10 && r[5] <= 1);
        HOLDS(r[5] == 1 || (r[6] == 0 && r[7] == 0));
        HOLDS(r[2] == 7 || r[8] == 0);
    } else if (r[2] == 1) {
        struct input inner = *in;
        inner.entry = TIBRV_CHECK;
        inner.message = in->message + r[3];
        inner.message_len = r[4];
        HOLDS(ask(&inner, NULL).refusal == CRUDVIM_ACCEPTED);
    }
}

/* Every field of an accepted message can be asked for, and none after the last. Each begins where the one before it ends, and the last ends
 * the message. */
static void after_qform_check(const struct input *in, const struct answer *answer)
{
    struct input field = *in;
    uint64_t end = 8;
    HOLDS(answer->results[0] <= in->message_len / 2 && answer->results[1] == 1);
    field.entry = QFORM_FIELD;
    /* A message of many fields takes too long. */
    for (field.first = 0; field.first < answer->results[0] && field.first < 64; field.first++) {
        struct answer found = ask(&field, NULL);
        HOLDS(found.refusal == CRUDVIM_ACCEPTED && found.results[2] == end + 2);
        compare_qform_with_plain(&field, &found);
        end = found.results[2] + found.results[3] + found.results[3] % 2;
    }
    HOLDS(field.first < answer->results[0] || end == in->message_len);
    field.first = answer->results[0];
    HOLDS(ask(&field, NULL).refusal == CRUDVIM_ABSENT);
}

/* The fid and its flags stand in the two octets before the data, and the type is one that a dictionary can have. */
static void after_qform_field(const struct input *in, const struct answer *answer)
{
    const uint64_t *r = answer->results;
    HOLDS(r[0] <= 16383 && r[1] <= 21);
    HOLDS(r[2] >= 10 && r[2] <= in->message_len && r[3] + r[3] % 2 <= in->message_len - r[2]);
    HOLDS(((uint64_t)in->message[r[2] - 2] << 8 | in->message[r[2] - 1]) == (0xc000 | r[0]));
    HOLDS(r[1] != 15 || r[3] == 9);
}

static void after_fractions(const struct input *in, const struct answer *answer)
{
    int64_t whole = (int64_t)answer->results[0];
    HOLDS(whole > -((int64_t)1 << 53) && whole < (int64_t)1 << 53);
    uint64_t bits = real_bits(in->message, in->message_len);
    double real;
    memcpy(&real, &bits, sizeof real);
    HOLDS(in->second >= 1 && in->second <= 8);
    HOLDS((double)whole / (double)(1u << in->second) == real);
}

/* The answer has the sign of the real or is 0, and the real with the other sign has the opposite answer. No answer is -2^63. */
static void after_decimals(const struct input *in, const struct answer *answer)
{
    int64_t whole = (int64_t)answer->results[0];
    uint64_t bits = real_bits(in->message, in->message_len);
    uint8_t opposite[8];
    struct input other = *in;
    HOLDS(in->second >= 17 && in->second <= 25);
    HOLDS(whole != INT64_MIN);
    HOLDS(bits >> 63 == 1 ? whole <= 0 : whole >= 0);
    for (size_t i = 0; i < 8; i++)
        opposite[i] = (uint8_t)((bits ^ (uint64_t)1 << 63) >> (8 * (7 - i)));
    other.message = opposite;
    other.message_len = 8;
    struct answer opposite_answer = ask(&other, NULL);
    HOLDS(opposite_answer.refusal == CRUDVIM_ACCEPTED && (int64_t)opposite_answer.results[0] == -whole);
}

static void after(const struct input *in, const struct answer *answer, const uint8_t *written)
{
    switch (in->entry) {
    case CHECK: after_check(in, answer); break;
    case SHORTEN: after_shorten(in, answer, written); break;
    case LOOKUP:
    case LOOKUP_LAST: after_lookup(in, answer); break;
    case FRAME_READ: after_frame_read(in, answer); break;
    case FRAME_WRITE: after_frame_write(in, answer, written); break;
    case TIBMSG_CHECK:
    case TIBRV_CHECK: after_tib_check(in, answer); break;
    case TIBMSG_FIELD:
    case TIBRV_FIELD: after_tib_field(in, answer); break;
    case QFORM_CHECK: after_qform_check(in, answer); break;
    case QFORM_FIELD: after_qform_field(in, answer); break;
    case FRACTIONS: after_fractions(in, answer); break;
    case DECIMALS: after_decimals(in, answer); break;
    default: abort();
    }
}

/* The writer. */

#define MOST_WORDS 255
/* A long buffer takes time in each step, so a run on it has fewer of them. */
#define LONG_BUFFER 4096
#define MOST_STEPS 400
#define MOST_LONG_STEPS 24

struct step {
    enum entry entry;
    uint64_t revision, number, tag, value;
    const uint8_t *octets;
    size_t octets_len;
};

struct writer {
    uint64_t (*start)(const uint8_t *, size_t, uint64_t, uint64_t, const uint8_t *, size_t, uint64_t *, size_t, uint64_t *);
    uint64_t (*put_uint)(const uint8_t *, size_t, uint64_t *, size_t, uint64_t, uint64_t, uint8_t *, size_t, uint64_t *);
    uint64_t (*put_int)(const uint8_t *, size_t, uint64_t *, size_t, uint64_t, int64_t, uint8_t *, size_t, uint64_t *);
    uint64_t (*put_octets)(const uint8_t *, size_t, uint64_t *, size_t, uint64_t, const uint8_t *, size_t, uint8_t *, size_t,
                           uint64_t *);
    uint64_t (*open)(const uint8_t *, size_t, uint64_t *, size_t, uint64_t, uint64_t *);
    uint64_t (*close)(const uint8_t *, size_t, uint64_t *, size_t, uint8_t *, size_t, uint64_t *);
    uint64_t (*finish)(const uint64_t *, size_t, uint64_t *, uint64_t *);
};

static const struct writer library_writer = {crudvim_start,      crudvim_put_uint, crudvim_put_int, crudvim_put_octets,
                                             crudvim_open,       crudvim_close,    crudvim_finish};
static const struct writer plain_writer = {plain_start, plain_put_uint, plain_put_int, plain_put_octets,
                                           plain_open,  plain_close,    plain_finish};

/* What a writer works on. */
struct desk {
    const uint8_t *table;
    uint64_t *state;
    uint8_t *buffer;
    size_t table_len, words, room;
};

static uint64_t make_step(const struct writer *writer, const struct step *step, const struct desk *desk, const uint8_t *octets,
                          uint64_t *place, uint64_t *start)
{
    const uint8_t *t = desk->table;
    uint64_t *s = desk->state;
    uint8_t *b = desk->buffer;
    size_t tl = desk->table_len, sl = desk->words, bl = desk->room;
    switch (step->entry) {
    case START: return writer->start(t, tl, step->revision, step->number, b, bl, s, sl, place);
    case PUT_UINT: return writer->put_uint(t, tl, s, sl, step->tag, step->value, b, bl, place);
    case PUT_INT: return writer->put_int(t, tl, s, sl, step->tag, (int64_t)step->value, b, bl, place);
    case PUT_OCTETS: return writer->put_octets(t, tl, s, sl, step->tag, octets, step->octets_len, b, bl, place);
    case OPEN: return writer->open(t, tl, s, sl, step->tag, place);
    case CLOSE: return writer->close(t, tl, s, sl, b, bl, place);
    case FINISH: return writer->finish(s, sl, place, start);
    default: abort();
    }
}

static int same_words(const uint64_t *one, const uint64_t *other, size_t count)
{
    return count == 0 || memcmp(one, other, count * sizeof *one) == 0;
}

/* A refused call leaves the state and the buffer, but for a start, which leaves zeros in the state. An accepted one stores octets only
 * from the new start to the old one. */
static void check_step(const struct step *step, uint64_t refusal, const struct desk *before, const struct desk *after)
{
    static const uint64_t zeros[MOST_WORDS];
    if (refusal != CRUDVIM_ACCEPTED)
        HOLDS(same_words(after->state, step->entry == START ? zeros : before->state, after->words));
    if (refusal != CRUDVIM_ACCEPTED || step->entry == START) {
        HOLDS(same(after->buffer, before->buffer, after->room));
        return;
    }
    size_t from = after->state[CRUDVIM_STATE_START], to = before->state[CRUDVIM_STATE_START];
    HOLDS(from <= to);
    if (from == to)
        HOLDS(same(after->buffer, before->buffer, after->room));
    HOLDS(from == to || (to <= after->room && same(after->buffer, before->buffer, from)));
    HOLDS(from == to || same(after->buffer + to, before->buffer + to, after->room - to));
}

static void note_step(const struct step *step, uint64_t refusal, uint64_t place, const struct desk *after)
{
    uint64_t kind = place;
    if (place == 0 && refusal != CRUDVIM_STATE && after->words > CRUDVIM_STATE_OPENED)
        kind = after->state[CRUDVIM_STATE_OPENED] * 8 + bits_in(after->state[CRUDVIM_STATE_START]) / 3;
    reached[(step->entry * REFUSALS + refusal) * PLACES + (kind < PLACES ? kind : PLACES - 1)] = 1;
}

/* Makes a step by the library and by the plain implementation, each on a desk of its own, and compares all that they leave. Answers
 * whether it is accepted, and sets where a message starts that it finishes. */
static int take_step(const struct step *step, enum placement placement, const struct desk *desk, const struct desk *plain,
                     uint64_t *start)
{
    static uint64_t state[MOST_WORDS];
    struct desk before = *desk;
    struct lent octets = lend_copy(1, placement, step->octets, step->octets_len);
    uint64_t place = GARBAGE, plain_place = GARBAGE, plain_start = GARBAGE;
    before.state = state;
    before.buffer = malloc(desk->room + 1);
    HOLDS(before.buffer != NULL);
    if (desk->words > 0)
        memcpy(before.state, desk->state, desk->words * sizeof *state);
    if (desk->room > 0)
        memcpy(before.buffer, desk->buffer, desk->room);
    *start = GARBAGE;
    uint64_t refusal = make_step(&library_writer, step, desk, octets.octets, &place, start);
    HOLDS(same(octets.octets, step->octets, step->octets_len));
    HOLDS(refusal == make_step(&plain_writer, step, plain, step->octets, &plain_place, &plain_start));
    HOLDS(place == plain_place && *start == plain_start);
    HOLDS(place == 0 || refusal == CRUDVIM_TABLE);
    HOLDS(same(desk->table, plain->table, desk->table_len));
    HOLDS(same_words(desk->state, plain->state, desk->words));
    HOLDS(same(desk->buffer, plain->buffer, desk->room));
    check_step(step, refusal, &before, desk);
    note_step(step, refusal, place, desk);
    free(before.buffer);
    free(octets.allocated);
    return refusal == CRUDVIM_ACCEPTED;
}

/* The message that a run finished is accepted and short, and the plain implementation agrees. */
static void check_finished(const struct input *in, const struct desk *desk, uint64_t start)
{
    struct input check = *in;
    HOLDS(start <= desk->room);
    check.entry = CHECK;
    check.message = desk->buffer + start;
    check.message_len = desk->room - start;
    check.room = 0;
    struct answer answer = ask(&check, NULL);
    HOLDS(answer.refusal == CRUDVIM_ACCEPTED && answer.results[2] == 1);
    compare_with_plain(&check, &answer);
}

/* The desks of a run or of a call: the library's has its memory placed so. */
struct desks {
    struct lent table, state, buffer;
    struct desk library, plain;
};

static struct desks lend_desks(const struct input *in, enum placement placement, const uint64_t *state, size_t words)
{
    struct desks desks;
    desks.table = lend_copy(0, placement, in->table, in->table_len);
    desks.buffer = lend(2, placement, in->room);
    desks.state = lend_copy(3, placement, (const uint8_t *)state, words * sizeof *state);
    desks.library = (struct desk){desks.table.octets, (uint64_t *)(void *)desks.state.octets, desks.buffer.octets, in->table_len, words,
                                  in->room};
    desks.plain = desks.library;
    desks.plain.table = in->table;
    desks.plain.state = malloc((words + 1) * sizeof *state);
    desks.plain.buffer = malloc(in->room + 1);
    HOLDS(desks.plain.state != NULL && desks.plain.buffer != NULL);
    if (words > 0)
        memcpy(desks.plain.state, state, words * sizeof *state);
    for (size_t i = 0; i < in->room; i++)
        desks.plain.buffer[i] = desks.library.buffer[i] = poison(i);
    return desks;
}

static void free_desks(struct desks *desks)
{
    free(desks->table.allocated);
    free(desks->state.allocated);
    free(desks->buffer.allocated);
    free(desks->plain.state);
    free(desks->plain.buffer);
}

/* Taking an input apart. */

struct rest {
    const uint8_t *octets;
    size_t length;
};

static uint64_t take_octet(struct rest *rest)
{
    if (rest->length == 0)
        return 0;
    rest->length--;
    return *rest->octets++;
}

static uint64_t take_word(struct rest *rest)
{
    uint64_t high = take_octet(rest);
    return high << 8 | take_octet(rest);
}

/* A word from 8000 on stands for a very large number. */
static uint64_t widened(uint64_t word)
{
    return word < 0x8000 ? word : word | ~(uint64_t)0xffff;
}

static uint64_t take_number(struct rest *rest)
{
    uint64_t number = 0;
    for (int i = 0; i < 8; i++)
        number = number << 8 | take_octet(rest);
    return number;
}

/* So many octets, or those that are left. */
static size_t take_octets(struct rest *rest, size_t length, const uint8_t **octets)
{
    if (length > rest->length)
        length = rest->length;
    *octets = rest->octets;
    rest->octets += length;
    rest->length -= length;
    return length;
}

/* The next step of a run. */
static struct step next_step(struct rest *rest)
{
    struct step step = {.entry = (enum entry)(PUT_UINT + take_octet(rest) % 6)};
    if (step.entry <= OPEN)
        step.tag = take_word(rest);
    if (step.entry == PUT_UINT || step.entry == PUT_INT)
        step.value = take_number(rest);
    if (step.entry == PUT_OCTETS)
        step.octets_len = take_octets(rest, take_word(rest), &step.octets);
    return step;
}

/* The words of a state, and behind them what a call takes beside it. */
static struct step take_call(const struct input *in, uint64_t *state, size_t *words)
{
    struct rest rest = {in->message, in->message_len};
    struct step step = {.entry = in->entry, .revision = in->revision, .number = in->number};
    *words = take_octet(&rest);
    for (size_t i = 0; i < *words; i++)
        state[i] = take_number(&rest);
    if (step.entry >= PUT_UINT && step.entry <= OPEN)
        step.tag = take_number(&rest);
    if (step.entry == PUT_UINT || step.entry == PUT_INT)
        step.value = take_number(&rest);
    if (step.entry == PUT_OCTETS)
        step.octets_len = take_octets(&rest, rest.length, &step.octets);
    return step;
}

/* The length of the writer's buffer, where the state has these words. */
static size_t buffer_length(uint64_t word, const uint64_t *state, size_t words)
{
    uint64_t length = words > 0 && state[0] <= 65536 ? state[0] : 0;
    word &= 0xffff;
    return word < 0xff00 ? word : word < 0xff80 ? length + (word - 0xff00) : 65472 + (word - 0xff80);
}

/* One call of the writer on any state. */
static void call_writer(const struct input *in)
{
    static uint64_t state[MOST_WORDS];
    size_t words;
    struct step step = take_call(in, state, &words);
    struct input lent = *in;
    lent.room = buffer_length(in->second, state, words);
    for (enum placement placement = EXACT; placement < PLACEMENTS; placement++) {
        struct desks desks = lend_desks(&lent, placement, state, words);
        uint64_t start;
        take_step(&step, placement, &desks.library, &desks.plain, &start);
        free_desks(&desks);
    }
}

static void run_step(const struct input *in, const struct step *step, enum placement placement, const struct desks *desks)
{
    uint64_t start;
    int accepted = take_step(step, placement, &desks->library, &desks->plain, &start);
    if (accepted && step->entry == FINISH)
        check_finished(in, &desks->library, start);
}

/* A run from start to finish. */
static void run_writer(const struct input *in)
{
    static const uint64_t garbage[CRUDVIM_STATE_WORDS] = {GARBAGE, GARBAGE, 3};
    const struct step first = {.entry = START, .revision = in->revision, .number = in->number}, last = {.entry = FINISH};
    struct input lent = *in;
    lent.room = buffer_length(in->second, NULL, 0);
    size_t most = lent.room > LONG_BUFFER ? MOST_LONG_STEPS : MOST_STEPS;
    for (enum placement placement = EXACT; placement < PLACEMENTS; placement++) {
        struct desks desks = lend_desks(&lent, placement, garbage, CRUDVIM_STATE_WORDS);
        struct rest rest = {in->message, in->message_len};
        run_step(in, &first, placement, &desks);
        for (size_t i = 0; i < most && rest.length > 0; i++) {
            struct step step = next_step(&rest);
            run_step(in, &step, placement, &desks);
        }
        run_step(in, &last, placement, &desks);
        free_desks(&desks);
    }
}

static struct input take_apart(const uint8_t *octets, size_t length)
{
    struct rest rest = {octets, length};
    struct input in = {0};
    in.entry = (enum entry)(take_octet(&rest) % ENTRIES);
    in.revision = widened(take_word(&rest));
    in.number = widened(take_word(&rest));
    uint64_t first = take_word(&rest), second = take_word(&rest);
    in.first = in.entry == LOOKUP || in.entry == LOOKUP_LAST ? first : widened(first);
    in.second = widened(second);
    in.table_len = take_word(&rest);
    if (in.table_len > rest.length)
        in.table_len = rest.length;
    in.table = rest.octets;
    in.message = rest.octets + in.table_len;
    in.message_len = rest.length - in.table_len;
    if (in.entry == SHORTEN || in.entry == FRAME_WRITE)
        in.room = second >= 0xff00 ? in.message_len + (second - 0xff00) : second;
    return in;
}

int LLVMFuzzerTestOneInput(const uint8_t *octets, size_t length);

int LLVMFuzzerTestOneInput(const uint8_t *octets, size_t length)
{
    static const uint8_t none[1];
    struct input in = take_apart(length == 0 ? none : octets, length);
    if (in.entry >= START) {
        if (in.entry == RUN)
            run_writer(&in);
        else
            call_writer(&in);
        return 0;
    }
    uint8_t *written = malloc(in.room + 1), *again = malloc(in.room + 1);
    HOLDS(written != NULL && again != NULL);
    struct answer answer = ask_placed(&in, EXACT, written);
    for (enum placement placement = BEFORE_A_PAGE; placement < PLACEMENTS; placement++) {
        struct answer other = ask_placed(&in, placement, again);
        HOLDS(same_answer(&answer, &other, result_counts[in.entry]));
        HOLDS(same(written, again, in.room));
    }
    note(&in, &answer);
    if (in.entry == CHECK) {
        compare_with_plain(&in, &answer);
        compare_revisions(&in, &answer);
    }
    if (in.entry == QFORM_CHECK || in.entry == QFORM_FIELD)
        compare_qform_with_plain(&in, &answer);
    if (in.entry == DECIMALS)
        compare_decimals_with_plain(&in, &answer);
    if (answer.refusal == CRUDVIM_ACCEPTED)
        after(&in, &answer, written);
    free(written);
    free(again);
    return 0;
}

#ifdef STANDALONE
static void run_file(FILE *file)
{
    size_t length = 0, room = 1 << 16;
    uint8_t *octets = malloc(room);
    HOLDS(octets != NULL);
    for (size_t got; (got = fread(octets + length, 1, room - length, file)) > 0;) {
        length += got;
        if (length == room) {
            room *= 2;
            octets = realloc(octets, room);
            HOLDS(octets != NULL);
        }
    }
    LLVMFuzzerTestOneInput(octets, length);
    free(octets);
}

int main(int argc, char **argv)
{
    if (argc == 1)
        run_file(stdin);
    for (int i = 1; i < argc; i++) {
        FILE *file = fopen(argv[i], "rb");
        if (file == NULL) {
            perror(argv[i]);
            return 1;
        }
        run_file(file);
        fclose(file);
    }
    printf("%d inputs\n", argc == 1 ? 1 : argc - 1);
    return 0;
}
#endif
