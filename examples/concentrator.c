/* Reads frames from standard input, checks each message under a field table and revision 2 of the profile, and writes
 * its shortest form in a frame to standard output.
 *
 *     concentrator TABLE-FILE [MESSAGE-NUMBER] < frames > shortened-frames
 *     concentrator --help
 *
 * The message number is 0 to 15, in decimal digits. The default is 0.
 *
 * The program reads what is there, handles every whole frame, and writes the results before it waits for more. So it
 * passes on a frame as soon as the frame is whole. Standard input and standard output may be blocking or non-blocking.
 *
 * A message that is in its shortest form already is passed on from the input buffer. Any other accepted message is
 * shortened first. A message that is rejected is left out and reported on standard error, with the refusal number, the
 * offset of the fault and the meaning of the number.
 *
 * Frames have no mark that shows where one starts. After a rejected message the next frame starts where the prefix
 * says. Where a prefix announces more than a message may have, one octet is skipped, and the next octet is taken for a
 * prefix. A frame that the end of the input cuts is reported and dropped. docs/C-LIBRARY.md says which frames can be
 * lost behind damaged octets.
 *
 * Reports are limited to 32 at once and then one per second. A line says how many were left out, and the summary counts
 * all of them. The program writes the summary to standard error at the end and each time it gets SIGUSR1. Reports never
 * hold frames back: a line that standard error does not take at once is dropped.
 *
 * Exit status:
 *     0  the input ended
 *     1  standard output failed
 *     2  the program did not start: wrong arguments, or a table that cannot be read or is rejected
 *     3  standard input failed
 */
#define _POSIX_C_SOURCE 200809L

#include "crudvim.h"

#include <errno.h>
#include <fcntl.h>
#include <inttypes.h>
#include <limits.h>
#include <signal.h>
#include <stdarg.h>
#include <stdio.h>
#include <string.h>
#include <sys/select.h>
#include <sys/types.h>
#include <time.h>
#include <unistd.h>

enum { REVISION = 2, NUMBER_MOST = 15, TABLE_MOST = 64 * 9, MESSAGE_MOST = 65536, FRAME_MOST = 65545 };
enum { REFUSALS = CRUDVIM_REPEATED + 1, REPORTS_AT_ONCE = 32, LINE_MOST = 512 };
enum { INPUT_ENDED = 0, OUTPUT_FAILED = 1, NOT_STARTED = 2, INPUT_FAILED = 3 };
enum direction { FOR_READING, FOR_WRITING };

/* The buffer holds the longest frame, and is as large as crudvim_frame_read allows. */
struct input {
    uint8_t octets[FRAME_MOST];
    size_t start, end; /* the octets from start to end are not handled yet */
    uint64_t offset;   /* where octets[start] stands in the whole input */
};

/* No output frame is longer than its input frame, so the frames of a full input buffer fit. */
struct output {
    uint8_t octets[FRAME_MOST];
    size_t used;
};

/* One octet more than the largest table has: with it, a table that is too long is rejected. */
struct rules {
    uint8_t table[TABLE_MOST + 1];
    size_t length;
    uint64_t number;
};

struct counts {
    uint64_t frames, passed_on, already_short, refused, skipped, octets_in, octets_out;
    uint64_t refused_with[REFUSALS];
};

/* Each second adds one report that may be written, up to REPORTS_AT_ONCE. */
struct limit {
    uint64_t allowed;
    time_t second;     /* when `allowed` was last brought up to date */
    uint64_t left_out; /* reports left out since a line last said how many */
    int omitted;       /* whether any report was left out since the start */
};

struct concentrator {
    struct input in;
    struct output out;
    struct rules rules;
    struct counts counts;
    struct limit limit;
};

#define USAGE "usage: concentrator TABLE-FILE [MESSAGE-NUMBER] < frames > shortened-frames"

static const char help[] =
    USAGE "\n"
    "       concentrator --help\n"
    "\n"
    "Passes on the message of each frame in its shortest form. Rejected messages are left out and reported on\n"
    "standard error. MESSAGE-NUMBER is 0 to 15, in decimal digits; the default is 0.\n"
    "\n"
    "A summary is written to standard error at the end and on SIGUSR1:\n"
    "  frames         whole frames; each is passed on or refused\n"
    "  octets in      octets of these frames\n"
    "  octets out     octets written to standard output\n"
    "  skipped        octets in no whole frame\n"
    "  already short  messages passed on that were in their shortest form\n"
    "  held           octets at the start of a frame that is not whole yet; not written if there are none\n"
    "On SIGUSR1, and at the end if reports were left out, a line for each refusal number that occurred counts the\n"
    "messages.\n"
    "\n"
    "Exit status: 0 the input ended, 1 standard output failed, 2 the program did not start (wrong arguments, or a\n"
    "table that cannot be read or is rejected), 3 standard input failed.\n";

static volatile sig_atomic_t summary_wanted;

static void on_usr1(int number)
{
    (void)number;
    summary_wanted = 1;
}

/* There is no SA_RESTART, so that SIGUSR1 also interrupts a read or write. SIGPIPE is ignored, so that a write to a
 * closed pipe fails like other writes. */
static void set_signals(void)
{
    struct sigaction action;
    memset(&action, 0, sizeof action);
    sigemptyset(&action.sa_mask);
    action.sa_handler = on_usr1;
    sigaction(SIGUSR1, &action, NULL);
    action.sa_handler = SIG_IGN;
    sigaction(SIGPIPE, &action, NULL);
}

/* Waits until the descriptor is ready, but no longer than the timeout if there is one. Returns what pselect returns. */
static int wait_for(int fd, enum direction direction, const struct timespec *timeout, const sigset_t *mask)
{
    fd_set set;
    FD_ZERO(&set);
    FD_SET(fd, &set);
    if (direction == FOR_READING)
        return pselect(fd + 1, &set, NULL, NULL, timeout, mask);
    return pselect(fd + 1, NULL, &set, NULL, timeout, mask);
}

/* Writes a line to standard error if that is ready to take it. Returns whether the line was written. */
#ifdef __GNUC__
__attribute__((format(printf, 1, 2)))
#endif
static int say(const char *format, ...)
{
    static const struct timespec no_time = {0, 0};
    char line[LINE_MOST];
    va_list arguments;
    int length;
    va_start(arguments, format);
    length = vsnprintf(line, sizeof line, format, arguments);
    va_end(arguments);
    if (length < 0)
        return 0;
    if (length >= LINE_MOST)
        length = LINE_MOST - 1;
    line[length++] = '\n';
    return wait_for(STDERR_FILENO, FOR_WRITING, &no_time, NULL) > 0 &&
           write(STDERR_FILENO, line, (size_t)length) == length;
}

/* Reports the error of a system call, and returns the status. */
static int failed(const char *what, int status)
{
    say("%s: %s", what, strerror(errno));
    return status;
}

static time_t now(void)
{
    struct timespec time = {0, 0};
    clock_gettime(CLOCK_MONOTONIC, &time);
    return time.tv_sec;
}

static int may_report(struct limit *limit)
{
    time_t second = now();
    limit->allowed += (uint64_t)(second - limit->second);
    limit->second = second;
    if (limit->allowed > REPORTS_AT_ONCE)
        limit->allowed = REPORTS_AT_ONCE;
    if (limit->allowed == 0)
        return 0;
    limit->allowed--;
    return 1;
}

static void say_left_out(struct limit *limit)
{
    if (limit->left_out > 0 && say("%" PRIu64 " reports left out", limit->left_out))
        limit->left_out = 0;
}

static void report(struct concentrator *c, const char *what, uint64_t refusal, uint64_t place)
{
    int written = 0;
    if (may_report(&c->limit)) {
        say_left_out(&c->limit);
        written = say("%s at octet %" PRIu64 ": refused %" PRIu64 " at %" PRIu64 " (%s)", what, c->in.offset, refusal,
                      place, crudvim_refusal_text(refusal));
    }
    if (!written) {
        c->limit.left_out++;
        c->limit.omitted = 1;
    }
}

static void say_summary(struct concentrator *c, int on_signal)
{
    const struct counts *n = &c->counts;
    const uint64_t octets_held = c->in.end - c->in.start;
    char held[32] = "";
    unsigned refusal;
    say_left_out(&c->limit);
    if (octets_held > 0)
        snprintf(held, sizeof held, " held %" PRIu64, octets_held);
    say("frames %" PRIu64 " passed on %" PRIu64 " refused %" PRIu64 " octets in %" PRIu64 " out %" PRIu64
        " skipped %" PRIu64 " already short %" PRIu64 "%s",
        n->frames, n->passed_on, n->refused, n->octets_in, n->octets_out, n->skipped, n->already_short, held);
    if (!on_signal && !c->limit.omitted)
        return;
    for (refusal = 0; refusal < REFUSALS; refusal++)
        if (n->refused_with[refusal] > 0)
            say("messages refused with %u (%s): %" PRIu64, refusal, crudvim_refusal_text(refusal),
                n->refused_with[refusal]);
}

/* Waits until the descriptor is ready, and writes a summary each time SIGUSR1 arrives. SIGUSR1 is blocked between the
 * test of summary_wanted and the wait, and unblocked by pselect itself, so it cannot arrive unseen in between. If
 * pselect fails for any reason but a signal, the read or write that follows fails too and gives the reason. */
static void wait_until_ready(struct concentrator *c, int fd, enum direction direction)
{
    sigset_t usr1, usual;
    int ready;
    sigemptyset(&usr1);
    sigaddset(&usr1, SIGUSR1);
    sigprocmask(SIG_BLOCK, &usr1, &usual);
    do {
        if (summary_wanted) {
            summary_wanted = 0;
            say_summary(c, 1);
        }
        ready = wait_for(fd, direction, NULL, &usual);
    } while (ready < 0 && errno == EINTR);
    sigprocmask(SIG_SETMASK, &usual, NULL);
}

/* Says whether a read or write that failed may succeed later. */
static int is_temporary(int error)
{
    return error == EINTR || error == EAGAIN || error == EWOULDBLOCK;
}

/* Moves the octets that are not handled yet to the front of the buffer. */
static void make_room(struct input *in)
{
    if (in->start == 0)
        return;
    memmove(in->octets, in->octets + in->start, in->end - in->start);
    in->end -= in->start;
    in->start = 0;
}

/* Reads what is there, and waits if there is nothing. There is room for it: a full buffer has a whole frame or an octet
 * to skip, and both are handled before the next read. Returns what read returns. */
static ssize_t read_more(struct concentrator *c)
{
    struct input *in = &c->in;
    ssize_t n;
    make_room(in);
    do {
        wait_until_ready(c, STDIN_FILENO, FOR_READING);
        n = read(STDIN_FILENO, in->octets + in->end, sizeof in->octets - in->end);
    } while (n < 0 && is_temporary(errno));
    if (n > 0)
        in->end += (size_t)n;
    return n;
}

/* Writes at most PIPE_BUF octets at a time, which a pipe that is ready takes at once. Returns 0 if a write fails. */
static int write_all(struct concentrator *c, const void *octets, size_t length)
{
    const uint8_t *next = (const uint8_t *)octets;
    while (length > 0) {
        ssize_t n;
        wait_until_ready(c, STDOUT_FILENO, FOR_WRITING);
        n = write(STDOUT_FILENO, next, length < PIPE_BUF ? length : PIPE_BUF);
        if (n < 0 && !is_temporary(errno))
            return 0;
        if (n > 0) {
            next += n;
            length -= (size_t)n;
            c->counts.octets_out += (uint64_t)n;
        }
    }
    return 1;
}

static int write_output(struct concentrator *c)
{
    size_t used = c->out.used;
    c->out.used = 0;
    return write_all(c, c->out.octets, used);
}

/* Puts the shortest form of a message in a frame behind the other output. Returns the refusal. */
static uint64_t pass_on(struct concentrator *c, const uint8_t *message, size_t length, uint64_t *place)
{
    static uint8_t shortened[MESSAGE_MOST];
    const struct rules *rules = &c->rules;
    struct output *out = &c->out;
    uint64_t fields, depth, shortest, framed, size = length;
    uint64_t refusal = crudvim_check(rules->table, rules->length, REVISION, rules->number, message, length, place,
                                     &fields, &depth, &shortest);
    if (refusal == CRUDVIM_ACCEPTED && !shortest) {
        refusal = crudvim_shorten(rules->table, rules->length, REVISION, rules->number, message, length, shortened,
                                  sizeof shortened, place, &size);
        message = shortened;
    }
    if (refusal != CRUDVIM_ACCEPTED)
        return refusal;
    refusal = crudvim_frame_write(message, size, out->octets + out->used, sizeof out->octets - out->used, place,
                                  &framed);
    out->used += framed;
    c->counts.already_short += shortest;
    return refusal;
}

static void advance(struct input *in, size_t n)
{
    in->start += n;
    in->offset += n;
}

/* Handles the whole frame at in.start. Counted from there, its message starts at start, and the frame ends at end. */
static void take_frame(struct concentrator *c, size_t start, size_t end)
{
    uint64_t place;
    uint64_t refusal = pass_on(c, c->in.octets + c->in.start + start, end - start, &place);
    c->counts.frames++;
    c->counts.octets_in += end;
    if (refusal == CRUDVIM_ACCEPTED) {
        c->counts.passed_on++;
    } else {
        c->counts.refused++;
        if (refusal < REFUSALS)
            c->counts.refused_with[refusal]++;
        report(c, "message of the frame", refusal, place);
    }
    advance(&c->in, end);
}

static void skip(struct concentrator *c, size_t n, uint64_t refusal, uint64_t place)
{
    report(c, "frame", refusal, place);
    c->counts.skipped += n;
    advance(&c->in, n);
}

/* Handles every whole frame of the buffer, and skips octets that begin no frame. What is left is the start of a frame,
 * or nothing. */
static void take_frames(struct concentrator *c)
{
    const struct input *in = &c->in;
    uint64_t refusal, place, start, end;
    do {
        refusal = crudvim_frame_read(in->octets + in->start, in->end - in->start, &place, &start, &end);
        if (refusal == CRUDVIM_ACCEPTED)
            take_frame(c, start, end);
        else if (refusal == CRUDVIM_TOO_LONG)
            skip(c, 1, refusal, place);
    } while (refusal == CRUDVIM_ACCEPTED || refusal == CRUDVIM_TOO_LONG);
}

/* Drops the frame that the end of the input cuts, if there is one. */
static void drop_cut_frame(struct concentrator *c)
{
    const struct input *in = &c->in;
    size_t left = in->end - in->start;
    uint64_t refusal, place, start, end;
    if (left == 0)
        return;
    refusal = crudvim_frame_read(in->octets + in->start, left, &place, &start, &end);
    skip(c, left, refusal, place);
}

/* Returns the exit status. */
static int run(struct concentrator *c)
{
    ssize_t n;
    do {
        n = read_more(c);
        if (n < 0)
            return failed("standard input", INPUT_FAILED);
        take_frames(c);
        if (!write_output(c))
            return failed("standard output", OUTPUT_FAILED);
    } while (n > 0);
    drop_cut_frame(c);
    return INPUT_ENDED;
}

static int read_number(const char *word, uint64_t *number)
{
    const char *next = word;
    *number = 0;
    while (*next >= '0' && *next <= '9' && *number <= NUMBER_MOST)
        *number = *number * 10 + (uint64_t)(*next++ - '0');
    if (next != word && *next == '\0' && *number <= NUMBER_MOST)
        return 1;
    say("message number \"%s\": not 0 to %d in decimal digits", word, NUMBER_MOST);
    return 0;
}

static int open_file(const char *name)
{
    int fd;
    do
        fd = open(name, O_RDONLY);
    while (fd < 0 && errno == EINTR);
    return fd;
}

static int read_table(const char *name, struct rules *rules)
{
    int fd = open_file(name);
    ssize_t n;
    if (fd < 0)
        return failed(name, 0);
    do {
        n = read(fd, rules->table + rules->length, sizeof rules->table - rules->length);
        if (n > 0)
            rules->length += (size_t)n;
    } while (n > 0 || (n < 0 && errno == EINTR));
    if (n < 0)
        failed(name, 0);
    close(fd);
    return n == 0;
}

/* Checks an empty message, which has no fault: a refusal is due to the table. */
static int check_table(const struct rules *rules)
{
    uint64_t place, fields, depth, shortest;
    uint64_t refusal = crudvim_check(rules->table, rules->length, REVISION, rules->number, NULL, 0, &place, &fields,
                                     &depth, &shortest);
    if (refusal != CRUDVIM_ACCEPTED)
        say("table: refused %" PRIu64 " at %" PRIu64 " (%s)", refusal, place, crudvim_refusal_text(refusal));
    return refusal == CRUDVIM_ACCEPTED;
}

static int read_arguments(struct rules *rules, int argc, char **argv)
{
    if (argc < 2 || argc > 3) {
        say("%s", USAGE);
        return 0;
    }
    if (argc == 3 && !read_number(argv[2], &rules->number))
        return 0;
    return read_table(argv[1], rules) && check_table(rules);
}

int main(int argc, char **argv)
{
    static struct concentrator c;
    int status;
    set_signals();
    c.limit.allowed = REPORTS_AT_ONCE;
    c.limit.second = now();
    if (argc == 2 && strcmp(argv[1], "--help") == 0)
        return write_all(&c, help, sizeof help - 1) ? 0 : failed("standard output", OUTPUT_FAILED);
    if (!read_arguments(&c.rules, argc, argv))
        return NOT_STARTED;
    status = run(&c);
    say_summary(&c, 0);
    return status;
}
