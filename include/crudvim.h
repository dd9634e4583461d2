/* crudvim - check, read, shorten, frame and write hproto messages; read TibMsg, TibrvMsg and QForm messages
 *
 * Every function takes any input. It accepts the call and returns 0, or rejects it and returns a refusal number; only
 * crudvim_refusal_text and crudvim_real return something else. An accepted call sets *place to 0. A rejected call
 * sets *place to the offset of the fault, sets every other result to 0, and leaves buffers unchanged.
 *
 * Octets, and the state of the writer, are passed as a pointer and a length. If the length is 0, the pointer is not
 * used and may be null. No other pointer may be null.
 *
 * Results, the state of the writer, and a buffer that a call writes may not overlap each other, nor anything that the
 * call reads. Octets that are only read may overlap. Numbers of several octets are big-endian.
 *
 * The library uses no heap and keeps nothing between calls, so threads may call it at the same time. C-LIBRARY.md
 * says how much stack each function needs.
 */
#ifndef CRUDVIM_H
#define CRUDVIM_H

#include <stddef.h>
#include <stdint.h>
#include <string.h>

#ifdef __cplusplus
extern "C" {
#endif

/* ---- Version ----
 *
 * CRUDVIM_VERSION is the version of this header as a string, "3.3.0" for example. CRUDVIM_VERSION_NUMBER is a number
 * for comparisons, 30300 for that version. A new minor version only adds functions: programs need not be compiled
 * again. A new major version changes functions.
 */
#define CRUDVIM_VERSION_MAJOR 3
#define CRUDVIM_VERSION_MINOR 3
#define CRUDVIM_VERSION_PATCH 0
#define CRUDVIM_VERSION_NUMBER (CRUDVIM_VERSION_MAJOR * 10000 + CRUDVIM_VERSION_MINOR * 100 + CRUDVIM_VERSION_PATCH)
#define CRUDVIM_VERSION CRUDVIM_DOTTED(CRUDVIM_VERSION_MAJOR, CRUDVIM_VERSION_MINOR, CRUDVIM_VERSION_PATCH)
#define CRUDVIM_DOTTED(major, minor, patch) CRUDVIM_DOTTED_AS_IS(major, minor, patch)
#define CRUDVIM_DOTTED_AS_IS(major, minor, patch) #major "." #minor "." #patch

/* ---- Return value ----
 *
 * The refusal number: 0 if the call is accepted.
 */
#define CRUDVIM_ACCEPTED 0u
#define CRUDVIM_TOO_LONG 1u
#define CRUDVIM_TABLE 2u
#define CRUDVIM_CUT 3u
#define CRUDVIM_PAST_THE_END 4u
#define CRUDVIM_TOO_DEEP 5u
#define CRUDVIM_NUMBER_TOO_WIDE 6u
#define CRUDVIM_TEXT 7u
#define CRUDVIM_TAG_OR_KIND 8u
#define CRUDVIM_NO_ROOM 9u
#define CRUDVIM_STATE 10u
#define CRUDVIM_NOTHING_OPEN 11u
#define CRUDVIM_STILL_OPEN 12u
#define CRUDVIM_MAGIC 13u
#define CRUDVIM_SIZE 14u
#define CRUDVIM_NAME 15u
#define CRUDVIM_TYPE_SIZE_OR_HINT 16u
#define CRUDVIM_NOT_IN_FRACTIONS 17u
#define CRUDVIM_ABSENT 18u
#define CRUDVIM_NOT_IN_DICTIONARY 19u
#define CRUDVIM_REPEATED 20u

/* Returns what a refusal number means, in English. It never returns a null pointer. */
static inline const char *crudvim_refusal_text(uint64_t refusal)
{
    switch (refusal) {
    case CRUDVIM_ACCEPTED: return "accepted";
    case CRUDVIM_TOO_LONG: return "longer than the limit";
    case CRUDVIM_TABLE: return "bad field table, dictionary, revision or message number";
    case CRUDVIM_CUT: return "ends inside a control part, header, name, size or hint";
    case CRUDVIM_PAST_THE_END: return "contents go past the end of the message around them";
    case CRUDVIM_TOO_DEEP: return "nested more than 8 deep";
    case CRUDVIM_NUMBER_TOO_WIDE: return "number of more than 8 octets";
    case CRUDVIM_TEXT: return "malformed text";
    case CRUDVIM_TAG_OR_KIND: return "tag not in the table at this level, or of another kind";
    case CRUDVIM_NO_ROOM: return "no room for the octets to write";
    case CRUDVIM_STATE: return "bad writer state or another buffer";
    case CRUDVIM_NOTHING_OPEN: return "close with nothing open";
    case CRUDVIM_STILL_OPEN: return "finish with a field still open";
    case CRUDVIM_MAGIC: return "bad magic number or version";
    case CRUDVIM_SIZE: return "announced size is not the buffer's";
    case CRUDVIM_NAME: return "malformed name";
    case CRUDVIM_TYPE_SIZE_OR_HINT: return "bad type, size, hint or flag";
    case CRUDVIM_NOT_IN_FRACTIONS: return "real not readable in fractions or decimals";
    case CRUDVIM_ABSENT: return "no such occurrence";
    case CRUDVIM_NOT_IN_DICTIONARY: return "fid not in the dictionary";
    case CRUDVIM_REPEATED: return "repeat of a single field";
    default: return "unknown refusal number";
    }
}

/* ---- hproto messages ----
 *
 * A field table gives the kind of each field by message number and tag. It is a sequence of at most 64 records. A
 * record is the octet 1, a length (2 octets), a message number (1 octet, at most 15), a tag (2 octets), a kind (1
 * octet), and the message number of the contents (1 octet; 0 unless the kind is 5). The length is 5, or 6 if a mark
 * follows (1 octet): 0 for a field that may be repeated, 1 for a single field. Without a mark a field may be
 * repeated. No two records have the same message number and tag. The kinds are:
 *
 *   0  raw: a field that the table does not have. No record has this kind.
 *   1  uint: a whole number from 0 to 2^64 - 1
 *   2  int: a whole number from -2^63 to 2^63 - 1
 *   3  string: any octets
 *   4  text: UTF-8 as RFC 3629 defines it
 *   5  message
 *
 * The revision is that of the profile, 1 or 2. Under revision 2 a message has a single field at most once; a repeat
 * is rejected with 20 at its first octet, before its contents are read. The rule applies to each nested message
 * separately. Under revision 1 marks have no effect.
 */

/* Checks a message under a field table, a revision and a message number. Sets *fields to the number of its fields at
 * all depths, and *depth to the depth of its deepest message, which is 1 if no message is nested. Sets *shortest to 1
 * if the message is its own shortest form, so that crudvim_shorten would write the same octets, and to 0 if it can be
 * shortened.
 *
 * Refusals, in this order:
 *
 *   1  at 0: the message is longer than 65536 octets.
 *   2  at the faulty record of the table.
 *   2  at 0: the revision is not 1 or 2, or the message number is over 15.
 *   3, 4, 5, 6, 7, 20  at the first fault of the message.
 */
uint64_t crudvim_check(const uint8_t *table, size_t table_len, uint64_t revision, uint64_t number,
                       const uint8_t *message, size_t message_len, uint64_t *place, uint64_t *fields, uint64_t *depth,
                       uint64_t *shortest);

/* Writes the shortest message with the same content to the front of out, and sets *length to its length. The rest of
 * out stays as it is. A buffer of message_len octets is always long enough.
 *
 * Refusals: those of crudvim_check, then 9 at 0 if out is too short.
 */
uint64_t crudvim_shorten(const uint8_t *table, size_t table_len, uint64_t revision, uint64_t number,
                         const uint8_t *message, size_t message_len, uint8_t *out, size_t out_len, uint64_t *place,
                         uint64_t *length);

/* Checks a message, and finds the k-th of its outermost fields with a tag, counted from 0. Sets *kind to the kind of
 * the field, *start to the offset of its contents, and *length to their length. Sets *value to the number of a uint
 * field, else to 0, and *signed_value to the number of an int field, else to 0.
 *
 * Refusals: those of crudvim_check, then 18 at 0 if there is no such field.
 */
uint64_t crudvim_lookup(const uint8_t *table, size_t table_len, uint64_t revision, uint64_t number,
                        const uint8_t *message, size_t message_len, uint64_t tag, uint64_t k, uint64_t *place,
                        uint64_t *kind, uint64_t *value, int64_t *signed_value, uint64_t *start, uint64_t *length);

/* Finds the last of the outermost fields with a tag. Results and refusals are those of crudvim_lookup. */
uint64_t crudvim_lookup_last(const uint8_t *table, size_t table_len, uint64_t revision, uint64_t number,
                             const uint8_t *message, size_t message_len, uint64_t tag, uint64_t *place, uint64_t *kind,
                             uint64_t *value, int64_t *signed_value, uint64_t *start, uint64_t *length);

/* ---- Frames ----
 *
 * A frame is a prefix that gives the size of a message, and the message.
 */

/* Reads the frame at the front of a buffer. The message starts at *start and ends before *end, where the next frame
 * may start. Octets after the frame are allowed.
 *
 * Refusals, all at 0, in this order:
 *
 *   1  the buffer is longer than 65545 octets.
 *   3  the buffer ends inside the prefix.
 *   1  the prefix gives a size over 65536.
 *   4  the buffer ends inside the message.
 */
uint64_t crudvim_frame_read(const uint8_t *buffer, size_t buffer_len, uint64_t *place, uint64_t *start, uint64_t *end);

/* Writes a frame with the shortest prefix to the front of out, and sets *length to its length. The message is not
 * checked. The rest of out stays as it is. A buffer of message_len + 5 octets is always long enough.
 *
 * Refusals, all at 0, in this order:
 *
 *   1  the message is longer than 65536 octets.
 *   9  out is too short.
 */
uint64_t crudvim_frame_write(const uint8_t *message, size_t message_len, uint8_t *out, size_t out_len, uint64_t *place,
                             uint64_t *length);

/* ---- Writer ----
 *
 * The writer builds an hproto message, each field in its shortest form. It fills the buffer from its end towards its
 * start, so the caller puts the last field of a message first. The calls are crudvim_start, then those that put
 * fields and open and close message fields, then crudvim_finish. Fields that are put while a message field is open go
 * into the innermost open field.
 *
 * Pass the same table and the same buffer to each call. The caller keeps the state between calls, in an array of
 * CRUDVIM_STATE_WORDS (34) numbers:
 *
 *   CRUDVIM_STATE_LENGTH (0)         the length of the buffer
 *   CRUDVIM_STATE_START (1)          the offset at which the octets stored so far start
 *   CRUDVIM_STATE_OPENED (2)         the number of open fields
 *   CRUDVIM_STATE_REVISION (3)       the revision
 *   CRUDVIM_STATE_NUMBERS (4 to 11)  the message number of each level
 *   CRUDVIM_STATE_MASKS (12 to 19)   the mask of each level: bit i, from 0, is set if the message has the single
 *                                    field of the i-th record of the table
 *   CRUDVIM_STATE_MARKS (20 to 26)   the mark of each open field: the offset at which its contents end
 *   CRUDVIM_STATE_TAGS (27 to 33)    the tag of each open field
 *
 * With k open fields, k marks, k tags and k + 1 message numbers are in use. Every call tests the state first, and
 * rejects with 10 the following; crudvim_start only tests the length of the array:
 *
 *   -  an array of another length than CRUDVIM_STATE_WORDS
 *   -  a buffer of another length than crudvim_start got
 *   -  a length over 65536, or a start beyond the length
 *   -  more than 7 open fields, or a revision other than 1 and 2
 *   -  a mark in use that is beyond the length, below the start, or above the mark before it
 *   -  a message number in use over 15, or a tag in use over 65535
 *
 * It does not test masks, nor anything that is not in use. The state is not protected: if the caller changes it, later
 * calls use the changed state.
 *
 * A rejected call leaves the state and the buffer unchanged, except that a rejected crudvim_start sets the state to
 * zeros. *place is 0 in a refusal, except that it is the offset of a faulty record of the table.
 */
#define CRUDVIM_STATE_WORDS 34
#define CRUDVIM_STATE_LENGTH 0
#define CRUDVIM_STATE_START 1
#define CRUDVIM_STATE_OPENED 2
#define CRUDVIM_STATE_REVISION 3
#define CRUDVIM_STATE_NUMBERS 4
#define CRUDVIM_STATE_MASKS 12
#define CRUDVIM_STATE_MARKS 20
#define CRUDVIM_STATE_TAGS 27

/* Tells GCC that a parameter is not read, so that it does not warn about an uninitialized buffer. */
#if defined(__GNUC__) && __GNUC__ >= 11
#define CRUDVIM_NOT_READ(parameter) __attribute__((access(none, parameter)))
#else
#define CRUDVIM_NOT_READ(parameter)
#endif

/* Starts a message with a number under a revision, and sets the state. It uses only the length of the buffer, and
 * neither reads nor writes its octets. A rejected call sets every word of the array to 0, whatever its length.
 *
 * Refusals, in this order:
 *
 *   10  state_len is not CRUDVIM_STATE_WORDS.
 *   1   the buffer is longer than 65536 octets.
 *   2   at the faulty record of the table.
 *   2   the revision is not 1 or 2, or the message number is over 15.
 */
uint64_t crudvim_start(const uint8_t *table, size_t table_len, uint64_t revision, uint64_t number,
                       const uint8_t *buffer, size_t buffer_len, uint64_t *state, size_t state_len, uint64_t *place)
    CRUDVIM_NOT_READ(5);

/* Puts a uint field in front of what is stored so far.
 *
 * Refusals, in this order:
 *
 *   10  the state is bad, or the buffer has another length.
 *   2   at the faulty record of the table.
 *   8   the table does not have the tag at this level, or has it with another kind.
 *   20  the revision is 2, and the message has this single field already.
 *   9   the buffer has no room for the field.
 */
uint64_t crudvim_put_uint(const uint8_t *table, size_t table_len, uint64_t *state, size_t state_len, uint64_t tag,
                          uint64_t value, uint8_t *buffer, size_t buffer_len, uint64_t *place);

/* Puts an int field. Refusals: those of crudvim_put_uint. */
uint64_t crudvim_put_int(const uint8_t *table, size_t table_len, uint64_t *state, size_t state_len, uint64_t tag,
                         int64_t value, uint8_t *buffer, size_t buffer_len, uint64_t *place);

/* Puts a string or text field with the given octets.
 *
 * Refusals, in this order:
 *
 *   10, 2, 8, 20  as for crudvim_put_uint.
 *   7  the field is of kind text, and the octets are not valid text.
 *   9  the buffer has no room for the field.
 */
uint64_t crudvim_put_octets(const uint8_t *table, size_t table_len, uint64_t *state, size_t state_len, uint64_t tag,
                            const uint8_t *octets, size_t octets_len, uint8_t *buffer, size_t buffer_len,
                            uint64_t *place);

/* Opens a message field. It writes no octets; crudvim_close does.
 *
 * Refusals, in this order:
 *
 *   10  the state is bad.
 *   2   at the faulty record of the table.
 *   8   the table does not have the tag at this level, or not as a message.
 *   20  the revision is 2, and the message has this single field already.
 *   5   seven fields are open.
 */
uint64_t crudvim_open(const uint8_t *table, size_t table_len, uint64_t *state, size_t state_len, uint64_t tag,
                      uint64_t *place);

/* Closes the innermost open field: stores its tag and length in front of its contents.
 *
 * Refusals, in this order:
 *
 *   10  the state is bad, or the buffer has another length.
 *   2   at the faulty record of the table.
 *   11  no field is open.
 *   9   the buffer has no room for the tag and the length.
 */
uint64_t crudvim_close(const uint8_t *table, size_t table_len, uint64_t *state, size_t state_len, uint8_t *buffer,
                       size_t buffer_len, uint64_t *place);

/* Sets *start to the offset at which the message starts. The message is the octets from buffer + *start to the end of
 * the buffer. The call does not change the state, and more fields may be put after it.
 *
 * Refusals, in this order:
 *
 *   10  the state is bad.
 *   12  a field is open.
 */
uint64_t crudvim_finish(const uint64_t *state, size_t state_len, uint64_t *place, uint64_t *start);

/* ---- TibMsg and TibrvMsg messages ----
 *
 * These need no table. The results for a field are its name, its type and its data. *name_start is the offset of the
 * name, and *name_length counts its closing zero; it is 0 if the field has no name. *kind is the type of the field.
 * Its data are *data_length octets from *data_start on.
 */

/* Checks a TibMsg message. Sets *fields to the number of its fields, and *depth to 1.
 *
 * Refusals, in this order:
 *
 *   1  at 0: the message is longer than 65536 octets.
 *   3, 13, 14  at 0: the header is cut, has another magic number or version, or another size.
 *   3, 4, 15, 16  at the first octet of the first faulty field.
 */
uint64_t crudvim_tibmsg_check(const uint8_t *message, size_t message_len, uint64_t *place, uint64_t *fields,
                              uint64_t *depth);

/* Checks a TibMsg message, and returns its k-th field, counted from 0. Sets *hinted to 1 if the field has a hint,
 * else to 0; *hint_kind to the type of the hint, and *hint to its number. Sets *real_bits to the 64 bits of a real, a
 * real of four octets widened, and to 0 for any other field.
 *
 * Refusals: those of crudvim_tibmsg_check, then 18 at 0 if there is no such field.
 */
uint64_t crudvim_tibmsg_field(const uint8_t *message, size_t message_len, uint64_t k, uint64_t *place,
                              uint64_t *name_start, uint64_t *name_length, uint64_t *kind, uint64_t *data_start,
                              uint64_t *data_length, uint64_t *hinted, uint64_t *hint_kind, uint64_t *hint,
                              uint64_t *real_bits);

/* Checks a TibrvMsg message. Sets *fields to the number of its fields at all depths, and *depth to the depth of its
 * deepest message.
 *
 * Refusals, in this order:
 *
 *   1  at 0: the message is longer than 65536 octets.
 *   3, 13, 14  at 0: the header is cut, has another magic number, or another size.
 *   3, 4, 5, 13, 14, 15, 16  at the first octet of the first faulty field or nested header.
 */
uint64_t crudvim_tibrv_check(const uint8_t *message, size_t message_len, uint64_t *place, uint64_t *fields,
                             uint64_t *depth);

/* Checks a TibrvMsg message, and returns its k-th outermost field, counted from 0. There are no hints. The data of a
 * field of type 1 are a whole TibrvMsg message, which these functions can read.
 *
 * Refusals: those of crudvim_tibrv_check, then 18 at 0 if there is no such field.
 */
uint64_t crudvim_tibrv_field(const uint8_t *message, size_t message_len, uint64_t k, uint64_t *place,
                             uint64_t *name_start, uint64_t *name_length, uint64_t *kind, uint64_t *data_start,
                             uint64_t *data_length);

/* ---- QForm messages ----
 *
 * A dictionary is a sequence of at most 512 records. A record is the octet 2, the length 5 (2 octets), a fid (2
 * octets, at most 16383), a type (1 octet, at most 21) and the size of the data (2 octets; 0 is allowed). No two
 * records have the same fid, and the size of type 15 is 9.
 *
 * A message is the octets 11 11 11 12 (hexadecimal), the number of octets after the header (4 octets), and fields. A
 * field is a FID (2 octets) and its data, with the size from the dictionary. Both top bits of a FID are set, and the
 * other 14 are the fid. After data of odd size comes one octet of any value, also at the end of the message; it is
 * not part of the data.
 */

/* Checks a QForm message under a dictionary. Sets *fields to the number of its fields, and *depth to 1.
 *
 * Refusals, in this order:
 *
 *   1  at 0: the message is longer than 65536 octets.
 *   2  at the faulty record of the dictionary.
 *   3, 13, 14  at 0: the header is cut, has another magic number, or another size.
 *   3, 16, 19, 4  at the first octet of the first faulty field: only one octet is left for a FID, its top bits are
 *                 not both set, the dictionary does not have the fid, or the data or the octet after them are cut.
 */
uint64_t crudvim_qform_check(const uint8_t *dictionary, size_t dictionary_len, const uint8_t *message,
                             size_t message_len, uint64_t *place, uint64_t *fields, uint64_t *depth);

/* Checks a QForm message, and returns its k-th field, counted from 0. Sets *fid, *kind (the type) and *data_length
 * from the dictionary, and *data_start to the offset of the data. There are no hints. The last octet of the data of a
 * price, type 15, is its precision.
 *
 * Refusals: those of crudvim_qform_check, then 18 at 0 if there is no such field.
 */
uint64_t crudvim_qform_field(const uint8_t *dictionary, size_t dictionary_len, const uint8_t *message,
                             size_t message_len, uint64_t k, uint64_t *place, uint64_t *fid, uint64_t *kind,
                             uint64_t *data_start, uint64_t *data_length);

/* ---- Reals ----
 *
 * A real is passed by its 64 bits, as crudvim_tibmsg_field returns it, with its hint. It has no hint if hinted is 0;
 * any other number means that it has one.
 */

/* Reads a real in fractions: sets *whole to the real times 2 to the power of the hint. Rejects with 17 at 0 a real
 * without a hint, a hint that is not from 1 to 8, and a product that is not whole or not below 2^53 in magnitude.
 */
uint64_t crudvim_fractions(uint64_t real_bits, uint64_t hinted, uint64_t hint, uint64_t *place, int64_t *whole);

/* Reads a real in decimals: sets *whole to the whole number nearest to the real times 10 to the power of the hint
 * less 16. Hint 17 gives tenths and hint 25 billionths. Of two whole numbers that are equally near it is the even
 * one. Rejects with 17 at 0 a real without a hint, a hint that is not from 17 to 25, a real that is infinite or not a
 * number, and a result that is not from -2^63 to 2^63 - 1.
 */
uint64_t crudvim_decimals(uint64_t real_bits, uint64_t hinted, uint64_t hint, uint64_t *place, int64_t *whole);

/* Returns the real with these 64 bits as a double. */
static inline double crudvim_real(uint64_t real_bits)
{
    double real;
    memcpy(&real, &real_bits, sizeof real);
    return real;
}

#ifdef __cplusplus
}
#endif

#endif
