/* The baseline of the bench: the same answers as the library's entries of the same names, written the plain way in C. */
#ifndef PLAIN_H
#define PLAIN_H

#include <stddef.h>
#include <stdint.h>

uint64_t plain_check(const uint8_t *table, size_t table_len, uint64_t revision, uint64_t number, const uint8_t *message,
                     size_t message_len, uint64_t *place, uint64_t *fields, uint64_t *depth, uint64_t *shortest);

uint64_t plain_shorten(const uint8_t *table, size_t table_len, uint64_t revision, uint64_t number, const uint8_t *message,
                       size_t message_len, uint8_t *out, size_t out_len, uint64_t *place, uint64_t *length);

uint64_t plain_tibmsg_check(const uint8_t *message, size_t message_len, uint64_t *place, uint64_t *fields, uint64_t *depth);

uint64_t plain_tibrv_check(const uint8_t *message, size_t message_len, uint64_t *place, uint64_t *fields, uint64_t *depth);

uint64_t plain_qform_check(const uint8_t *dictionary, size_t dictionary_len, const uint8_t *message, size_t message_len,
                           uint64_t *place, uint64_t *fields, uint64_t *depth);

uint64_t plain_qform_field(const uint8_t *dictionary, size_t dictionary_len, const uint8_t *message, size_t message_len, uint64_t k,
                           uint64_t *place, uint64_t *fid, uint64_t *type, uint64_t *data_start, uint64_t *data_length);

uint64_t plain_decimals(uint64_t real_bits, uint64_t hinted, uint64_t hint, uint64_t *place, int64_t *whole);

uint64_t plain_start(const uint8_t *table, size_t table_len, uint64_t revision, uint64_t number, const uint8_t *buffer,
                     size_t buffer_len, uint64_t *state, size_t state_len, uint64_t *place);

uint64_t plain_put_uint(const uint8_t *table, size_t table_len, uint64_t *state, size_t state_len, uint64_t tag, uint64_t value,
                        uint8_t *buffer, size_t buffer_len, uint64_t *place);

uint64_t plain_put_int(const uint8_t *table, size_t table_len, uint64_t *state, size_t state_len, uint64_t tag, int64_t value,
                       uint8_t *buffer, size_t buffer_len, uint64_t *place);

uint64_t plain_put_octets(const uint8_t *table, size_t table_len, uint64_t *state, size_t state_len, uint64_t tag,
                          const uint8_t *octets, size_t octets_len, uint8_t *buffer, size_t buffer_len, uint64_t *place);

uint64_t plain_open(const uint8_t *table, size_t table_len, uint64_t *state, size_t state_len, uint64_t tag, uint64_t *place);

uint64_t plain_close(const uint8_t *table, size_t table_len, uint64_t *state, size_t state_len, uint8_t *buffer, size_t buffer_len,
                     uint64_t *place);

uint64_t plain_finish(const uint64_t *state, size_t state_len, uint64_t *place, uint64_t *start);

#endif
