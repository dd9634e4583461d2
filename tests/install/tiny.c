/* Prints the version of the header, a real, and the real as the library reads it in hundredths. */
#include <crudvim.h>
#include <stdio.h>

int main(void)
{
    const uint8_t message[] = {0xce, 0x13, 0xaa, 0x1f, 1, 0, 0, 0, 14,
                               0, 0x47, 8, 0x40, 10, 0, 0, 0, 0, 0, 0, 6, 1, 18};
    uint64_t place, name_start, name_length, kind, data_start, data_length, hinted, hint_kind, hint, real_bits;
    int64_t whole;
    if (crudvim_tibmsg_field(message, sizeof message, 0, &place, &name_start, &name_length, &kind, &data_start,
                             &data_length, &hinted, &hint_kind, &hint, &real_bits)
        || crudvim_decimals(real_bits, hinted, hint, &place, &whole))
        return 1;
    printf("%s %d %.2f %d\n", CRUDVIM_VERSION, CRUDVIM_VERSION_NUMBER, crudvim_real(real_bits), (int)whole);
    return 0;
}
