/* Digit by digit; every byte is looked at, so that what is no number is told as such, however long. */
#include "decimal.h"

enum decimal decimal_read(uint64_t *into, const void *at, size_t length) {
    const uint8_t *digits = at;
    int over = 0;
    *into = 0;
    for (size_t i = 0; i < length; i++) {
        uint64_t digit = (uint64_t)digits[i] - '0';
        if (digit > 9) return NOT_DECIMAL;
        over = over || *into > UINT64_MAX / 10 || (*into == UINT64_MAX / 10 && digit > UINT64_MAX % 10);
        *into = *into * 10 + digit;
    }
    return length == 0 ? NOT_DECIMAL : over ? OVER_64_BITS : DECIMAL;
}
