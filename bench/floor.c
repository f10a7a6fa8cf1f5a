/* The floor under every call: answer 1 is due for any byte that must be zero and is not, so each call looks at
   all 39,936 bytes of the table, and the least that looking costs is to or them together. A file of its own, so
   that bench/run can build it at -O3 by one compiler and another (FLOOR is the name it gets), and so that no
   call of it is moved or left out. */
#include <stddef.h>
#include <stdint.h>

uint8_t FLOOR(const uint8_t *bytes, size_t length);

uint8_t FLOOR(const uint8_t *bytes, size_t length)
{
    uint8_t bits = 0;
    for (size_t i = 0; i < length; i++)
        bits |= bytes[i];
    return bits;
}
