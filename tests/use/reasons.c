/* Prints each number that has a reason, and the reason, which is the same with any offset beside it. */
#include "rtep.h"

#include <stdio.h>
#include <string.h>

int main(void)
{
    const char *none = rtep_reason(UINT32_MAX);
    for (uint32_t number = 0; number < 1000; number++) {
        uint32_t given = number | 1499u << 16;
        if (RTEP_NUMBER(given) != number || RTEP_OFFSET(given) != 1499) return 1;
        if (strcmp(rtep_reason(given), rtep_reason(number)) != 0) return 1;
        if (strcmp(rtep_reason(number), none) != 0) printf("%u %s\n", number, rtep_reason(number));
    }
    return 0;
}
