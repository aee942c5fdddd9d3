/* States 24 bytes of an allocation of four: a mistake that AddressSanitizer does not see, since the library is compiled without it, and
 * valgrind reports. tests/c/run checks both, for what bindings/c/README.md says. */
#include "poruwhina.h"

#include <stdlib.h>
#include <string.h>

int main(void) {
    uint8_t *bytes = (uint8_t *)malloc(4);
    if (bytes == NULL) return 1;
    memset(bytes, 0xFF, 4);
    pw_number_answer zeros = pw_count_zeros(bytes, 24, 0, 192, 0);
    free(bytes);
    return zeros.refusal;
}
