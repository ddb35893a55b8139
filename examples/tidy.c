/* Tidies a header: standard input to standard output, or the refusal and its line. */
#include <stdio.h>
#include "sam_header.h"

int main(void) {
    static uint8_t text[16777217], out[16777216];
    size_t n = fread(text, 1, sizeof text, stdin);
    uint64_t a = sam_header_tidy(text, n, out, sizeof out);
    if (SAM_HEADER_IS_REFUSAL(a)) {
        fprintf(stderr, "refused %u line %u\n", SAM_HEADER_NUMBER(a), SAM_HEADER_LINE(a));
        return 1;
    }
    fwrite(out, 1, a, stdout);
    return 0;
}
