// The helpers of tools/wasm against the machine's own numbers of 128 bits.
#include <stdio.h>
#define __multi3 product_of
#define __ashlti3 left_of
#define __lshrti3 right_of
#include "../../tools/wasm/helpers.c"

static half drawn(void) {
    static half state = 41;
    state ^= state << 13;
    state ^= state >> 7;
    state ^= state << 17;
    half kind = state >> 60;
    return kind < 2 ? 0 : kind < 4 ? ~(half)0 : kind < 6 ? (half)1 << (state & 63) : state * 0x2545f4914f6cdd1d;
}

int main(void) {
    for (int time = 0; time < 1000000; time++) {
        whole one = (whole)drawn() << 64 | drawn(), other = (whole)drawn() << 64 | drawn();
        int places = time % 128;
        if (product_of(one, other) == one * other && left_of(one, places) == one << places
            && right_of(one, places) == one >> places)
            continue;
        fprintf(stderr, "helpers: another number than the machine's, at %d\n", time);
        return 1;
    }
    return 0;
}
