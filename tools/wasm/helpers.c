// The calls on numbers of 128 bits that clang makes for WebAssembly.
typedef unsigned __int128 whole;
typedef unsigned long half;

static whole joined(half high, half low) {
    union {
        struct {
            half low, high;
        } halves;
        whole whole;
    } it = {{low, high}};
    return it.whole;
}

static half low_of(whole it) {
    return (half)it;
}

static half high_of(whole it) {
    union {
        whole whole;
        half halves[2];
    } both = {it};
    return both.halves[1];
}

// The product of two halves, by quarters.
static whole product(half one, half other) {
    half mask = 0xffffffff, low = (one & mask) * (other & mask), high = (one >> 32) * (other >> 32);
    half left = (one >> 32) * (other & mask), right = (one & mask) * (other >> 32);
    half middle = (low >> 32) + (left & mask) + (right & mask);
    return joined(high + (left >> 32) + (right >> 32) + (middle >> 32), middle << 32 | (low & mask));
}

whole __multi3(whole one, whole other) {
    whole low = product(low_of(one), low_of(other));
    return joined(high_of(low) + low_of(one) * high_of(other) + high_of(one) * low_of(other), low_of(low));
}

whole __ashlti3(whole it, int places) {
    half low = low_of(it), high = high_of(it);
    if (places & 64) return joined(low << (places & 63), 0);
    if (!places) return it;
    return joined(high << places | low >> (64 - places), low << places);
}

whole __lshrti3(whole it, int places) {
    half low = low_of(it), high = high_of(it);
    if (places & 64) return joined(0, high >> (places & 63));
    if (!places) return it;
    return joined(high >> places, low >> places | high << (64 - places));
}
