/*
 * What code for 128-bit integers calls by name on WebAssembly, as compiler-rt defines it: shifts to the left and to the
 * right, and products. No proof covers these three.
 */
typedef unsigned long long half;
typedef unsigned __int128 whole;

enum { HALF_BITS = 64, PLACE_MASK = 127, QUARTER_BITS = 32 };

static whole joined(half high, half low) {
    union {
        struct {
            half low, high;
        } halves;
        whole all;
    } it = {{low, high}};
    return it.all;
}

static half low_of(whole it) { return (half)it; }

static half high_of(whole it) {
    union {
        whole all;
        struct {
            half low, high;
        } halves;
    } both = {it};
    return both.halves.high;
}

whole __ashlti3(whole it, int by) {
    half low = low_of(it), high = high_of(it);
    by &= PLACE_MASK;
    if (by == 0) return it;
    if (by >= HALF_BITS) return joined(low << (by - HALF_BITS), 0);
    return joined((high << by) | (low >> (HALF_BITS - by)), low << by);
}

whole __lshrti3(whole it, int by) {
    half low = low_of(it), high = high_of(it);
    by &= PLACE_MASK;
    if (by == 0) return it;
    if (by >= HALF_BITS) return joined(0, high >> (by - HALF_BITS));
    return joined(high >> by, (low >> by) | (high << (HALF_BITS - by)));
}

/* The product of two halves, from four of their quarters. */
static whole product(half one, half other) {
    const half mask = 0xFFFFFFFFu;
    half a = one & mask, b = one >> QUARTER_BITS, c = other & mask, d = other >> QUARTER_BITS;
    half least = a * c, middle = b * c + (least >> QUARTER_BITS), further = a * d + (middle & mask);
    return joined(b * d + (middle >> QUARTER_BITS) + (further >> QUARTER_BITS),
                  (further << QUARTER_BITS) | (least & mask));
}

whole __multi3(whole one, whole other) {
    whole low = product(low_of(one), low_of(other));
    half high = high_of(low) + high_of(one) * low_of(other) + low_of(one) * high_of(other);
    return joined(high, low_of(low));
}
