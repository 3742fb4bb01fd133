/* What LLVM calls by name on wasm64 for numbers of 128 bits, from halves of 64. So nothing here multiplies or shifts 128
   bits itself. */
typedef unsigned long long half;
typedef unsigned __int128 wide;

typedef union {
    wide whole;
    struct {
        half low, high;
    };
} halves;

static wide joined(half low, half high) {
    halves made = {.low = low, .high = high};
    return made.whole;
}

/* The product of two halves, by quarters. */
static wide product(half a, half b) {
    half a0 = (unsigned)a, a1 = a >> 32, b0 = (unsigned)b, b1 = b >> 32;
    half first = a0 * b0, second = a1 * b0 + (first >> 32), third = a0 * b1 + (unsigned)second;
    return joined(third << 32 | (unsigned)first, a1 * b1 + (second >> 32) + (third >> 32));
}

wide __multi3(wide x, wide y) {
    halves a = {x}, b = {y}, low = {product(a.low, b.low)};
    return joined(low.low, low.high + a.low * b.high + a.high * b.low);
}

/* Shifts are by 0 to 127. */
wide __ashlti3(wide x, int by) {
    halves a = {x};
    if (by & 64) {
        return joined(0, a.low << (by & 63));
    }
    return by ? joined(a.low << by, a.high << by | a.low >> (64 - by)) : x;
}

wide __lshrti3(wide x, int by) {
    halves a = {x};
    if (by & 64) {
        return joined(a.high >> (by & 63), 0);
    }
    return by ? joined(a.low >> by | a.high << (64 - by), a.high >> by) : x;
}

wide __ashrti3(wide x, int by) {
    halves a = {x};
    long long high = a.high;
    if (by & 64) {
        return joined(high >> (by & 63), high >> 63);
    }
    return by ? joined(a.low >> by | a.high << (64 - by), high >> by) : x;
}

/* Quotient and remainder of numbers without sign, bit by bit; a zero divisor is the caller's. */
static wide divided(wide x, wide y, wide *rest) {
    halves a = {x}, b = {y};
    if (!a.high && !b.high) {
        *rest = joined(a.low % b.low, 0);
        return joined(a.low / b.low, 0);
    }
    halves quotient = {0}, left = {0};
    for (int bit = 127; bit >= 0; bit--) {
        half next = (bit & 64 ? a.high : a.low) >> (bit & 63) & 1;
        _Bool over = left.high >> 63;
        left.high = left.high << 1 | left.low >> 63;
        left.low = left.low << 1 | next;
        if (over || left.whole >= y) {
            left.whole -= y;
            *(bit & 64 ? &quotient.high : &quotient.low) |= 1ull << (bit & 63);
        }
    }
    *rest = left.whole;
    return quotient.whole;
}

wide __udivti3(wide x, wide y) {
    wide rest;
    return divided(x, y, &rest);
}

wide __umodti3(wide x, wide y) {
    wide rest;
    divided(x, y, &rest);
    return rest;
}

static wide positive(wide x) {
    return (__int128)x < 0 ? -x : x;
}

__int128 __divti3(__int128 x, __int128 y) {
    wide rest, quotient = divided(positive(x), positive(y), &rest);
    return (x < 0) != (y < 0) ? -quotient : quotient;
}

__int128 __modti3(__int128 x, __int128 y) {
    wide rest;
    divided(positive(x), positive(y), &rest);
    return x < 0 ? -rest : rest;
}
