#include <sillarnica/ceph.h>

/* Ceph's class numops: the value of a key in the omap is a number as text, to which the input's is added, or by which
   it is multiplied. Ceph reads both as doubles and writes ten digits (%.10g). BPF has no floating point: here doubles
   are whole numbers and powers of two, and texts become doubles, and doubles texts, by numbers of as many bits as
   that takes. It has loops, so it takes a budget.

   The output is the memory that a method works in: the stored text, the new one, and three large numbers. */
#define KEY 64
#define TEXT 64 /* characters of a given number, or a stored one */
#define IN_MASK 255
#define IN_CAP (IN_MASK + 1 + 128)
#define LIMBS 64
#define THERE 0
#define NEW 128
#define LARGE 256
#define OUT_CAP (LARGE + 3 * 4 * LIMBS)

/* A double: m has 53 bits, the highest one set, or is 0; times two to the e. */
struct number {
    u64 m, is_minus;
    s64 e, error;
};

/* A large number, 32 bits a limb, the lowest one first, in memory that was zero: of the limbs below `top`, those from
   `base` on are whole, those below it a fraction. A rest is what was left below the lowest one. */
struct large {
    u8 *limbs;
    u64 base, top, has_rest;
};

INLINE word32 *limb(const struct large *x, u64 n)
{
    BOUND(n, LIMBS - 1);
    return (word32 *)x->limbs + n;
}

/* Multiplies by a number below 2^32, and adds one to the whole. */
INLINE void times(struct large *x, u64 factor, u64 carry)
{
    for (u64 i = x->base; i < x->top; i++) {
        carry += *limb(x, i) * factor;
        *limb(x, i) = carry;
        carry >>= 32;
    }
    if (carry)
        *limb(x, x->top++) = carry;
}

/* Divides by a number below 2^32. */
INLINE void over(struct large *x, u64 divisor)
{
    u64 rest = 0;
    for (u64 i = x->top; i > 0; i--) {
        rest = rest << 32 | *limb(x, i - 1);
        *limb(x, i - 1) = rest / divisor;
        rest %= divisor;
    }
    x->has_rest |= rest != 0;
    x->top -= *limb(x, x->top - 1) == 0;
}

/* Multiplies by a power of ten, nine digits a round. */
INLINE void scale(struct large *x, s64 power)
{
    u64 left = power < 0 ? -power : power;
    while (left) {
        u64 n = left < 9 ? left : 9, factor = n & 1 ? 10 : 1;
        factor *= n & 2 ? 100 : 1;
        factor *= n & 4 ? 10000 : 1;
        factor *= n & 8 ? 100000000 : 1;
        if (power < 0)
            over(x, factor);
        else
            times(x, factor, 0);
        left -= n;
    }
}

/* The double next to m times two to the e, ties to even. The highest bit of m is set. */
INLINE struct number rounded(u64 m, s64 e, u64 has_rest, u64 is_minus)
{
    struct number x = {m >> 11, is_minus, e + 11, 0};
    u64 rest = m & 2047;
    x.m += rest > 1024 || (rest == 1024 && (has_rest || (x.m & 1)));
    if (x.m >> 53) {
        x.m >>= 1;
        x.e++;
    }
    if (x.e < -1074 || x.e > 971)
        x.error = -ERANGE;
    return x;
}

/* The number that a text is, as strtod has it. No text is 0; `wrong` is the error of what is none. */
INLINE struct number parse(const u8 *text, u64 length, u8 *limbs, s64 wrong)
{
    struct number x = {0};
    u64 digits = 0, behind_point = 0, in_power = 0, power_digits = 0, is_minus_power = 0, is_bad = 0, is_sign = 1;
    s64 power = 0, e = 0;
    for (u64 i = 0; i < length; i++) {
        u64 at = i, c, was_sign = is_sign;
        BOUND(at, TEXT - 1);
        c = text[at];
        is_sign = 0;
        if (c - '0' <= 9 && in_power) {
            power = power < 1000 ? power * 10 + (c - '0') : power;
            power_digits++;
        } else if (c - '0' <= 9) {
            e -= behind_point;
            digits++;
        } else if (c == '.') {
            is_bad |= behind_point | in_power;
            behind_point = 1;
        } else if ((c | 32) == 'e') {
            is_bad |= in_power | (digits == 0);
            in_power = is_sign = 1;
        } else if ((c == '-' || c == '+') && was_sign) {
            if (in_power)
                is_minus_power = c == '-';
            else
                x.is_minus = c == '-';
        } else {
            is_bad = 1;
        }
    }
    if (is_bad || (length > 0 && digits == 0) || (in_power && power_digits == 0)) {
        x.error = wrong;
        return x;
    }
    e += is_minus_power ? -power : power;
    if (e > 400 || e < -400)
        e = e > 0 ? 400 : -400; /* too large or too small, but for 0 */
    /* as many bits of a fraction that 66 are left of it after the division; two limbs below are read in any case */
    struct large l = {limbs, 2, 2, 0};
    if (e < 0)
        l.base = l.top = 5 + ((u64)-e * 107 >> 10);
    for (u64 i = 0; i < length; i++) {
        u64 at = i;
        BOUND(at, TEXT - 1);
        if ((text[at] | 32) == 'e')
            break;
        if (text[at] - '0' <= 9u)
            times(&l, 10, text[at] - '0');
    }
    if (l.top == l.base)
        return x;
    scale(&l, e);
    u64 top = l.top, high = *limb(&l, top - 1), next = *limb(&l, top - 3), zeros = leading_zeros(high) & 31;
    u64 m = (high << 32 | *limb(&l, top - 2)) << zeros | next << zeros >> 32;
    l.has_rest |= (u32)(next << zeros) != 0;
    for (u64 i = 3; i < top; i++)
        l.has_rest |= *limb(&l, i - 3) != 0;
    return rounded(m, 32 * ((s64)top - 2 - (s64)l.base) - (s64)zeros, l.has_rest, x.is_minus);
}

INLINE struct number sum(struct number x, struct number y)
{
    struct number high = x.e < y.e ? y : x, low = x.e < y.e ? x : y;
    if (x.m == 0 || y.m == 0) {
        struct number z = x.m ? x : y;
        if (z.m == 0)
            z.is_minus = x.is_minus & y.is_minus;
        return z;
    }
    /* ten bits more, of which the last one tells that the lower number has bits below it */
    u64 gap = high.e - low.e, m = high.m << 10, n = low.m << 10;
    n = gap > 63 ? 1 : n >> gap | ((n & ((1ull << gap) - 1)) != 0);
    if (high.is_minus == low.is_minus) {
        m += n;
    } else if (m >= n) {
        m -= n;
    } else {
        m = n - m;
        high.is_minus = low.is_minus;
    }
    if (m == 0)
        return (struct number){0};
    u64 zeros = leading_zeros(m);
    return rounded(m << zeros, high.e - 10 - (s64)zeros, 0, high.is_minus);
}

INLINE struct number product(struct number x, struct number y)
{
    u64 high = high_product(x.m << 11, y.m << 11), low = (x.m << 11) * (y.m << 11), is_minus = x.is_minus ^ y.is_minus;
    if (x.m == 0 || y.m == 0)
        return (struct number){0, is_minus, 0, 0};
    s64 e = x.e + y.e + 42;
    if (high >> 63 == 0) {
        high = high << 1 | low >> 63;
        low <<= 1;
        e--;
    }
    return rounded(high, e, low != 0, is_minus);
}

/* The first ten digits of a double, ties to even, and the power of ten of the first one. */
struct digits {
    u64 all;
    s64 first;
};

INLINE struct digits digits_of(u8 *limbs, struct number x)
{
    struct digits d = {0, 0};
    if (x.m == 0)
        return d;
    /* its power of ten, or one less: log10(2) is 78913 / 2^18, about */
    d.first = (x.e + 52) * 78913 >> 18;
    u64 up = x.e > 0 ? x.e : 0, down = x.e < 0 ? -x.e : 0, bits = up & 31;
    struct large l = {limbs, 0, up / 32 + 3, 0};
    *limb(&l, up / 32) = x.m << bits;
    *limb(&l, up / 32 + 1) = x.m << bits >> 32;
    *limb(&l, up / 32 + 2) = x.m >> 32 << bits >> 32;
    scale(&l, 10 - d.first);
    /* eleven digits or twelve */
    u64 at = down / 32, wide = *limb(&l, at) | (u64)*limb(&l, at + 1) << 32, shift = down & 31;
    l.has_rest |= (wide & ((1ull << shift) - 1)) != 0;
    wide = wide >> shift | (u64)*limb(&l, at + 2) << 1 << (63 - shift);
    for (u64 i = 0; i < at; i++)
        l.has_rest |= *limb(&l, i) != 0;
    u64 unit = wide >= 100000000000 ? 100 : 10, cut = wide % unit;
    d.first += unit == 100;
    d.all = wide / unit;
    d.all += 2 * cut > unit || (2 * cut == unit && (l.has_rest || (d.all & 1)));
    if (d.all == 10000000000) {
        d.all /= 10;
        d.first++;
    }
    return d;
}

/* A text that is written; it stays below its mask, which is larger. */
struct writer {
    u8 *text;
    u64 at;
};

INLINE void put(struct writer *w, u64 c)
{
    u64 at = w->at;
    BOUND(at, 31);
    w->text[at] = c;
    w->at = at + 1;
}

/* The number as C's %.10g: the text's length. */
INLINE u64 write(u8 *text, u8 *limbs, struct number x)
{
    struct writer w = {text, 0};
    u8 digit[16];
    struct digits d = digits_of(limbs, x);
    u64 count = 1; /* without the zeros at the end */
    for (u64 i = 10; i > 0; i--) {
        u64 at = i - 1;
        BOUND(at, 15);
        digit[at] = '0' + d.all % 10;
        if (d.all % 10 && count < i)
            count = i;
        d.all /= 10;
    }
    u64 is_power = d.first < -4 || d.first >= 10, power = d.first < 0 ? -d.first : d.first;
    u64 whole = is_power ? 1 : d.first < 0 ? 0 : power + 1;
    if (x.is_minus)
        put(&w, '-');
    if (whole == 0) {
        put(&w, '0');
        put(&w, '.');
        for (u64 i = 1; i < power; i++)
            put(&w, '0');
    }
    for (u64 i = 0; i < whole || i < count; i++) {
        u64 at = i;
        BOUND(at, 15);
        if (i > 0 && i == whole)
            put(&w, '.');
        put(&w, digit[at]);
    }
    if (is_power) {
        put(&w, 'e');
        put(&w, d.first < 0 ? '-' : '+');
        if (power > 99)
            put(&w, '0' + power / 100);
        put(&w, '0' + power / 10 % 10);
        put(&w, '0' + power % 10);
    }
    return w.at;
}

/* { string key, string number } */
INLINE s64 change(const u8 *in, u64 in_len, u8 *out, int is_product)
{
    struct decoder d = decode_from(in, in_len, IN_MASK);
    struct span key = decode_string(&d, KEY, 127), given = decode_string(&d, TEXT, 127);
    if (d.error)
        return d.error;
    struct number y = parse(in + given.at, given.length, out + LARGE, -EINVAL);
    if (y.error)
        return y.error;
    s64 got = cls_map_get(in + key.at, key.length, out + THERE, TEXT);
    if (got == -ENOENT || got == -ENODATA)
        got = 0;
    if (got < 0)
        return got == -ERANGE ? -EBADMSG : got;
    struct number x = parse(out + THERE, got, out + LARGE + 4 * LIMBS, -EBADMSG);
    if (x.error)
        return x.error;
    struct number z = is_product ? product(x, y) : sum(x, y);
    if (z.error)
        return z.error;
    u64 length = write(out + NEW, out + LARGE + 8 * LIMBS, z);
    BOUND(length, 31);
    return cls_map_set(in + key.at, key.length, out + NEW, length);
}

METHOD(add, rw, IN_CAP, OUT_CAP)
{
    return change(in, in_len, out, 0);
}

METHOD(mul, rw, IN_CAP, OUT_CAP)
{
    return change(in, in_len, out, 1);
}
