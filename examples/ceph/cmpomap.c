#include <sillarnica/ceph.h>

/* Ceph's class cmpomap: values of the omap are compared with given ones, as strings or as numbers, and then set or
   removed. The keys are taken in the order in which they are given. It has loops, so it takes a budget. */
#define KEYS 256
#define KEY 64
#define VALUE 4096
#define IN_MASK 32767
#define IN_CAP (IN_MASK + 1 + 2 * VALUE) /* a value's place and its length are bounded each by itself */

enum { STRING = 1, NUMBER = 2 };
enum { EQ = 1, NE, GT, GTE, LT, LTE };

/* One operation: { u8 mode, u8 comparison, map of strings, optional string for keys that aren't there }. */
struct operation {
    struct decoder d; /* at the first pair */
    u64 mode, comparison, count, has_other;
    struct span other;
};

/* 1, 0, or -EINVAL of no such comparison; `order` is -1, 0 or 1. */
INLINE s64 holds(u64 comparison, s64 order)
{
    switch (comparison) {
    case EQ: return order == 0;
    case NE: return order != 0;
    case GT: return order > 0;
    case GTE: return order >= 0;
    case LT: return order < 0;
    case LTE: return order <= 0;
    default: return -EINVAL;
    }
}

/* Reads all of it, and leaves the decoder at the first pair. */
INLINE s64 begin(struct operation *o, const u8 *in, u64 in_len, int has_default)
{
    struct decoder d = decode_from(in, in_len, IN_MASK);
    struct part all = decode_start(&d, 1);
    o->mode = decode_u8(&d);
    o->comparison = decode_u8(&d);
    o->count = decode_count(&d, KEYS);
    o->d = d;
    for (u64 i = 0; i < o->count; i++) {
        decode_string(&d, KEY, 127);
        decode_string(&d, VALUE, 2 * VALUE - 1);
        if (d.error)
            return d.error;
    }
    o->has_other = 0;
    o->other.at = o->other.length = 0;
    if (has_default) {
        o->has_other = decode_u8(&d) != 0;
        if (o->has_other)
            o->other = decode_string(&d, VALUE, 2 * VALUE - 1);
    }
    decode_finish(&d, all);
    return d.error;
}

/* Whether the given value compares so with the one at `there`: 1, 0, -EINVAL, or -EIO if what is there is no number. */
INLINE s64 compare(const struct operation *o, const u8 *given, u64 length, const u8 *there, u64 there_length)
{
    if (o->mode == STRING)
        return holds(o->comparison, cls_compare(given, length, there, there_length));
    if (o->mode != NUMBER || length < 8)
        return -EINVAL;
    if (there_length > 0 && there_length < 8)
        return -EIO;
    u64 x = *(const word64 *)given, y = there_length ? *(const word64 *)there : 0;
    return holds(o->comparison, x < y ? -1 : x > y);
}

struct pair {
    struct span key, value;
    s64 result; /* of the comparison; -ENODATA if there is nothing to compare with */
};

/* The next pair, compared with what is there, or with the other value. There is room for a value in the output. */
INLINE struct pair next(struct operation *o, u8 *out)
{
    struct pair p = {decode_string(&o->d, KEY, 127), decode_string(&o->d, VALUE, 2 * VALUE - 1), 0};
    const u8 *given = o->d.bytes + p.value.at;
    s64 got = cls_map_get(o->d.bytes + p.key.at, p.key.length, out, VALUE);
    if (got == -ERANGE)
        p.result = -E2BIG;
    else if (got >= 0)
        p.result = compare(o, given, p.value.length, out, got);
    else if (o->has_other)
        p.result = compare(o, given, p.value.length, o->d.bytes + o->other.at, o->other.length);
    else
        p.result = -ENODATA;
    return p;
}

/* Sets or removes the keys of which the comparison holds; only a set one is compared with the other value. */
INLINE s64 change(const u8 *in, u64 in_len, u8 *out, int sets)
{
    struct operation o;
    s64 error = begin(&o, in, in_len, sets);
    if (error)
        return error;
    for (u64 i = 0; i < o.count; i++) {
        struct pair p = next(&o, out);
        if (p.result < 0 && p.result != -ENODATA && p.result != -EIO)
            return p.result;
        if (p.result > 0) {
            s64 done = sets ? cls_map_set(in + p.key.at, p.key.length, in + p.value.at, p.value.length)
                            : cls_map_rm(in + p.key.at, p.key.length);
            if (done < 0)
                return done;
        }
    }
    return 0;
}

METHOD(cmp_rm_keys, rw, IN_CAP, VALUE)
{
    return change(in, in_len, out, 0);
}

METHOD(cmp_set_vals, rw, IN_CAP, VALUE)
{
    return change(in, in_len, out, 1);
}

METHOD(cmp_vals, r, IN_CAP, VALUE)
{
    struct operation o;
    s64 error = begin(&o, in, in_len, 1);
    if (error)
        return error;
    for (u64 i = 0; i < o.count; i++) {
        struct pair p = next(&o, out);
        if (p.result <= 0)
            return p.result == 0 || p.result == -ENODATA ? -ECANCELED : p.result;
    }
    return 0;
}
