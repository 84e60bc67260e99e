#include <sillarnica/ceph.h>

/* Ceph's class version: the xattr "ceph.objclass.version" holds a number and a tag. A condition that doesn't hold is
   -ECANCELED. A new version's tag is 24 random letters; where a call has no random bytes, they are made of the
   caller's number. It has a loop over the conditions, so it takes a budget.

   The output is the memory that a method works in: the value as it is kept, and what is written. */
#define VALUE 4096
#define MASK 4095 /* of a place in a value or in the input */
#define TAG 18 /* where a tag lies in a value */
#define XATTR "ceph.objclass.version", 21
#define IN_CAP (2 * (MASK + 1))
#define ANSWER 0 /* of `read`: six bytes, and the value */
#define KEPT 6
#define OUT_CAP (KEPT + TAG + 2 * (MASK + 1))

enum { NONE, EQ, GT, GE, LT, LE, TAG_EQ, TAG_NE };

/* struct obj_version, version 1: u64 and a string */
struct version {
    u64 number;
    struct span tag;
};

INLINE struct version decode_version(struct decoder *d)
{
    struct version v;
    struct part p = decode_start(d, 1);
    v.number = decode_u64(d);
    v.tag = decode_string(d, MASK, MASK);
    decode_finish(d, p);
    return v;
}

/* What an object has. */
struct stored {
    struct version its; /* the tag is at a place of `out` */
    u64 is_absent;
    s64 got; /* the value's length, 0 of none, or an error */
};

INLINE struct stored load(u8 *out)
{
    struct stored s = {{0, {TAG, 0}}, 0, 0};
    s.got = cls_getxattr(XATTR, out + KEPT, VALUE);
    s.is_absent = s.got == -ENOENT;
    if (s.got == -ENOENT || s.got == -ENODATA) {
        s.got = 0;
    } else if (s.got < 0) {
        s.got = s.got == -ERANGE ? -E2BIG : s.got;
    } else {
        struct decoder d = decode_from(out + KEPT, s.got, MASK);
        s.its = decode_version(&d);
        if (d.error)
            s.got = d.error == -EINVAL ? -EIO : d.error;
    }
    return s;
}

/* Writes a version, whose tag may lie where it belongs: how long it is. */
INLINE u64 put_version(u8 *out, u64 number, const u8 *tag, u64 length)
{
    u8 *to = out + KEPT;
    cls_copy(to + TAG, MASK, tag, length);
    to[0] = to[1] = 1;
    *(word32 *)(to + 2) = 12 + length;
    *(word64 *)(to + 6) = number;
    *(word32 *)(to + 14) = length;
    return TAG + length;
}

INLINE s64 save(u8 *out, u64 number, const u8 *tag, u64 length)
{
    u64 size = put_version(out, number, tag, length);
    return size > VALUE ? -E2BIG : cls_setxattr(XATTR, out + KEPT, size);
}

/* 24 letters, as base64 has them, of 16 random bytes and the first two of them again; or of the caller's number,
   eight and these again. */
INLINE void make_tag(struct stored *s, u8 *tag)
{
    static const u8 letters[64] = "ABCDEFGHIJKLMNOPQRSTUVWXYZabcdefghijklmnopqrstuvwxyz0123456789+/";
    u8 drawn[24];
    u64 number = cls_caller();
    s->its.number = 1;
    s->its.tag.length = 24;
    if (call_random(drawn) < 0) {
        for (u64 i = 0; i < 24; i++)
            tag[i] = 'a' + (number >> 4 * (7 - (i & 7)) & 15);
        return;
    }
    drawn[16] = drawn[0];
    drawn[17] = drawn[1];
    for (u64 i = 0; i < 6; i++) {
        u64 bits = (u64)drawn[3 * i] << 16 | (u64)drawn[3 * i + 1] << 8 | drawn[3 * i + 2];
        for (u64 j = 0; j < 4; j++) {
            u64 letter = bits >> 6 * (3 - j) & 63;
            BOUND(letter, 63);
            tag[4 * i + j] = letters[letter];
        }
    }
}

INLINE u64 holds(u64 cond, u64 kept, u64 number, u64 same_tag)
{
    u64 order = kept < number ? 1 : kept == number ? 2 : 4; /* below, same, above */
    switch (cond) {
    case EQ: return order == 2 && same_tag;
    case GT: return order == 4;
    case GE: return order != 1;
    case LT: return order == 1;
    case LE: return order != 4;
    case TAG_EQ: return same_tag;
    case TAG_NE: return !same_tag;
    default: return 1;
    }
}

/* The input, { obj_version, list of { obj_version, u32 } }: 0, what is wrong with it, or -ECANCELED. */
INLINE s64 check(const u8 *in, u64 in_len, const struct stored *s, const u8 *out)
{
    struct decoder d = decode_from(in, in_len, MASK);
    u64 held = 1;
    struct part all = decode_start(&d, 1);
    decode_version(&d);
    u64 count = decode_u32(&d);
    for (u64 i = 0; i < count; i++) {
        struct part p = decode_start(&d, 1);
        struct version v = decode_version(&d);
        u64 cond = decode_u32(&d);
        decode_finish(&d, p);
        if (d.error)
            break;
        s64 order = cls_compare(in + v.tag.at, v.tag.length, out + KEPT + s->its.tag.at, s->its.tag.length);
        held &= holds(cond, s->its.number, v.number, order == 0);
    }
    decode_finish(&d, all);
    if (d.error)
        return d.error;
    if (s->got < 0)
        return s->got;
    return held ? 0 : -ECANCELED;
}

METHOD(check_conds, r, IN_CAP, OUT_CAP)
{
    struct stored s = load(out);
    return check(in, in_len, &s, out);
}

INLINE s64 increment(const u8 *in, u64 in_len, u8 *out)
{
    struct stored s = load(out);
    if (s.got == 0)
        make_tag(&s, out + KEPT + TAG);
    s64 refused = check(in, in_len, &s, out);
    if (s.is_absent && (refused == 0 || refused == -ECANCELED))
        return WITH_OBJECT;
    if (refused)
        return refused;
    return save(out, s.its.number + 1, out + KEPT + s.its.tag.at, s.its.tag.length);
}

METHOD(inc, rw, IN_CAP, OUT_CAP)
{
    return increment(in, in_len, out);
}

METHOD(inc_conds, rw, IN_CAP, OUT_CAP)
{
    return increment(in, in_len, out);
}

/* { obj_version } */
METHOD(read, r, IN_CAP, OUT_CAP)
{
    struct stored s = load(out);
    if (s.got < 0)
        return s.got;
    u64 size = put_version(out, s.its.number, out + KEPT + s.its.tag.at, s.its.tag.length);
    out[ANSWER] = out[ANSWER + 1] = 1;
    *(word32 *)(out + ANSWER + 2) = size;
    return cls_out_len(KEPT + size);
}

METHOD(set, rw, IN_CAP, OUT_CAP)
{
    struct decoder d = decode_from(in, in_len, MASK);
    struct part all = decode_start(&d, 1);
    struct version v = decode_version(&d);
    decode_finish(&d, all);
    if (d.error)
        return d.error;
    return save(out, v.number, in + v.tag.at, v.tag.length);
}
