#include <sillarnica/ceph.h>

/* Ceph's class refcount: the xattr "refcount" holds { map of tags to true, set of retired tags }, version 2. The
   object goes with its last reference. It has loops, so it takes a budget.

   The output is the memory that a method works in: the value as it is, the value that it becomes, and a table of
   places. What is at a place may be a tag or, in the new value, all that follows. */
#define VALUE 4096
#define MASK 4095 /* of a place, and of a length of what doesn't begin a value */
#define SET 128 /* tags that `set` takes */
#define XATTR "refcount", 8
#define IN_CAP (2 * (MASK + 1) + 4)
#define OLD 0
#define NEW (2 * (MASK + 1))
#define TABLE (2 * NEW)
#define OUT_CAP (TABLE + 3 * 4 * SET)

/* Copies between two parts of the memory. */
INLINE void move(u8 *to, u64 to_at, const u8 *from, u64 from_at, u64 length)
{
    BOUND(to_at, MASK);
    BOUND(from_at, MASK);
    BOUND(length, MASK);
    cls_copy(to + to_at, MASK, from + from_at, length);
}

/* { string tag, bool implicit } */
struct request {
    struct span tag;
    u64 is_implicit;
    s64 error;
};

INLINE struct request read_request(const u8 *in, u64 in_len)
{
    struct request r;
    struct decoder d = decode_from(in, in_len, MASK);
    struct part all = decode_start(&d, 1);
    r.tag = decode_string(&d, MASK, MASK);
    r.is_implicit = decode_u8(&d) != 0;
    decode_finish(&d, all);
    r.error = d.error;
    return r;
}

/* The value, to `to`: its length or an error. Of an object without one: no reference, or an implicit one without a
   tag. */
INLINE s64 load(u8 *to, u64 is_implicit)
{
    s64 got = cls_getxattr(XATTR, to, VALUE);
    if (got == -ERANGE)
        return -E2BIG;
    if (got != -ENODATA)
        return got;
    to[0] = 2;
    to[1] = 1;
    *(word32 *)(to + 2) = 8 + 5 * is_implicit;
    to[6] = to[14] = is_implicit;
    return 14 + 5 * is_implicit;
}

/* Where a tag is among others in their order, or would be if its size is 0. */
struct place {
    u64 at, size;
};

/* A list of tags, each with `more` bytes after it: how many there are, and where one is. With `wild` the first one
   will do, if it has no bytes and the tag isn't there. */
INLINE struct place find(struct decoder *d, u64 count, u64 more, const u8 *in, struct span tag, u64 wild)
{
    struct place p = {d->at, 0};
    for (u64 i = 0; i < count; i++) {
        u64 first = d->at;
        struct span s = decode_string(d, MASK, MASK);
        decode_place(d, more);
        if (d->error)
            break;
        s64 order = cls_compare(in + tag.at, tag.length, d->bytes + s.at, s.length);
        if (order == 0 || (wild && i == 0 && s.length == 0)) {
            p.at = first;
            p.size = d->at - first;
        } else if (order > 0 && p.size == 0) {
            p.at = d->at;
        }
    }
    return p;
}

/* What a value holds, of a tag: its reference or the implicit one, and it among the retired tags. Both lists end at
   `end`. */
struct found {
    u64 count, retired, set_at, end;
    struct place one, among;
    s64 error;
};

/* A value of version 1 has no retired tags. It becomes one of version 2. */
INLINE struct found find_both(u8 *out, u64 size, const u8 *in, struct request r, u64 wild)
{
    struct found f = {0};
    struct decoder d = decode_from(out + OLD, size, MASK);
    struct part all = decode_start(&d, 2);
    f.count = decode_u32(&d);
    f.one = find(&d, f.count, 1, in, r.tag, wild);
    f.set_at = d.at;
    if (all.version < 2) {
        decode_finish(&d, all);
        f.end = f.among.at = f.set_at + 4;
        f.among.size = 0;
        BOUND(f.set_at, MASK);
        *(word32 *)(out + OLD + f.set_at) = 0;
    } else {
        f.retired = decode_u32(&d);
        f.among = find(&d, f.retired, 0, in, r.tag, 0);
        f.end = d.at;
        decode_finish(&d, all);
    }
    f.error = d.error == -EINVAL ? -EIO : d.error;
    return f;
}

/* The beginning of a value of so many bytes. */
INLINE s64 save(u8 *value, u64 size, u64 count)
{
    if (size > VALUE)
        return -E2BIG;
    value[0] = 2;
    value[1] = 1;
    *(word32 *)(value + 2) = size - 6;
    *(word32 *)(value + 6) = count;
    return cls_setxattr(XATTR, value, size);
}

METHOD(get, rw, IN_CAP, OUT_CAP)
{
    struct request r = read_request(in, in_len);
    if (r.error)
        return r.error;
    s64 got = load(out + OLD, r.is_implicit);
    if (got < 0)
        return got;
    struct found f = find_both(out, got, in, r, 0);
    if (f.error)
        return f.error;
    if (f.one.size) {
        u64 last = f.one.at + f.one.size - 1;
        BOUND(last, MASK);
        out[OLD + last] = 1;
        return save(out + OLD, f.end, f.count);
    }
    u64 size = f.end + 5 + r.tag.length;
    if (size > VALUE)
        return -E2BIG;
    move(out + NEW, 0, out + OLD, 0, f.one.at);
    struct encoder e = {out + NEW, f.one.at, MASK};
    encode_u32(&e, r.tag.length);
    move(out + NEW, encode_place(&e, r.tag.length), in, r.tag.at, r.tag.length);
    encode_u8(&e, 1);
    move(out + NEW, e.at, out + OLD, f.one.at, f.end - f.one.at);
    return save(out + NEW, size, f.count + 1);
}

METHOD(put, rw, IN_CAP, OUT_CAP)
{
    struct request r = read_request(in, in_len);
    if (r.error)
        return r.error;
    s64 got = load(out + OLD, r.is_implicit);
    if (got < 0)
        return got;
    struct found f = find_both(out, got, in, r, r.is_implicit);
    if (f.error)
        return f.error;
    if (f.count == 0)
        return -EINVAL;
    if (f.one.size == 0 || f.among.size)
        return 0;
    if (f.count == 1)
        return cls_remove();
    u64 size = f.end - f.one.size + 4 + r.tag.length, after = f.one.at + f.one.size;
    if (size > VALUE)
        return -E2BIG;
    BOUND(f.set_at, MASK);
    *(word32 *)(out + OLD + f.set_at) = f.retired + 1;
    move(out + NEW, 0, out + OLD, 0, f.one.at);
    move(out + NEW, f.one.at, out + OLD, after, f.among.at - after);
    struct encoder e = {out + NEW, f.among.at - f.one.size, MASK};
    encode_u32(&e, r.tag.length);
    move(out + NEW, encode_place(&e, r.tag.length), in, r.tag.at, r.tag.length);
    move(out + NEW, e.at, out + OLD, f.among.at, f.end - f.among.at);
    return save(out + NEW, size, f.count - 1);
}

/* { bool implicit } to { list of tags } */
METHOD(read, r, IN_CAP, OUT_CAP)
{
    struct span none = {0, 0};
    struct decoder d = decode_from(in, in_len, MASK);
    struct part all = decode_start(&d, 1);
    u64 is_implicit = decode_u8(&d) != 0;
    decode_finish(&d, all);
    if (d.error)
        return d.error;
    s64 got = load(out + NEW, is_implicit);
    if (got < 0)
        return got;
    d = decode_from(out + NEW, got, MASK);
    all = decode_start(&d, 2);
    struct encoder e = {out, 0, MASK};
    u64 count = decode_u32(&d), start = encode_start(&e, 1, 1);
    encode_u32(&e, count);
    for (u64 i = 0; i < count; i++) {
        struct span s = decode_string(&d, MASK, MASK);
        decode_u8(&d);
        if (d.error)
            break;
        /* its length and its bytes */
        move(out, encode_place(&e, 4 + s.length), out + NEW, s.at - 4, 4 + s.length);
    }
    if (all.version >= 2)
        find(&d, decode_u32(&d), 0, in, none, 0);
    decode_finish(&d, all);
    if (d.error)
        return d.error == -EINVAL ? -EIO : d.error;
    encode_finish(&e, start);
    return cls_out_len(encode_place(&e, 0));
}

/* The table has the places of tags in the input, each with its length before it, in the order of their bytes. */
INLINE word32 *entry(u8 *out, u64 n)
{
    BOUND(n, 2 * SET - 1);
    return (word32 *)(out + TABLE) + n;
}

/* Puts a tag among so many others, if it isn't there. How many there are then. */
INLINE u64 insert(u8 *out, u64 refs, const u8 *in, struct span tag)
{
    u64 low = 0, high = refs, is_there = 0;
    while (low < high) {
        u64 middle = (low + high) / 2, at = *entry(out, middle);
        BOUND(at, MASK);
        u64 length = *(const word32 *)(in + at);
        BOUND(length, MASK);
        s64 order = cls_compare(in + tag.at, tag.length, in + at + 4, length);
        is_there |= order == 0;
        if (order <= 0)
            high = middle;
        else
            low = middle + 1;
    }
    if (is_there)
        return refs;
    u64 left = 4 * (refs - low);
    BOUND(left, 4 * SET - 1);
    cls_copy(entry(out, low + 1), 4 * SET, entry(out, low), left);
    *entry(out, low) = tag.at - 4;
    return refs + 1;
}

/* { list of tags } */
METHOD(set, rw, IN_CAP, OUT_CAP)
{
    struct decoder d = decode_from(in, in_len, MASK);
    struct part all = decode_start(&d, 1);
    u64 count = decode_count(&d, SET), refs = 0;
    for (u64 i = 0; i < count; i++) {
        struct span s = decode_string(&d, MASK, MASK);
        if (d.error)
            break;
        refs = insert(out, refs, in, s);
    }
    decode_finish(&d, all);
    if (d.error)
        return d.error;
    if (refs == 0)
        return cls_remove();
    struct encoder e = {out + NEW, 10, MASK};
    for (u64 i = 0; i < refs; i++) {
        u64 at = *entry(out, i);
        BOUND(at, MASK);
        u64 size = 4 + *(const word32 *)(in + at);
        if (e.at + size + 5 > VALUE)
            return -E2BIG;
        move(out + NEW, encode_place(&e, size), in, at, size);
        encode_u8(&e, 1);
    }
    encode_u32(&e, 0);
    return save(out + NEW, e.at, refs);
}
