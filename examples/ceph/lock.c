#include <sillarnica/ceph.h>

/* Ceph's class lock: the xattr "lock.NAME" holds { map of lockers, u8 type, string tag }; a locker's key is its
   entity and a cookie, and its value when it expires, its address and a description. Where a call has no time, as
   outside of Ceph, nothing expires, and a duration is -EOPNOTSUPP. It has loops, so it takes a budget.

   The output is the memory that a method works in: the value of the lockers that haven't expired, the value that it
   becomes, and the value as it is kept. */
#define NAME 59 /* with "lock." the longest name of an xattr */
#define VALUE 4096
#define MASK 4095 /* of a place, and of the length of a string: a cookie, a tag or a description */
#define IN_CAP (2 * (MASK + 1))

/* Parts of the output: a place in each is at most MASK, and what is copied there too. */
#define PART (2 * (MASK + 1))
#define LIVE 0
#define NEW PART
#define OLD (2 * PART)
#define OUT_CAP (3 * PART)
#define INFO OUT_CAP /* what a locker has besides its key, while set_cookie moves it */
#define FIRST 10 /* the place of the first locker */

enum { NONE, EXCLUSIVE, SHARED, EPHEMERAL };
enum { MAY_RENEW = 1, MUST_RENEW = 2 };
#define CLIENT 8 /* an entity's kind */
#define LEGACY 1 /* an address's */

/* Copies between two parts. */
INLINE void move(u8 *to, u64 to_at, const u8 *from, u64 from_at, u64 length)
{
    BOUND(to_at, MASK);
    BOUND(from_at, MASK);
    BOUND(length, MASK);
    cls_copy(to + to_at, MASK, from + from_at, length);
}

/* The name of a lock's xattr. */
struct key {
    u8 bytes[5 + 64 + 3];
    u64 length;
};

INLINE void key_of(struct key *k, const u8 *in, struct span name)
{
    __builtin_memcpy(k->bytes, "lock.", 5);
    copy_words(k->bytes + 5, in + name.at, 8);
    k->length = 5 + name.length;
}

/* A locker's key. The cookie lies in the input. */
struct locker {
    u64 kind, number;
    struct span cookie;
};

/* A locker's place among those that are live, where it would be if its size is 0. */
struct place {
    u64 at, size;
};

/* What a value holds: its live lockers, which end at `end`, and type and tag, which lies in the value as it is kept. */
struct found {
    struct place one, other;
    u64 count, end, type;
    struct span tag;
    s64 error;
};

INLINE void meet(struct place *p, s64 order, u64 first, u64 after)
{
    if (order == 0) {
        p->at = first;
        p->size = after - first;
    } else if (order < 0) {
        p->at = after;
    }
}

/* A time of day as Ceph's seconds and nanoseconds, seconds above. 0 of none. */
INLINE u64 moment(s64 now)
{
    return now < 0 ? 0 : (u64)now / 1000000000 << 32 | (u64)now % 1000000000;
}

/* The order of a locker's key and another: of the entity, then of the cookie. */
INLINE s64 key_order(const u8 *in, const struct locker *who, s64 by_entity, const u8 *cookie, u64 length)
{
    s64 order = cls_compare(cookie, length, in + who->cookie.at, who->cookie.length);
    return by_entity ? by_entity : order;
}

/* Takes the lockers that haven't expired over, and looks for one, or for two that differ in their cookies. A locker's
   key has nineteen bytes before its cookie: a struct's beginning, the kind, the number and the cookie's length. */
INLINE struct found live(u8 *out, u64 size, u64 now, const u8 *in, const struct locker *who, const struct locker *other)
{
    struct found f = {{FIRST, 0}, {FIRST, 0}, 0, FIRST, NONE, {0, 0}, 0};
    struct decoder d = decode_from(out + OLD, size, MASK);
    struct part all = decode_start(&d, 1);
    u64 count = decode_u32(&d);
    for (u64 i = 0; i < count; i++) {
        u64 first = d.at;
        const u8 *key = d.bytes + decode_place(&d, 15);
        u64 kind = key[6], number = *(const word64 *)(key + 7);
        struct span cookie = decode_string(&d, MASK, MASK);
        if (key[1] > 1 || *(const word32 *)(key + 2) != 13 + cookie.length)
            decode_fails(&d, -EINVAL);
        struct part its = decode_start(&d, 1);
        u64 expires = decode_u64(&d);
        decode_finish(&d, its);
        if (d.error)
            break;
        expires = expires << 32 | expires >> 32;
        if (expires != 0 && expires < now)
            continue;
        u64 after = f.end + d.at - first;
        move(out + LIVE, f.end, out + OLD, first, d.at - first);
        if (who) {
            s64 order = kind < who->kind ? -1 : kind > who->kind;
            if (order == 0)
                order = (s64)number < (s64)who->number ? -1 : number != who->number;
            meet(&f.one, key_order(in, who, order, out + OLD + cookie.at, cookie.length), f.end, after);
            if (other)
                meet(&f.other, key_order(in, other, order, out + OLD + cookie.at, cookie.length), f.end, after);
        }
        f.end = after;
        f.count++;
    }
    f.type = decode_u8(&d);
    f.tag = decode_string(&d, MASK, MASK);
    decode_finish(&d, all);
    f.error = d.error == -EINVAL ? -EIO : d.error;
    return f;
}

/* What the object has: -ENOENT if there is none. */
INLINE struct found load(const struct key *k, u8 *out, s64 now, const u8 *in, const struct locker *who,
                         const struct locker *other)
{
    s64 got = cls_getxattr(k->bytes, k->length, out + OLD, VALUE);
    if (got == -ENODATA) {
        out[OLD] = out[OLD + 1] = 1;
        out[OLD + 2] = 9;
        got = 15;
    }
    if (got < 0) {
        struct found f = {.error = got == -ERANGE ? -E2BIG : got};
        return f;
    }
    return live(out, got, moment(now), in, who, other);
}

/* A string, in memory that has room for one of MASK bytes after each place. */
INLINE void encode_text(struct encoder *e, const u8 *from, u64 length)
{
    encode_u32(e, length);
    cls_copy(e->bytes + encode_place(e, length), MASK, from, length);
}

/* The end of a value, after its lockers; its beginning, and how long it is. */
INLINE u64 finish(u8 *to, u64 end, u64 lockers, u64 type, const u8 *tag, u64 length)
{
    struct encoder e = {to, 0, MASK};
    encode_u8(&e, 1);
    encode_u8(&e, 1);
    encode_u32(&e, end + 5 + length - 6);
    encode_u32(&e, lockers);
    e.at = end;
    encode_u8(&e, type);
    encode_text(&e, tag, length);
    return end + 5 + length;
}

INLINE s64 save(const struct key *k, const u8 *value, u64 size)
{
    if (size > VALUE)
        return -E2BIG;
    return cls_setxattr(k->bytes, k->length, value, size);
}

/* Takes a locker out of those that are live. */
INLINE void take_out(u8 *out, struct found *f)
{
    move(out + LIVE, f->one.at, out + LIVE, f->one.at + f->one.size, f->end - f->one.at - f->one.size);
    f->end -= f->one.size;
    f->count--;
}

/* Takes a locker out of a lock; the object too, if the lock is one that goes with it. */
INLINE s64 remove_locker(const struct key *k, u8 *out, const u8 *in, const struct locker *who)
{
    struct found f = load(k, out, call_time(), in, who, 0);
    if (f.error)
        return f.error;
    if (f.one.size == 0)
        return -ENOENT;
    if (f.type == EPHEMERAL)
        return cls_remove();
    take_out(out, &f);
    return save(k, out + LIVE, finish(out + LIVE, f.end, f.count, f.type, out + OLD + f.tag.at, f.tag.length));
}

/* Whether the tag is the one that a value has. */
INLINE u64 has_tag(const u8 *in, struct span tag, const u8 *out, const struct found *f)
{
    return cls_compare(in + tag.at, tag.length, out + OLD + f->tag.at, f->tag.length) == 0;
}

/* { name, type, cookie, tag } */
METHOD(assert_locked, r, IN_CAP, OUT_CAP)
{
    struct key k;
    struct locker me = {CLIENT, cls_caller()};
    struct decoder d = decode_from(in, in_len, MASK);
    struct part all = decode_start(&d, 1);
    struct span name = decode_string(&d, NAME, 63), tag;
    u64 type = decode_u8(&d);
    me.cookie = decode_string(&d, MASK, MASK);
    tag = decode_string(&d, MASK, MASK);
    decode_finish(&d, all);
    if (d.error)
        return d.error;
    if (type < EXCLUSIVE || type > EPHEMERAL || name.length == 0)
        return -EINVAL;
    key_of(&k, in, name);
    struct found f = load(&k, out, call_time(), in, &me, 0);
    if (f.error)
        return f.error;
    return f.one.size && f.type == type && has_tag(in, tag, out, &f) ? 0 : -EBUSY;
}

/* { name, u8 kind, s64 number, cookie } */
METHOD(break_lock, rw, IN_CAP, OUT_CAP)
{
    struct key k;
    struct locker who;
    struct decoder d = decode_from(in, in_len, MASK);
    struct part all = decode_start(&d, 1);
    struct span name = decode_string(&d, NAME, 63);
    who.kind = decode_u8(&d);
    who.number = decode_u64(&d);
    who.cookie = decode_string(&d, MASK, MASK);
    decode_finish(&d, all);
    if (d.error)
        return d.error;
    key_of(&k, in, name);
    return remove_locker(&k, out, in, &who);
}

/* { name } to { lockers, type, tag }, which is encoded as it is kept */
METHOD(get_info, r, IN_CAP, OUT_CAP)
{
    struct key k;
    struct decoder d = decode_from(in, in_len, MASK);
    struct part all = decode_start(&d, 1);
    struct span name = decode_string(&d, NAME, 63);
    decode_finish(&d, all);
    if (d.error)
        return d.error;
    key_of(&k, in, name);
    struct found f = load(&k, out, call_time(), in, 0, 0);
    if (f.error)
        return f.error;
    u64 size = finish(out + LIVE, f.end, f.count, f.type, out + OLD + f.tag.at, f.tag.length);
    return size > VALUE ? -E2BIG : cls_out_len(size);
}

/* { list of names }, in the order of their bytes */
METHOD(list_locks, r, IN_CAP, MASK + 1 + 64)
{
    u8 name[64 + 5]; /* of an xattr: at first one that is below "lock." and above all others that are */
    struct encoder e = {out, 0, MASK};
    u64 start = encode_start(&e, 1, 1), count_at = encode_place(&e, 4), count = 0;
    s64 length = 64;
    __builtin_memcpy(name, "lock-", 5);
    __builtin_memset(name + 5, 255, 59);
    for (;;) {
        length = cls_xattr_next(name, length, name, 64);
        if (length < 5 || *(const word32 *)name != 0x6b636f6c || name[4] != '.') /* "lock." */
            break;
        encode_string(&e, name + 5, length - 5, 8);
        count++;
    }
    if (length < 0 && length != -ENODATA)
        return length;
    *(word32 *)(out + count_at) = count;
    encode_finish(&e, start);
    return cls_out_len(encode_place(&e, 0));
}

/* A client's address as a locker's is kept: of no kind that tells how it came. Where a call has none, it has no
   bytes. */
struct address {
    u8 bytes[64];
    u64 length;
};

INLINE void address_of(struct address *a)
{
    s64 got = call_address(a->bytes, 64);
    a->length = 19;
    if (got >= 11) {
        a->length = got;
    } else {
        __builtin_memset(a->bytes, 0, 24);
        a->bytes[0] = a->bytes[1] = a->bytes[2] = 1;
        a->bytes[3] = 12;
    }
    *(word32 *)(a->bytes + 7) = LEGACY;
}

/* When a lock of a duration that begins now expires; both have their seconds above. Ceph's sums don't pass 32 bits. */
INLINE u64 expiry(u64 now, u64 duration)
{
    const u64 most = 0xffffffff, second = 1000000000;
    u64 seconds = (now >> 32) + (duration >> 32), rest = (now & most) + (duration & most) & most;
    if (seconds > most)
        seconds = most;
    if (rest > second) {
        seconds += rest / second;
        rest %= second;
    }
    if (seconds > most)
        seconds = most;
    return seconds << 32 | rest;
}

/* A locker's key: { u8 kind, s64 number, cookie } */
INLINE void encode_key(struct encoder *e, const u8 *in, const struct locker *who)
{
    u64 start = encode_start(e, 1, 1);
    encode_u8(e, who->kind);
    encode_u64(e, who->number);
    encode_text(e, in + who->cookie.at, who->cookie.length);
    encode_finish(e, start);
}

/* A locker: { its key, { expiration, address, description } } */
INLINE void encode_locker(struct encoder *e, const u8 *in, const struct locker *me, u64 expires,
                          const struct address *a, struct span text)
{
    encode_key(e, in, me);
    u64 start = encode_start(e, 1, 1);
    encode_u64(e, expires << 32 | expires >> 32);
    encode_bytes(e, a->bytes, a->length, 8);
    encode_text(e, in + text.at, text.length);
    encode_finish(e, start);
}

/* { name, type, cookie, tag, description, u64 duration, u8 flags } */
METHOD(lock, rw, IN_CAP, OUT_CAP)
{
    struct key k;
    struct address address;
    struct locker me = {CLIENT, cls_caller()};
    struct decoder d = decode_from(in, in_len, MASK);
    struct part all = decode_start(&d, 1);
    struct span name = decode_string(&d, NAME, 63), tag, text;
    u64 type = decode_u8(&d);
    me.cookie = decode_string(&d, MASK, MASK);
    tag = decode_string(&d, MASK, MASK);
    text = decode_string(&d, MASK, MASK);
    u64 duration = decode_u64(&d), flags = decode_u8(&d) & (MAY_RENEW | MUST_RENEW), expires = 0;
    decode_finish(&d, all);
    if (d.error)
        return d.error;
    if (type < EXCLUSIVE || type > EPHEMERAL || name.length == 0 || flags == (MAY_RENEW | MUST_RENEW))
        return -EINVAL;
    key_of(&k, in, name);
    s64 now = call_time();
    struct found f = load(&k, out, now, in, &me, 0);
    if (f.error)
        return f.error == -ENOENT ? WITH_OBJECT : f.error;
    if (f.count && !has_tag(in, tag, out, &f))
        return -EBUSY;
    u64 gone = f.one.size, others = f.count - (gone != 0);
    if (gone ? flags == 0 : flags == MUST_RENEW)
        return gone ? -EEXIST : -ENOENT;
    if (others && (type != SHARED || f.type != SHARED))
        return -EBUSY;
    if (duration && now < 0)
        return -EOPNOTSUPP;
    if (duration)
        expires = expiry(moment(now), duration << 32 | duration >> 32);
    address_of(&address);
    u64 at = f.one.at, left = f.end - at - gone;
    if (at + left + 42 + address.length + me.cookie.length + text.length + tag.length > VALUE)
        return -E2BIG;
    move(out + NEW, 0, out + LIVE, 0, at);
    struct encoder e = {out + NEW, at, MASK};
    encode_locker(&e, in, &me, expires, &address, text);
    u64 end = encode_place(&e, 0);
    move(out + NEW, end, out + LIVE, at + gone, left);
    return save(&k, out + NEW, finish(out + NEW, end + left, others + 1, type, in + tag.at, tag.length));
}

/* { name, type, cookie, tag, new cookie } */
METHOD(set_cookie, rw, IN_CAP, OUT_CAP + PART)
{
    struct key k;
    struct locker me = {CLIENT, cls_caller()}, becomes = me;
    struct decoder d = decode_from(in, in_len, MASK);
    struct part all = decode_start(&d, 1);
    struct span name = decode_string(&d, NAME, 63), tag;
    u64 type = decode_u8(&d);
    me.cookie = decode_string(&d, MASK, MASK);
    tag = decode_string(&d, MASK, MASK);
    becomes.cookie = decode_string(&d, MASK, MASK);
    decode_finish(&d, all);
    if (d.error)
        return d.error;
    if (type < EXCLUSIVE || type > EPHEMERAL || name.length == 0)
        return -EINVAL;
    key_of(&k, in, name);
    struct found f = load(&k, out, call_time(), in, &me, &becomes);
    if (f.error)
        return f.error;
    if (f.one.size == 0 || f.type != type || !has_tag(in, tag, out, &f) || f.other.size)
        return -EBUSY;
    u64 at = f.other.at > f.one.at ? f.other.at - f.one.size : f.other.at, info = f.one.size - 19 - me.cookie.length;
    move(out + INFO, 0, out + LIVE, f.one.at + 19 + me.cookie.length, info);
    take_out(out, &f);
    if (f.end + 24 + becomes.cookie.length + info + f.tag.length > VALUE)
        return -E2BIG;
    move(out + NEW, 0, out + LIVE, 0, at);
    struct encoder e = {out + NEW, at, MASK};
    encode_key(&e, in, &becomes);
    u64 end = encode_place(&e, 0);
    move(out + NEW, end, out + INFO, 0, info);
    move(out + NEW, end + info, out + LIVE, at, f.end - at);
    end += info + f.end - at;
    return save(&k, out + NEW, finish(out + NEW, end, f.count + 1, type, out + OLD + f.tag.at, f.tag.length));
}

/* { name, cookie } */
METHOD(unlock, rw, IN_CAP, OUT_CAP)
{
    struct key k;
    struct locker me = {CLIENT, cls_caller()};
    struct decoder d = decode_from(in, in_len, MASK);
    struct part all = decode_start(&d, 1);
    struct span name = decode_string(&d, NAME, 63);
    me.cookie = decode_string(&d, MASK, MASK);
    decode_finish(&d, all);
    if (d.error)
        return d.error;
    key_of(&k, in, name);
    return remove_locker(&k, out, in, &me);
}
