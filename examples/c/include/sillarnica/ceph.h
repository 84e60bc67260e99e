/* Ceph's wire encoding (include/encoding.h, denc.h), for methods that speak it: numbers are little-endian; a string is its length
   as a u32 and its bytes; a list, a set or a map is a u32 and its elements; a versioned struct is u8 version, u8 the oldest
   version that reads it, u32 the length of what follows.

   Each place is bounded by a mask that clang can't delete, so the verifier sees that it is within, in a loop too. Nothing here
   loops. */
#ifndef SILLARNICA_CEPH_H
#define SILLARNICA_CEPH_H

#include "class.h"

/* What is read: the bytes from `at` to `end`. A place is at most `mask`, 2^n - 1, and the memory at `bytes` has mask + 1 bytes and
   after them room for the longest read: a string's most bytes, rounded up to words, or 8. The first error stays: -EINVAL of bytes
   that end too early, -E2BIG past a bound. After an error what is read has no meaning, but is read within the memory. */
struct decoder {
    const u8 *bytes;
    u64 at, end, mask;
    s64 error;
};

/* A string that was read: its place in the decoder's bytes, and its length. */
struct span {
    u64 at, length;
};

/* A versioned struct that is read: its version, and where it ends. */
struct part {
    u64 version, end;
};

INLINE void decode_fails(struct decoder *d, s64 error)
{
    d->error = d->error ? d->error : error;
}

INLINE struct decoder decode_from(const u8 *bytes, u64 length, u64 mask)
{
    struct decoder d = {bytes, 0, length, mask, 0};
    if (length > mask + 1) {
        d.error = -E2BIG;
        d.end = 0;
    }
    return d;
}

/* The place of the next `size` bytes. */
INLINE u64 decode_place(struct decoder *d, u64 size)
{
    u64 at = d->at;
    if (at + size > d->end)
        decode_fails(d, -EINVAL);
    else
        d->at = at + size;
    BOUND(at, d->mask);
    return at;
}

INLINE u64 decode_u8(struct decoder *d) { return d->bytes[decode_place(d, 1)]; }
INLINE u64 decode_u32(struct decoder *d) { return *(const word32 *)(d->bytes + decode_place(d, 4)); }
INLINE u64 decode_u64(struct decoder *d) { return *(const word64 *)(d->bytes + decode_place(d, 8)); }

/* A string of at most `most` bytes; `mask` is 2^n - 1 and at least that. */
INLINE struct span decode_string(struct decoder *d, u64 most, u64 mask)
{
    struct span s = {0, decode_u32(d)};
    if (d->at + s.length > d->end) {
        decode_fails(d, -EINVAL);
        s.length = 0;
    }
    if (s.length > most) {
        decode_fails(d, -E2BIG);
        s.length = 0;
    }
    BOUND(s.length, mask);
    s.at = d->at;
    d->at += s.length;
    BOUND(s.at, d->mask);
    return s;
}

/* How many elements follow, of at most `most`. */
INLINE u64 decode_count(struct decoder *d, u64 most)
{
    u64 count = decode_u32(d);
    if (count > most) {
        decode_fails(d, -E2BIG);
        count = 0;
    }
    return count;
}

/* The beginning of a struct that readers of `version` understand. */
INLINE struct part decode_start(struct decoder *d, u64 version)
{
    struct part p = {decode_u8(d), 0};
    u64 oldest = decode_u8(d), length = decode_u32(d);
    p.end = d->at + length;
    if (oldest > version || p.end > d->end) {
        decode_fails(d, -EINVAL);
        p.end = d->at;
    }
    return p;
}

/* Its end: fields of later versions are passed over. */
INLINE void decode_finish(struct decoder *d, struct part p)
{
    if (d->at > p.end)
        decode_fails(d, -EINVAL);
    else
        d->at = p.end;
}

/* What is written: the bytes before `at`. Its places are masked as a decoder's, so whoever writes keeps `at` below the mask: by a
   bound of the whole before, or with so large a mask that `at` can be compared with the bound after. */
struct encoder {
    u8 *bytes;
    u64 at, mask;
};

INLINE u64 encode_place(struct encoder *e, u64 size)
{
    u64 at = e->at;
    BOUND(at, e->mask);
    e->at = at + size;
    return at;
}

INLINE void encode_u8(struct encoder *e, u64 value) { e->bytes[encode_place(e, 1)] = value; }
INLINE void encode_u32(struct encoder *e, u64 value) { *(word32 *)(e->bytes + encode_place(e, 4)) = value; }
INLINE void encode_u64(struct encoder *e, u64 value) { *(word64 *)(e->bytes + encode_place(e, 8)) = value; }

/* `length` bytes, copied by whole words: both memories have room for 8 * words bytes. */
INLINE void encode_bytes(struct encoder *e, const u8 *from, u64 length, int words)
{
    copy_words(e->bytes + encode_place(e, length), from, words);
}

INLINE void encode_string(struct encoder *e, const u8 *from, u64 length, int words)
{
    encode_u32(e, length);
    encode_bytes(e, from, length, words);
}

/* A struct's beginning; the answer is for encode_finish, which writes its length. */
INLINE u64 encode_start(struct encoder *e, u64 version, u64 oldest)
{
    encode_u8(e, version);
    encode_u8(e, oldest);
    return encode_place(e, 4);
}

INLINE void encode_finish(struct encoder *e, u64 place)
{
    u64 length = e->at - place - 4;
    BOUND(place, e->mask);
    *(word32 *)(e->bytes + place) = length;
}

/* A string of at most 64 bytes to compare others with, in the order of a std::string: its words with the first byte highest, zeros
   after its end. So it is read once. */
struct text {
    u64 word[8], length;
};

INLINE void text_of(struct text *t, const u8 *from, u64 length)
{
    UNROLL for (int i = 0; i < 8; i++)
        t->word[i] = __builtin_bswap64(first_bytes(((const word64 *)from)[i], (s64)length - 8 * i));
    t->length = length;
}

/* -1, 0 or 1: whether the string at `from`, where 64 bytes are, is below the text, the same, or above. */
INLINE s64 text_order(const struct text *t, const u8 *from, u64 length)
{
    s64 order = length == t->length ? 0 : length < t->length ? -1 : 1;
    UNROLL for (int i = 7; i >= 0; i--) {
        u64 word = __builtin_bswap64(first_bytes(((const word64 *)from)[i], (s64)length - 8 * i));
        if (word != t->word[i])
            order = word < t->word[i] ? -1 : 1;
    }
    return order;
}

#endif
