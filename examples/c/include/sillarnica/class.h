/* What a method of a class may use in C: its arguments, the helpers, and what the verifier needs to see of lengths. Compiled by
   tools/radoscls-cc it becomes verified BPF; by any C compiler together with class_native.c, a plain program to test. */
#ifndef SILLARNICA_CLASS_H
#define SILLARNICA_CLASS_H

typedef unsigned char u8;
typedef unsigned short u16;
typedef unsigned int u32;
typedef unsigned long long u64;
typedef signed char s8;
typedef short s16;
typedef int s32;
typedef long long s64;

/* Functions of one's own are inlined into each method: there are no calls between functions. */
#define INLINE static inline __attribute__((always_inline))

/* Stands before a `for` with a constant bound: each round is written out, since no jump goes back. */
#ifdef __clang__
#define UNROLL _Pragma("clang loop unroll(full)")
#else
#define UNROLL
#endif

/* METHOD(name, FLAGS, IN, OUT) { .. } is a method. FLAGS is r (reads), w or rw (may write), as words; IN and OUT, the most
   bytes of input and output, are constant expressions of 0 to 65535 (4096 in rule sets 1 and 2), as sizeof (struct request). It gets
     in      IN bytes: the input followed by zeros, which can't be written
     in_len  how long the input is, at most IN
     out     OUT bytes, all zero; the output is as many of them as cls_out_len was told, none if it wasn't called
   and returns its code; a negative one is an error, and drops all that the method did. */
#ifndef METHOD_MOST
#define METHOD_MOST 65535
#endif
#define METHOD(name, flags, in_cap, out_cap)                                                                              \
    _Static_assert((in_cap) >= 0 && (in_cap) <= METHOD_MOST && (out_cap) >= 0 && (out_cap) <= METHOD_MOST,                \
                   "METHOD(" #name "): IN and OUT are 0 to 65535 bytes, in rule sets 1 and 2 to 4096");                   \
    METHOD_IS(name, METHOD_FLAGS_##flags, in_cap, out_cap)                                                                \
    static s64 method_##name(const u8 *in, u64 in_len, u8 *out)
#define METHOD_FLAGS_r 1
#define METHOD_FLAGS_w 2
#define METHOD_FLAGS_rw 3

#ifdef __bpf__

#include "errno.h"

/* Of C's library: clang writes them out for a small constant length, and no other way. cls_copy takes any length. */
void *memcpy(void *to, const void *from, unsigned long length);
void *memmove(void *to, const void *from, unsigned long length);
void *memset(void *to, int byte, unsigned long length);
int memcmp(const void *a, const void *b, unsigned long length);
unsigned long strlen(const char *text);

/* Two sections have what radoscls-cc wants to know: caps.NAME and method.NAME. */
#define METHOD_IS(name, flags, in_cap, out_cap)                                                                           \
    static const u16 caps_##name[3] __attribute__((section("caps." #name), used)) = {flags, in_cap, out_cap};             \
    __attribute__((section("method." #name), used)) static s64 method_##name(const u8 *in, u64 in_len, u8 *out);

/* A helper is called by its number. */
#define HELPER(id, name, ...) static s64 (*const name)(__VA_ARGS__) __attribute__((unused)) = (void *)id;

#else

#include <errno.h>
#include <string.h>

struct native_method {
    const char *name;
    u64 flags, in_cap, out_cap;
    s64 (*run)(const u8 *in, u64 in_len, u8 *out);
    struct native_method *next;
};
void native_add(struct native_method *method);
s64 native_call(const char *name, u64 by, const void *input, u64 in_len, void *output, u64 *output_len);

#define METHOD_IS(name, flags, in_cap, out_cap)                                                                           \
    static s64 method_##name(const u8 *in, u64 in_len, u8 *out);                                                          \
    __attribute__((constructor)) static void native_add_##name(void)                                                      \
    {                                                                                                                     \
        static struct native_method its = {#name, flags, in_cap, out_cap, method_##name, 0};                              \
        native_add(&its);                                                                                                 \
    }

#define HELPER(id, name, ...) s64 name(__VA_ARGS__);

#endif

/* The helpers. Each answers a number: what the line says, or the negative of an error number, and then it changed nothing.
   Names and keys have 1 to 64 bytes, values at most 4096, an object's data at most 65536. `room` is how much may be written.
   ENOENT: no object. ENODATA: no such xattr or key. ERANGE: longer than the room. */
HELPER(1, cls_stat, void)                                                     /* the length of the data */
HELPER(2, cls_read, u64 offset, void *to, u64 room)                           /* how many bytes there were from offset on */
HELPER(3, cls_write, u64 offset, const void *bytes, u64 length)               /* length; makes the object */
HELPER(4, cls_truncate, u64 length)                                           /* 0; cuts the data, or extends it by zeros */
HELPER(5, cls_remove, void)                                                   /* 0; the object is gone */
HELPER(6, cls_getxattr, const void *name, u64 length, void *to, u64 room)     /* the value's length */
HELPER(7, cls_setxattr, const void *name, u64 length, const void *value, u64 count) /* 0; makes the object */
HELPER(8, cls_rmxattr, const void *name, u64 length)                          /* 0 */
HELPER(9, cls_map_get, const void *key, u64 length, void *to, u64 room)       /* the value's length */
HELPER(10, cls_map_set, const void *key, u64 length, const void *value, u64 count) /* 0; makes the object */
HELPER(11, cls_map_rm, const void *key, u64 length)                           /* 0 */
HELPER(12, cls_map_next, const void *key, u64 length, void *to, u64 room)     /* the length of the least key above it */
HELPER(13, cls_out_len, u64 length)                                           /* 0; the output has so many bytes */
HELPER(14, cls_create, u64 exclusive)                                         /* 0; EEXIST if it is there and exclusive */
HELPER(15, cls_caller, void)                                                  /* the number of the client that calls */
/* Of rule set 3 alone, for lengths that aren't constants. */
HELPER(16, cls_compare, const void *a, u64 a_length, const void *b, u64 b_length) /* -1, 0, 1: a is below b, equal, above */
HELPER(17, cls_copy, void *to, u64 room, const void *from, u64 length)        /* length; the two may overlap */
HELPER(18, cls_xattr_next, const void *name, u64 length, void *to, u64 room)  /* the length of the least xattr above it */
#undef HELPER

/* The environment of a call, as a class that is installed in an OSD of Ceph has it: entries beside the object's xattrs, whose
   names begin with a NUL byte, read by cls_getxattr. Elsewhere there are none, and these answer -ENODATA; of an absent object
   -ENOENT (see WITH_OBJECT). They count among the 32 xattrs; a list of xattrs begins after them, from the two bytes 00 ff. But for
   the header none can be set or removed (docs/CEPH.md). */

INLINE s64 call_number(const char *name, u64 length)
{
    u64 value;
    s64 got = cls_getxattr(name, length, &value, sizeof value);
    return got < 0 ? got : (s64)value;
}

/* The time of day by the primary's clock, in nanoseconds since 1970. */
INLINE s64 call_time(void) { return call_number("\0time", 5); }

/* The version of the newest change in the object's placement group. */
INLINE s64 call_version(void) { return call_number("\0version", 8); }

/* 16 random bytes, the same through one call: 16. */
INLINE s64 call_random(void *to) { return cls_getxattr("\0random", 7, to, 16); }

/* The caller, as "client.4123": the length, at most 17. */
INLINE s64 call_entity(void *to, u64 room) { return cls_getxattr("\0entity", 7, to, room); }

/* The caller's address in Ceph's encoding: the length, 35 of IPv4 and 47 of others. */
INLINE s64 call_address(void *to, u64 room) { return cls_getxattr("\0address", 8, to, room); }

/* The omap's header: the length, or -ENODATA of none. A header without bytes is none. */
INLINE s64 get_header(void *to, u64 room) { return cls_getxattr("\0header", 7, to, room); }
INLINE s64 set_header(const void *value, u64 count) { return cls_setxattr("\0header", 7, value, count); }

/* The code by which a method that may write asks for an object, where there is none: an OSD calls it again upon one without
   data, xattrs and keys, but with an environment, to which the entry "\0made" belongs then. The object is made if that call
   changes anything. Elsewhere the code is the answer. */
#define WITH_OBJECT (-ENOANO)
INLINE u64 is_made(void) { return cls_getxattr("\0made", 5, "", 0) == 0; }

/* clang forgets what it knows of x, and keeps it in one register, so that what is checked is what is used. */
#define OPAQUE(x) __asm__ volatile("" : "+r"(x))

/* The verifier forgets a check of one register when another copy of the number is used. After `if (x > 100) return ..` this
   tells it again, by a mask that clang can't delete: `mask` is 2^n - 1 and at least 100. Numbers up to it stay. */
#define BOUND(x, mask)                                                                                                    \
    do {                                                                                                                  \
        OPAQUE(x);                                                                                                        \
        (x) &= (mask);                                                                                                    \
    } while (0)

/* What BPF has no instructions for, and clang can't make of others. */

/* a / b and a % b of signed numbers, toward zero. A quotient by 0 is 0, and the rest then a. */
INLINE s64 signed_quotient(s64 a, s64 b)
{
    u64 size = b < 0 ? -(u64)b : b;
    u64 q = size ? (a < 0 ? -(u64)a : a) / size : 0;
    return (a < 0) == (b < 0) ? q : -q;
}
INLINE s64 signed_rest(s64 a, s64 b) { return (u64)a - (u64)signed_quotient(a, b) * b; }

/* How many zeros stand above the highest one of a number's 64 bits, and below the lowest one: 64 of 0. */
INLINE u64 leading_zeros(u64 x)
{
    UNROLL for (int i = 1; i < 64; i *= 2) x |= x >> i;
    OPAQUE(x);
    return 64 - __builtin_popcountll(x);
}
INLINE u64 trailing_zeros(u64 x)
{
    u64 below = x - 1;
    OPAQUE(below);
    return __builtin_popcountll(below & ~x);
}

/* The upper 64 bits of a product: 0 if it has no more than 64. */
INLINE u64 high_product(u64 a, u64 b)
{
    u64 low_a = a & 0xffffffff, low_b = b & 0xffffffff, cross = (a >> 32) * low_b;
    u64 middle = (low_a * low_b >> 32) + (cross & 0xffffffff) + low_a * (b >> 32);
    return (a >> 32) * (b >> 32) + (cross >> 32) + (middle >> 32);
}

/* A word at a place, whatever the place: methods' code has no alignment. clang doesn't know that, and would take bytes. */
#ifdef __bpf__
typedef u64 __attribute__((may_alias)) word64;
typedef u32 __attribute__((may_alias)) word32;
typedef u16 __attribute__((may_alias)) word16;
#else
typedef u64 __attribute__((may_alias, aligned(1))) word64;
typedef u32 __attribute__((may_alias, aligned(1))) word32;
typedef u16 __attribute__((may_alias, aligned(1))) word16;
#endif

/* The first `count` bytes of a word as it lies in memory (0 to 8; more is 8), the others 0. */
INLINE u64 first_bytes(u64 word, s64 count)
{
    return count <= 0 ? 0 : count >= 8 ? word : word & ((1ull << 8 * count) - 1);
}

/* Copies 8 * words bytes, a constant. So both places must have them, whatever of them is wanted. */
INLINE void copy_words(void *to, const void *from, int words)
{
    UNROLL for (int i = 0; i < words; i++) ((word64 *)to)[i] = ((const word64 *)from)[i];
}

/* Copies `length` bytes, of at most `most`, a constant: nothing after them is written or read. It takes 3 slots a byte;
   copy_words takes a quarter of one, if both places have room after the bytes. */
INLINE void copy_bytes(void *to, const void *from, u64 length, int most)
{
    UNROLL for (int i = 0; i < most; i++)
        if ((u64)i < length)
            ((u8 *)to)[i] = ((const u8 *)from)[i];
}

/* Whether two ranges of `length` bytes, of at most 8 * words, are the same. Both places must have 8 * words bytes. */
INLINE u64 same_bytes(const void *a, const void *b, u64 length, int words)
{
    u64 differ = 0;
    UNROLL for (int i = 0; i < words; i++)
        differ |= first_bytes(((const word64 *)a)[i] ^ ((const word64 *)b)[i], (s64)length - 8 * i);
    return differ == 0;
}

/* The order of two strings of bytes, of at most 8 * words each, as memcmp and then the shorter first: -1, 0 or 1. */
INLINE s64 compare_bytes(const void *a, u64 a_length, const void *b, u64 b_length, int words)
{
    s64 order = a_length == b_length ? 0 : a_length < b_length ? -1 : 1;
    UNROLL for (int i = words - 1; i >= 0; i--) {
        u64 x = __builtin_bswap64(first_bytes(((const word64 *)a)[i], (s64)a_length - 8 * i));
        u64 y = __builtin_bswap64(first_bytes(((const word64 *)b)[i], (s64)b_length - 8 * i));
        if (x != y)
            order = x < y ? -1 : 1;
    }
    return order;
}

#endif
