#include <sillarnica/class.h>

/* Ceph's class hello. Left out: bad_writer, a reader that writes, which the verifier refuses, and the filter of listings. */

/* "Hello, NAME!" of a name of at most 100 bytes, none counting as "world": its length. */
INLINE u64 greet(const u8 *name, u64 length, u8 *to)
{
    copy_words(to, "Hello, ", 1);
    copy_words(to + 7, name, 13);
    if (length == 0) {
        copy_words(to + 7, "world\0\0", 1);
        length = 5;
    }
    BOUND(length, 127);
    to[7 + length] = '!';
    return 8 + length;
}

#define GREETING (7 + 127 + 1)

/* A text that is written from the front: at most 63 bytes, and room for the longest number behind them. */
struct line {
    u8 bytes[64 + 16];
    u64 at;
};

INLINE void put_char(struct line *to, u64 letter)
{
    BOUND(to->at, 63);
    to->bytes[to->at++] = letter;
}

/* A number below 2^32 in decimal, and a letter. */
INLINE void put_number(struct line *to, u64 number, u64 letter)
{
    u8 digits[32] = {0};
    u64 first = 9;
    UNROLL for (int i = 9; i >= 0; i--) {
        digits[i] = '0' + number % 10;
        if (number)
            first = i;
        number /= 10;
    }
    BOUND(first, 15);
    BOUND(to->at, 63);
    copy_words(to->bytes + to->at, digits + first, 2);
    to->at += 10 - first;
    put_char(to, letter);
}

enum { LEGACY = 1, MSGR2, ANY, IPV4 = 2 };

/* Keeps "client.N ADDRESS" as an xattr; "client.N" where a call has no address, or another than one of IPv4. In Ceph's encoding its
   type lies at 7, its nonce at 11, its family at 19, then a port and the address, with their highest bytes first. */
INLINE s64 sign(const void *xattr, u64 length)
{
    struct line who = {"client.", 7};
    u8 address[64];
    s64 got = call_address(address, 64);
    put_number(&who, cls_caller(), ' ');
    if (got >= 35 && address[19] == IPV4) {
        u64 type = address[7];
        if (type == LEGACY || type == MSGR2) {
            put_char(&who, 'v');
            put_char(&who, '0' + type);
            put_char(&who, ':');
        }
        put_number(&who, address[23], '.');
        put_number(&who, address[24], '.');
        put_number(&who, address[25], '.');
        put_number(&who, address[26], ':');
        put_number(&who, (u64)address[21] << 8 | address[22], '/');
        put_number(&who, *(word32 *)(address + 11), ' ');
    }
    who.at--;
    BOUND(who.at, 63);
    return cls_setxattr(xattr, length, who.bytes, who.at);
}

METHOD(bad_reader, w, 4096, 100)
{
    s64 got = cls_read(0, out, 100);
    if ((u64)got > 100)
        return got;
    cls_out_len(got);
    return got;
}

METHOD(record_hello, w, 4096, 0)
{
    u8 text[GREETING] = {0};
    if (in_len > 100)
        return -EINVAL;
    if (cls_stat() < 0)
        return WITH_OBJECT;
    if (!is_made())
        return -EEXIST;
    u64 length = greet(in, in_len, text);
    s64 done = cls_write(0, text, length);
    if (done < 0)
        return done;
    return sign("said_by", 7);
}

METHOD(replay, r, 4096, 1100)
{
    s64 got = cls_read(0, out, 1100);
    if ((u64)got > 1100)
        return got;
    return cls_out_len(got);
}

METHOD(say_hello, r, 4096, GREETING)
{
    if (in_len > 100)
        return -EINVAL;
    return cls_out_len(greet(in, in_len, out));
}

/* The bytes a to z of a word as capitals, all eight at once: no byte's sum passes 255. */
INLINE u64 capitals(u64 word)
{
    const u64 ones = 0x0101010101010101;
    u64 low = word & 127 * ones;
    u64 from_a = low + (128 - 'a') * ones, above_z = low + (127 - 'z') * ones;
    return word - ((from_a & ~above_z & ~word & 128 * ones) >> 2);
}

METHOD(turn_it_to_11, rw, 4096, 1104)
{
    if (in_len > 0)
        return -EINVAL;
    s64 got = cls_read(0, out, 1100);
    if (got == -ENOENT)
        got = cls_create(0); /* in Ceph a change reads nothing of an absent object */
    if ((u64)got > 1100)
        return got;
    UNROLL for (int i = 0; i < 138; i++) ((word64 *)out)[i] = capitals(((word64 *)out)[i]);
    s64 done = cls_truncate(0);
    if (done < 0)
        return done;
    done = cls_write(0, out, got);
    if (done < 0)
        return done;
    return sign("amplified_by", 12);
}

/* A change that answers some bytes. */
INLINE s64 write_foo(u64 in_len, u8 *out)
{
    s64 done = cls_setxattr("foo", 3, "bar", 3);
    if (done < 0)
        return done;
    if (in_len > 0)
        return -EINVAL;
    copy_words(out, "you might see this\0\0\0\0\0", 3);
    cls_out_len(18);
    return 42;
}

METHOD(write_return_data, w, 4096, 24)
{
    return write_foo(in_len, out);
}

METHOD(write_too_much_return_data, w, 4096, 520)
{
    s64 done = cls_setxattr("foo", 3, "bar", 3);
    if (done < 0)
        return done;
    /* 52 bytes, ten times: the first six words and a half, and 468 bytes further back each again */
    __builtin_memcpy(out, "you should not see this because it is toooooo long. ", 52);
    UNROLL for (int i = 0; i < 117; i++) ((word32 *)out)[13 + i] = ((word32 *)out)[i];
    cls_out_len(520);
    return 42;
}

/* An older name of it. */
METHOD(writes_dont_return_data, w, 4096, 24)
{
    return write_foo(in_len, out);
}
