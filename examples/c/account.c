#include <sillarnica/class.h>

/* An account: the xattr "account" has its balance, 8 bytes, little-endian. What can't be paid is refused. */
struct amount {
    u64 of;
};

/* The balance, 0 if there is none yet; the answer is 0 or an error. */
INLINE s64 load(u64 *balance)
{
    *balance = 0;
    s64 got = cls_getxattr("account", 7, balance, sizeof *balance);
    if (got == -ENOENT || got == -ENODATA)
        return 0;
    if (got >= 0 && got != sizeof *balance)
        return -EIO; /* a shorter value is no number */
    return got < 0 ? got : 0;
}

INLINE s64 save(u64 balance, u8 *out)
{
    s64 error = cls_setxattr("account", 7, &balance, sizeof balance);
    if (error < 0)
        return error;
    *(word64 *)out = balance;
    return cls_out_len(sizeof balance);
}

METHOD(balance, r, 0, sizeof(u64))
{
    u64 balance;
    s64 error = load(&balance);
    if (error)
        return error;
    *(word64 *)out = balance;
    return cls_out_len(sizeof balance);
}

METHOD(deposit, rw, sizeof(struct amount), sizeof(u64))
{
    const struct amount *amount = (const void *)in;
    u64 balance;
    if (in_len != sizeof *amount)
        return -EINVAL;
    s64 error = load(&balance);
    if (error)
        return error;
    if (balance + amount->of < balance)
        return -EOVERFLOW;
    return save(balance + amount->of, out);
}

METHOD(withdraw, rw, sizeof(struct amount), sizeof(u64))
{
    const struct amount *amount = (const void *)in;
    u64 balance;
    if (in_len != sizeof *amount)
        return -EINVAL;
    s64 error = load(&balance);
    if (error)
        return error;
    if (balance < amount->of)
        return -EDQUOT;
    return save(balance - amount->of, out);
}
