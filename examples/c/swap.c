#include <sillarnica/class.h>

/* Compare and swap of the data's first 8 bytes: the input is what they should be, and what they become. */
METHOD(swap, rw, 16, 0)
{
    u64 now = 0;
    if (in_len != 16)
        return -EINVAL;
    s64 got = cls_read(0, &now, sizeof now);
    if (got < 0 && got != -ENOENT)
        return got;
    if (now != *(const u64 *)in)
        return -EBUSY;
    s64 put = cls_write(0, in + 8, 8);
    return put < 0 ? put : 0;
}
