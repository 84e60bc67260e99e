#include <sillarnica/class.h>

/* Adds 1 to the 8-byte counter in the xattr "count", and gives the new number as output. */
METHOD(inc, rw, 0, 8)
{
    char name[5] = "count";
    u64 count = 0;
    s64 got = cls_getxattr(name, sizeof name, &count, sizeof count);
    if (got < 0 && got != -ENOENT && got != -ENODATA)
        return got;
    if (got >= 0 && got != sizeof count)
        return -EIO; /* a shorter value is no number */
    count++;
    s64 set = cls_setxattr(name, sizeof name, &count, sizeof count);
    if (set < 0)
        return set;
    *(u64 *)out = count;
    return cls_out_len(8);
}
