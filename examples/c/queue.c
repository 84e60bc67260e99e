#include <sillarnica/class.h>

/* A queue in the object's omap. A key is a push's number, 8 bytes, the highest first, since keys are in the order of
   their bytes. The xattr "n" has the next push's number. */
#define ROOM 1024

/* Takes out the oldest value. */
METHOD(pop, rw, 0, ROOM)
{
    u64 key = 0;
    s64 got = cls_map_next(&key, 0, &key, sizeof key); /* above no bytes: the least */
    if (got < 0)
        return got;
    if (got != sizeof key)
        return -EIO; /* a shorter key is no number */
    s64 length = cls_map_get(&key, sizeof key, out, ROOM);
    if (length < 0 || length > ROOM)
        return length;
    s64 gone = cls_map_rm(&key, sizeof key);
    if (gone < 0)
        return gone;
    return cls_out_len(length);
}

/* Puts its input at the end. */
METHOD(push, rw, ROOM, 0)
{
    char name[] = "n";
    u64 number = 0;
    s64 got = cls_getxattr(name, 1, &number, sizeof number);
    if (got < 0 && got != -ENOENT && got != -ENODATA)
        return got;
    if (got >= 0 && got != sizeof number)
        return -EIO; /* a shorter value is no number */
    u64 key = __builtin_bswap64(number);
    s64 set = cls_map_set(&key, sizeof key, in, in_len);
    if (set < 0)
        return set;
    number++;
    return cls_setxattr(name, 1, &number, sizeof number);
}
