#include <sillarnica/class.h>

/* Adler's checksum of the input, as zlib's adler32 computes it. */
METHOD(adler, r, 4096, 0)
{
    u64 a = 1, b = 0;
    for (u64 i = 0; i < in_len; i++) {
        if (i >= 4096)
            break;
        a = (a + in[i]) % 65521;
        b = (b + a) % 65521;
    }
    return b << 16 | a;
}
