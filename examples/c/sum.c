#include <sillarnica/class.h>

/* The sum of the first 16 bytes of input, as 8 bytes of output. No jump goes back, so the loop is unrolled. */
METHOD(sum, r, 16, 8)
{
    u64 total = 0;
#pragma clang loop unroll(full)
    for (int i = 0; i < 16; i++)
        total += in[i];
    *(u64 *)out = total;
    return cls_out_len(8);
}
