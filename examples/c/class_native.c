/* The helpers in plain C, for unit tests and debuggers: compiled natively with this file, a class is an ordinary program.

       cc -g -I examples/c/include examples/c/counter.c examples/c/class_native.c -o counter
       ./counter inc - inc -

   makes the calls METHOD INPUT one after another on one object, and prints code and output of each. INPUT is hexadecimal, `-`
   for none. With -DNATIVE_NO_MAIN a test of one's own calls native_call instead. Nothing here is verified, and no bound of a
   method's memory is checked: add -fsanitize=address,undefined. */
#include <sillarnica/class.h>
#include <stdio.h>
#include <stdlib.h>
#include <string.h>

struct entry {
    u8 name[64], value[4096];
    u64 name_len, value_len;
};

struct entries {
    struct entry at[1024];
    u64 count, most;
};

static struct object {
    int exists;
    u8 data[65536];
    u64 size;
    struct entries xattrs, keys;
} now = {.xattrs.most = 32, .keys.most = 1024}, before;

static struct native_method *methods, *running;
static u64 caller = 1, out_len;

void native_add(struct native_method *method)
{
    method->next = methods;
    methods = method;
}

static s64 order(const struct entry *entry, const void *name, u64 length)
{
    u64 both = entry->name_len < length ? entry->name_len : length;
    int first = memcmp(entry->name, name, both);
    return first ? first : (s64)entry->name_len - (s64)length;
}

/* The first entry whose name isn't below it. */
static struct entry *place_of(struct entries *its, const void *name, u64 length)
{
    struct entry *entry = its->at;
    while (entry < its->at + its->count && order(entry, name, length) < 0)
        entry++;
    return entry;
}

static struct entry *find(struct entries *its, const void *name, u64 length)
{
    struct entry *entry = place_of(its, name, length);
    return entry < its->at + its->count && order(entry, name, length) == 0 ? entry : 0;
}

static s64 get(struct entries *its, const void *name, u64 length, void *to, u64 room)
{
    if (length < 1 || length > 64)
        return -EINVAL;
    if (!now.exists)
        return -ENOENT;
    struct entry *entry = find(its, name, length);
    if (!entry)
        return -ENODATA;
    if (entry->value_len > room)
        return -ERANGE;
    memcpy(to, entry->value, entry->value_len);
    return entry->value_len;
}

static s64 set(struct entries *its, const void *name, u64 length, const void *value, u64 count)
{
    if (length < 1 || length > 64)
        return -EINVAL;
    if (count > 4096)
        return -EFBIG;
    struct entry *entry = find(its, name, length);
    if (!entry) {
        if (its->count == its->most)
            return -ENOSPC;
        entry = place_of(its, name, length);
        memmove(entry + 1, entry, (its->at + its->count++ - entry) * sizeof *entry);
        memcpy(entry->name, name, length);
        entry->name_len = length;
    }
    now.exists = 1;
    memmove(entry->value, value, count);
    entry->value_len = count;
    return 0;
}

static s64 rm(struct entries *its, const void *name, u64 length)
{
    if (length < 1 || length > 64)
        return -EINVAL;
    if (!now.exists)
        return -ENOENT;
    struct entry *entry = find(its, name, length);
    if (!entry)
        return -ENODATA;
    memmove(entry, entry + 1, (its->at + --its->count - entry) * sizeof *entry);
    return 0;
}

s64 cls_stat(void) { return now.exists ? (s64)now.size : -ENOENT; }

s64 cls_read(u64 place, void *to, u64 room)
{
    if (!now.exists)
        return -ENOENT;
    u64 left = place < now.size ? now.size - place : 0, count = left < room ? left : room;
    if (count)
        memcpy(to, now.data + place, count);
    return count;
}

static void extend(u64 size)
{
    if (size > now.size)
        memset(now.data + now.size, 0, size - now.size);
}

s64 cls_write(u64 place, const void *bytes, u64 length)
{
    if (place > 65536 || length > 65536 - place)
        return -EFBIG;
    now.exists = 1;
    if (length) {
        extend(place);
        memcpy(now.data + place, bytes, length);
        now.size = place + length > now.size ? place + length : now.size;
    }
    return length;
}

s64 cls_truncate(u64 length)
{
    if (length > 65536)
        return -EFBIG;
    if (!now.exists)
        return -ENOENT;
    extend(length);
    now.size = length;
    return 0;
}

s64 cls_remove(void)
{
    if (!now.exists)
        return -ENOENT;
    now.exists = now.size = now.xattrs.count = now.keys.count = 0;
    return 0;
}

s64 cls_getxattr(const void *name, u64 length, void *to, u64 room) { return get(&now.xattrs, name, length, to, room); }
s64 cls_setxattr(const void *name, u64 length, const void *value, u64 count) { return set(&now.xattrs, name, length, value, count); }
s64 cls_rmxattr(const void *name, u64 length) { return rm(&now.xattrs, name, length); }
s64 cls_map_get(const void *key, u64 length, void *to, u64 room) { return get(&now.keys, key, length, to, room); }
s64 cls_map_set(const void *key, u64 length, const void *value, u64 count) { return set(&now.keys, key, length, value, count); }
s64 cls_map_rm(const void *key, u64 length) { return rm(&now.keys, key, length); }

static s64 next(struct entries *its, const void *name, u64 length, void *to, u64 room)
{
    if (length > 64)
        return -EINVAL;
    if (!now.exists)
        return -ENOENT;
    struct entry *entry = place_of(its, name, length);
    if (length && entry < its->at + its->count && order(entry, name, length) == 0)
        entry++;
    if (entry == its->at + its->count)
        return -ENODATA;
    if (entry->name_len > room)
        return -ERANGE;
    memcpy(to, entry->name, entry->name_len);
    return entry->name_len;
}

s64 cls_map_next(const void *key, u64 length, void *to, u64 room) { return next(&now.keys, key, length, to, room); }
s64 cls_xattr_next(const void *name, u64 length, void *to, u64 room) { return next(&now.xattrs, name, length, to, room); }

s64 cls_compare(const void *a, u64 a_length, const void *b, u64 b_length)
{
    u64 both = a_length < b_length ? a_length : b_length;
    int by = both ? memcmp(a, b, both) : 0;
    return by ? (by > 0) - (by < 0) : (a_length > b_length) - (a_length < b_length);
}

s64 cls_copy(void *to, u64 room, const void *from, u64 length)
{
    if (length > room)
        return -ERANGE;
    if (length)
        memmove(to, from, length);
    return length;
}

s64 cls_out_len(u64 length)
{
    if (length > running->out_cap)
        abort(); /* the verifier would have refused it */
    out_len = length;
    return 0;
}

s64 cls_create(u64 exclusive)
{
    if (now.exists && exclusive)
        return -EEXIST;
    now.exists = 1;
    return 0;
}

s64 cls_caller(void) { return caller; }

/* Calls a method on the object as client number `by`: its code. Memory is as large as its capacities, and comes from malloc, so
   a sanitizer sees what goes beyond. An error leaves the object as it was. At `output` are 65535 bytes. */
s64 native_call(const char *name, u64 by, const void *input, u64 in_len, void *output, u64 *output_len)
{
    for (running = methods; running && strcmp(running->name, name); running = running->next)
        ;
    if (!running || in_len > running->in_cap)
        return -EOPNOTSUPP;
    u8 *in = calloc(running->in_cap, 1), *out = calloc(running->out_cap, 1);
    if (in_len)
        memcpy(in, input, in_len);
    before = now;
    caller = by;
    out_len = 0;
    s64 code = running->run(in, in_len, out);
    if (code < 0)
        now = before, out_len = 0;
    if (out_len)
        memcpy(output, out, out_len);
    *output_len = out_len;
    free(in);
    free(out);
    return code;
}

#ifndef NATIVE_NO_MAIN
int main(int words, char **word)
{
    for (int n = 1; n + 1 < words; n += 2) {
        static u8 in[65535], out[65535];
        u64 in_len = 0, length = 0;
        unsigned byte;
        for (const char *at = word[n + 1]; in_len < sizeof in && sscanf(at, "%2x", &byte) == 1; at += 2)
            in[in_len++] = byte;
        s64 code = native_call(word[n], 1, in, in_len, out, &length);
        printf("code %lld\noutput %s", code, length ? "" : "-");
        for (u64 i = 0; i < length; i++)
            printf("%02x", out[i]);
        printf("\n");
    }
    return 0;
}
#endif
