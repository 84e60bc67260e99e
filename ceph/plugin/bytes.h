// Bytes that are read field by field, and written; all numbers are little-endian.
#pragma once

#include <cstddef>
#include <cstdint>
#include <string>
#include <vector>

#include <rados/objclass.h>

using bytes = std::vector<uint8_t>;

// Bytes that another owns.
struct slice {
    const uint8_t *at = nullptr;
    size_t length = 0;

    std::string text() const { return std::string(reinterpret_cast<const char *>(at), length); }

    ceph::bufferlist list() const {
        ceph::bufferlist made;
        if (length)
            made.append(reinterpret_cast<const char *>(at), unsigned(length));
        return made;
    }
};

// What a list holds, as one range of bytes. The list is made whole for that, so it isn't const.
inline slice slice_of(ceph::bufferlist &list) {
    if (!list.length())
        return {};
    return {reinterpret_cast<const uint8_t *>(list.c_str()), list.length()};
}

inline slice slice_of(const std::string &text) {
    return {reinterpret_cast<const uint8_t *>(text.data()), text.size()};
}

// Takes fields from the front. Once one passes the end `short_of` is set, and all that follow are
// empty or 0.
struct reader {
    slice rest;
    bool short_of = false;

    slice take(size_t length) {
        if (short_of || length > rest.length) {
            short_of = true;
            return {};
        }
        slice taken{rest.at, length};
        rest.at += length;
        rest.length -= length;
        return taken;
    }

    uint64_t number(size_t length) {
        slice field = take(length);
        uint64_t value = 0;
        for (size_t i = 0; i < field.length; i++)
            value |= uint64_t(field.at[i]) << (8 * i);
        return value;
    }
};

inline void put_number(bytes &to, uint64_t value, size_t length) {
    for (size_t i = 0; i < length; i++)
        to.push_back(uint8_t(value >> (8 * i)));
}

inline void put_bytes(bytes &to, slice from) {
    to.insert(to.end(), from.at, from.at + from.length);
}
