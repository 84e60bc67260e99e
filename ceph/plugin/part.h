// The part of an object that the library is handed, as `sillarnica.h` spells it: what a call asked for so far.
#pragma once

#include "object.h"

// Of an object's xattrs or keys, what is known: intervals of names, and the entries in them. Another name in one of
// them is absent; of a name in none nothing is known.
class known_names {
public:
    explicit known_names(size_t most) : most(most) {}

    // How many entries more it can have.
    size_t room() const { return most - entries.size(); }

    // Learns of all names from one place to below another, of which an empty one is the end of all, that they are
    // these entries. False, and nothing is learned, if that is more than it can have.
    bool learn(std::string low, std::string high, const values &found);

    // Whether an interval ends there.
    bool has_end(const std::string &place) const;

    void put(bytes &to);

private:
    size_t most;
    std::map<std::string, std::string> intervals; // by where they begin, where they end; none meets the next
    values entries;
};

// It begins with presence and size, and with all xattrs where they fit. All else is fetched by need, so that a call
// costs what it touches, whatever else the object has.
class object_part {
public:
    // Of an object that was read with the parts that the method needs.
    object_part(object_view &object, unsigned needs);

    void put(bytes &to);

    // Fetches what a call needs (`sillarnica_want`), and what may be needed next. Refused: NOT_FIRST, data behind
    // another step; DATA_TOO_LONG, data that begins past what an OSD's call can read; and TOO_MUCH, of which `why`
    // tells more.
    int fetch(cls_method_context_t context, slice need, const char *&why);

    // For a call that sets more names than fit beside those of the part: it begins anew without names, and fetches none
    // that isn't needed. Refused if it did so before: TOO_MUCH.
    int spare(const char *&why);

private:
    int fetch_blocks(cls_method_context_t context, uint64_t first, uint64_t count, const char *&why);
    int fetch_key(cls_method_context_t context, const std::string &key, const char *&why);
    int fetch_keys(cls_method_context_t context, const std::string &place, const char *&why);
    int fetch_all_keys(cls_method_context_t context, bool &are_all);
    int learn_xattr(const std::string &name, const char *&why);
    int learn_xattrs(const std::string &place, const char *&why);

    object_view &object;
    known_names xattrs{XATTR_LIMIT}, keys{KEY_LIMIT};
    std::map<uint64_t, ceph::bufferlist> blocks; // by their numbers
    bool is_sparing = false;
    unsigned reads = 0, pages = 0, jumps = 0; // needs so far: of data; of keys where a page ended, and elsewhere
};
