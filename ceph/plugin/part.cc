#include "part.h"

#include "refusals.h"

#include <algorithm>

namespace {

// Of a part.
constexpr uint64_t BLOCK = 4096, BLOCK_LIMIT = 1024;

// How many keys a page has, by how many pages of the call went on where one ended; and how many blocks a read has, by
// how many there were before. The first read has those that are needed alone.
constexpr uint64_t PAGES[] = {16, 64, 256}, READS[] = {1, 16, 64, 256};

// The data of an object that isn't larger is read whole at the second read; and all keys, where a part has room for
// them, at the sixth need of keys that goes on where no page ended: so a call that reads many of few has few rounds.
constexpr uint64_t SMALL = DATA_LIMIT;
constexpr unsigned JUMPS = 6;

enum need_kind : unsigned { BLOCKS = 1, XATTR, KEY, KEYS_FROM, XATTRS_FROM };

template <class Table> uint64_t at_most_last(const Table &table, unsigned before) {
    return table[std::min<size_t>(before, std::size(table) - 1)];
}

// The least name above another.
std::string after(const std::string &name) {
    return name + '\0';
}

void put_text(bytes &to, slice text) {
    put_number(to, text.length, 2);
    put_bytes(to, text);
}

// Why an entry is none of a part; null if it fits.
const char *misfit(const std::string &name, const ceph::bufferlist &value) {
    if (name.empty() || name.size() > NAME_LIMIT)
        return "a name of over 64 bytes";
    return value.length() > VALUE_LIMIT ? "a value of over 4096 bytes" : nullptr;
}

bool fit(const values &entries) {
    return std::none_of(entries.begin(), entries.end(), [](auto &each) { return misfit(each.first, each.second); });
}

int too_many(const char *&why) {
    why = "over 32 xattrs or 1024 keys in a call";
    return TOO_MUCH;
}

// Learns of one name, which is the entry that was found, or absent.
int learn_name(known_names &names, const std::string &name, const values &found, const char *&why) {
    why = found.empty() ? nullptr : misfit(name, found.begin()->second);
    if (why)
        return TOO_MUCH;
    return names.learn(name, after(name), found) ? 0 : too_many(why);
}

// Learns of the names from a place on, which are those of a page, and others if there are more. One that doesn't fit
// ends it, and is met if it is the first.
int learn_page(known_names &names, const std::string &place, values &page, bool more, const char *&why) {
    auto at = std::find_if(page.begin(), page.end(), [](auto &each) { return misfit(each.first, each.second); });
    if (at != page.end() && at == page.begin()) {
        why = misfit(at->first, at->second);
        return TOO_MUCH;
    }
    more |= at != page.end();
    page.erase(at, page.end());
    if (more && page.empty())
        return BROKEN;
    return names.learn(place, more ? after(page.rbegin()->first) : "", page) ? 0 : too_many(why);
}

} // namespace

bool known_names::learn(std::string low, std::string high, const values &found) {
    size_t added = 0;
    for (auto &each : found)
        added += !entries.count(each.first);
    if (added > room())
        return false;
    entries.insert(found.begin(), found.end());
    auto at = intervals.upper_bound(low);
    if (at != intervals.begin() && (std::prev(at)->second.empty() || std::prev(at)->second >= low))
        low = (--at)->first;
    while (at != intervals.end() && (high.empty() || at->first <= high)) {
        if (!high.empty() && (at->second.empty() || at->second > high))
            high = at->second;
        at = intervals.erase(at);
    }
    intervals[low] = high;
    return true;
}

bool known_names::has_end(const std::string &place) const {
    return !place.empty() &&
           std::any_of(intervals.begin(), intervals.end(), [&](auto &each) { return each.second == place; });
}

// The maps' order is that of unsigned bytes, as the spelling wants.
void known_names::put(bytes &to) {
    put_number(to, intervals.size(), 2);
    for (auto &[low, high] : intervals) {
        put_text(to, slice_of(low));
        put_text(to, slice_of(high));
    }
    put_number(to, entries.size(), 2);
    for (auto &[name, value] : entries) {
        put_text(to, slice_of(name));
        put_text(to, slice_of(value));
    }
}

object_part::object_part(object_view &object, unsigned needs) : object(object) {
    if (needs & NEEDS_XATTRS && fit(object.shown()))
        xattrs.learn("", "", object.shown());
    if (object.is_made())
        keys.learn("", "", {});
}

void object_part::put(bytes &to) {
    to.clear();
    to.push_back(!object.is_absent());
    if (object.is_absent())
        return;
    put_number(to, object.length(), 8);
    put_number(to, blocks.size(), 4);
    for (auto &[number, block] : blocks) {
        put_number(to, number, 8);
        put_bytes(to, slice_of(block));
    }
    xattrs.put(to);
    keys.put(to);
}

int object_part::fetch(cls_method_context_t context, slice need, const char *&why) {
    reader in{need};
    uint64_t kind = in.number(1);
    if (kind == BLOCKS) {
        uint64_t first = in.number(8), count = in.number(1);
        return in.short_of || !count ? BROKEN : fetch_blocks(context, first, count, why);
    }
    std::string name = in.take(in.number(2)).text();
    if (in.short_of)
        return BROKEN;
    switch (kind) {
    case XATTR: return learn_xattr(name, why);
    case KEY: return fetch_key(context, name, why);
    case KEYS_FROM: return fetch_keys(context, name, why);
    case XATTRS_FROM: return learn_xattrs(name, why);
    default: return BROKEN;
    }
}

int object_part::spare(const char *&why) {
    if (is_sparing)
        return too_many(why);
    is_sparing = true;
    xattrs = known_names(XATTR_LIMIT);
    keys = known_names(KEY_LIMIT);
    if (object.is_made())
        keys.learn("", "", {});
    return 0;
}

// Of data that an earlier step wrote the OSD compares a read of the whole with a checksum of what was there before, and
// loses the object.
int object_part::fetch_blocks(cls_method_context_t context, uint64_t first, uint64_t count, const char *&why) {
    if (object.behind)
        return NOT_FIRST;
    uint64_t size = object.length(), end = (size + BLOCK - 1) / BLOCK, most = BLOCK_LIMIT - blocks.size();
    if (first >= end || count > end - first)
        return BROKEN;
    if (first > PLACE_LIMIT / BLOCK)
        return DATA_TOO_LONG;
    if (count > most) {
        why = "over 4 MiB of data in a call";
        return TOO_MUCH;
    }
    uint64_t wanted = std::min({at_most_last(READS, reads), most, end - first});
    if (reads++ && size <= SMALL)
        first = 0, count = end;
    while (count < wanted && !blocks.count(first + count))
        count++;
    // The last block's bytes go up to the size.
    uint64_t at = first * BLOCK, length = std::min(count * BLOCK, size - at);
    ceph::bufferlist found;
    int result = cls_cxx_read(context, int(at), int(length), &found);
    if (result < 0)
        return result;
    if (found.length() != length)
        return BROKEN;
    for (uint64_t i = 0; i < count; i++)
        blocks[first + i].substr_of(found, unsigned(i * BLOCK), unsigned(std::min(BLOCK, length - i * BLOCK)));
    return 0;
}

int object_part::fetch_key(cls_method_context_t context, const std::string &key, const char *&why) {
    bool are_all = false;
    int result = ++jumps == JUMPS && !is_sparing ? fetch_all_keys(context, are_all) : 0;
    if (result < 0 || are_all)
        return result;
    values found;
    ceph::bufferlist value;
    result = cls_cxx_map_get_val(context, key, &value);
    if (result < 0 && result != -ENOENT)
        return result;
    if (result >= 0)
        found[key] = value;
    return learn_name(keys, key, found, why);
}

int object_part::fetch_keys(cls_method_context_t context, const std::string &place, const char *&why) {
    bool goes_on = keys.has_end(place), are_all = false, more = false;
    int result = !goes_on && ++jumps == JUMPS && !is_sparing ? fetch_all_keys(context, are_all) : 0;
    if (result < 0 || are_all)
        return result;
    // The OSD's pages begin above a name, and a place is the empty name or the least one above a name.
    values page;
    uint64_t most = is_sparing ? 1 : goes_on ? at_most_last(PAGES, ++pages) : PAGES[0];
    most = std::min<uint64_t>(most, std::max<size_t>(keys.room(), 1));
    result = keys_above(context, object.behind, place.substr(0, place.size() - !place.empty()), most, page, more);
    return result < 0 ? result : learn_page(keys, place, page, more, why);
}

// All keys, where the part has room for them.
int object_part::fetch_all_keys(cls_method_context_t context, bool &are_all) {
    values all;
    bool more = false;
    int result = keys_above(context, object.behind, "", KEY_LIMIT, all, more);
    are_all = result >= 0 && !more && fit(all) && keys.learn("", "", all);
    return result;
}

int object_part::learn_xattr(const std::string &name, const char *&why) {
    auto at = object.shown().find(name);
    values found;
    if (at != object.shown().end())
        found.insert(*at);
    return learn_name(xattrs, name, found, why);
}

int object_part::learn_xattrs(const std::string &place, const char *&why) {
    const values &all = object.shown();
    size_t most = std::min<size_t>(is_sparing ? 1 : PAGES[0], std::max<size_t>(xattrs.room(), 1));
    values page;
    auto at = all.lower_bound(place);
    for (; at != all.end() && page.size() < most; ++at)
        page.insert(*at);
    return learn_page(xattrs, place, page, at != all.end(), why);
}
