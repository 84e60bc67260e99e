#include "object.h"

#include "refusals.h"

bool is_own(const std::string &name) {
    return name.compare(0, sizeof OWN_PREFIX - 1, OWN_PREFIX) == 0;
}

bool is_behind(cls_method_context_t context) {
    return cls_current_subop_num(context) != 0;
}

namespace {

// Whether entries are within the limits of an object that is made again.
int test_entries(const values &entries, size_t most) {
    if (entries.size() > most)
        return TOO_MUCH;
    for (auto &[name, value] : entries)
        if (name.empty() || name.size() > NAME_LIMIT || value.length() > VALUE_LIMIT)
            return TOO_MUCH;
    return 0;
}

// An object that an earlier step made has no xattrs and no keys before the operation: the OSD looks for
// the object itself, and finds none.
int none_if_made(bool behind, int result) {
    return result == -ENOENT && behind ? 0 : result;
}

} // namespace

int object_view::read(cls_method_context_t context, unsigned parts) {
    int result = cls_cxx_stat(context, &size, nullptr);
    if (result < 0 && result != -ENOENT)
        return result;
    is_found = true;
    is_there = result >= 0;
    return is_there && parts & NEEDS_XATTRS ? read_xattrs(context) : 0;
}

// The xattrs that methods see, and the plug-in's own.
int object_view::read_xattrs(cls_method_context_t context) {
    int result = none_if_made(behind, cls_cxx_getxattrs(context, &xattrs));
    if (result < 0)
        return result;
    for (auto at = xattrs.begin(); at != xattrs.end();)
        if (is_own(at->first))
            own.insert(xattrs.extract(at++));
        else
            ++at;
    // That a method's code names the header can't be told from that it touches xattrs.
    if (caller &&
        ((result = read_header(context)) < 0 || (result = make_environment(context, *caller, header, seen)) < 0))
        return result;
    seen.insert(xattrs.begin(), xattrs.end());
    return 0;
}

int object_view::read_header(cls_method_context_t context) {
    int result = has_header ? 0 : none_if_made(behind, cls_cxx_map_read_header(context, &header));
    has_header |= result >= 0;
    return result;
}

int object_view::make(cls_method_context_t context) {
    is_there = was_made = has_header = true;
    seen[MADE_NAME];
    return make_environment(context, *caller, header, seen);
}

int object_view::read_whole(cls_method_context_t context) {
    bool more = false;
    int result = size > DATA_LIMIT ? int(DATA_TOO_LONG) : 0;
    if (result >= 0 && size)
        result = cls_cxx_read(context, 0, int(size), &data);
    if (result >= 0 && data.length() != size)
        return BROKEN;
    if (result < 0 || (result = test_entries(xattrs, XATTR_LIMIT)) < 0)
        return result;
    if ((result = keys_above(context, behind, "", KEY_LIMIT, keys, more)) < 0)
        return result;
    if (more || test_entries(keys, KEY_LIMIT) < 0)
        return TOO_MUCH;
    return read_header(context);
}

int object_view::make_without(cls_method_context_t context, const std::vector<std::string> &names) {
    for (auto &name : names)
        if (!xattrs.erase(name) && !own.erase(name))
            return BROKEN;
    int result = cls_cxx_remove(context);
    return result < 0 ? result : write(context);
}

int object_view::write(cls_method_context_t context) {
    int result = cls_cxx_create(context, true);
    if (result >= 0 && data.length())
        result = cls_cxx_write(context, 0, int(data.length()), &data);
    for (auto *part : {&xattrs, &own})
        for (auto &[name, value] : *part)
            if (result >= 0)
                result = cls_cxx_setxattr(context, name.c_str(), &value);
    if (result >= 0 && header.length())
        result = cls_cxx_map_write_header(context, &header);
    if (result >= 0 && !keys.empty())
        result = cls_cxx_map_set_vals(context, &keys);
    return result;
}

int keys_above(cls_method_context_t context, bool behind, const std::string &name, uint64_t most, values &keys,
               bool &more) {
    return none_if_made(behind, cls_cxx_map_get_vals(context, name, "", most, &keys, &more));
}

int remove_own_xattr(cls_method_context_t context, const std::string &name) {
    object_view object(false, nullptr);
    int result = object.read(context, NEEDS_XATTRS);
    if (result >= 0)
        result = object.read_whole(context);
    if (result == DATA_TOO_LONG || result == TOO_MUCH || result == -EOPNOTSUPP) {
        ceph::bufferlist none;
        return cls_cxx_setxattr(context, name.c_str(), &none);
    }
    return result < 0 ? result : object.make_without(context, {name});
}
