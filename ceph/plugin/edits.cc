#include "edits.h"

#include "refusals.h"

#include <set>

namespace {

// More than a method without loops makes. An OSD takes for writes to different places the square of their number.
constexpr size_t EDIT_LIMIT = 4096;

enum edit_kind : unsigned {
    CREATE = 1,
    REMOVE,
    SET_XATTR,
    REMOVE_XATTR,
    SET_KEY,
    REMOVE_KEY,
    SET_LENGTH,
    WRITE,
    SET_HEADER, // none of the library's: SET_XATTR or REMOVE_XATTR of `\0header`, without bytes then
};

struct edit {
    unsigned kind;
    std::string name;
    slice bytes;
    uint64_t number; // a length of SET_LENGTH, a place of WRITE

    bool is_of_xattr() const { return kind == SET_XATTR || kind == REMOVE_XATTR; }
};

edit next_edit(reader &in) {
    edit found{unsigned(in.number(1)), {}, {}, 0};
    if (found.kind >= SET_XATTR && found.kind <= REMOVE_KEY)
        found.name = in.take(in.number(2)).text();
    if (found.kind == SET_XATTR || found.kind == SET_KEY)
        found.bytes = in.take(in.number(2));
    if (found.kind == SET_LENGTH || found.kind == WRITE)
        found.number = in.number(8);
    if (found.kind == WRITE)
        found.bytes = in.take(in.number(4));
    return found;
}

// Whether an edit is the header's, where the method is shown the environment.
bool is_of_header(const edit &one, bool is_shown) {
    return is_shown && one.is_of_xattr() && one.name == HEADER_NAME;
}

int test_edit(const edit &one, bool is_shown) {
    // Places are below the limit of data that the library is given.
    if (one.kind < CREATE || one.kind > WRITE || one.number > PLACE_LIMIT - one.bytes.length)
        return BROKEN;
    if (!one.is_of_xattr() || is_of_header(one, is_shown))
        return 0;
    if (is_own(one.name) || (is_shown && is_of_environment(one.name)))
        return NAME_IS_OURS;
    // The OSD's call takes a name that a NUL byte ends.
    return one.name.find('\0') == std::string::npos ? 0 : NAME_WITH_NUL;
}

int read_edits(slice written, bool is_shown, std::vector<edit> &edits, const char *&why) {
    reader in{written};
    while (in.rest.length) {
        if (edits.size() == EDIT_LIMIT) {
            why = "over 4096 edits in a call";
            return TOO_MUCH;
        }
        edit found = next_edit(in);
        int result = in.short_of ? BROKEN : test_edit(found, is_shown);
        if (result < 0)
            return result;
        if (is_of_header(found, is_shown))
            found.kind = SET_HEADER;
        edits.push_back(std::move(found));
    }
    return 0;
}

// The same without what comes before the last removal, which is made if there was an object. Of an object that is
// removed, made and removed again in one operation an OSD forgets the first removal: what was there would come back.
void drop_removed(std::vector<edit> &edits, bool was_there) {
    size_t at = edits.size();
    while (at && edits[at - 1].kind != REMOVE)
        at--;
    if (at)
        edits.erase(edits.begin(), edits.begin() + long(at - was_there));
}

// Where the edits begin that the object is left with: behind the last one that removes or creates it.
size_t beginning(const std::vector<edit> &edits) {
    size_t at = edits.size();
    while (at && edits[at - 1].kind != CREATE && edits[at - 1].kind != REMOVE)
        at--;
    return at;
}

// The xattrs whose last edit from there on is a removal.
std::set<std::string> removed_from(const std::vector<edit> &edits, size_t start) {
    std::set<std::string> removed;
    for (size_t i = start; i < edits.size(); i++)
        if (edits[i].kind == SET_XATTR)
            removed.erase(edits[i].name);
        else if (edits[i].kind == REMOVE_XATTR)
            removed.insert(edits[i].name);
    return removed;
}

// Removes xattrs of before the call, as far as the object has them.
int remove_xattrs(cls_method_context_t context, object_view &object, const std::set<std::string> &removed) {
    std::vector<std::string> there;
    for (auto &name : removed)
        if (object.has_xattr(name))
            there.push_back(name);
    if (removed.empty())
        return 0;
    if (object.behind)
        return NOT_FIRST;
    if (there.empty())
        return 0;
    int result = object.read_whole(context);
    return result < 0 ? result : object.make_without(context, there);
}

// All but sets of keys, and what the OSD has no call for.
int make_edit(cls_method_context_t context, const edit &one) {
    ceph::bufferlist list = one.bytes.list();
    switch (one.kind) {
    case CREATE: return cls_cxx_create(context, true);
    case REMOVE: return cls_cxx_remove(context);
    case SET_XATTR: return cls_cxx_setxattr(context, one.name.c_str(), &list);
    case REMOVE_KEY: return cls_cxx_map_remove_key(context, one.name);
    case SET_LENGTH: return cls_cxx_truncate(context, int(one.number));
    case WRITE: return cls_cxx_write(context, int(one.number), int(one.bytes.length), &list);
    case SET_HEADER: return cls_cxx_map_write_header(context, &list);
    default: return BROKEN;
    }
}

// Makes them in their order, with one call for neighbouring sets of keys.
int make_in_order(cls_method_context_t context, const std::vector<edit> &edits) {
    for (size_t i = 0; i < edits.size();) {
        values keys;
        for (; i < edits.size() && edits[i].kind == SET_KEY; i++)
            keys[edits[i].name] = edits[i].bytes.list();
        int result = keys.empty() ? make_edit(context, edits[i++]) : cls_cxx_map_set_vals(context, &keys);
        if (result < 0)
            return result;
    }
    return 0;
}

} // namespace

int make_edits(cls_method_context_t context, object_view &object, slice written, const char *&why) {
    std::vector<edit> edits;
    int result = read_edits(written, object.shows_environment(), edits, why);
    if (result < 0)
        return result;
    if (object.is_made() && !edits.empty())
        edits.insert(edits.begin(), {CREATE, {}, {}, 0});
    drop_removed(edits, object.was_there());
    size_t start = beginning(edits);
    std::set<std::string> removed = removed_from(edits, start);
    // An object that the call removed or created has no xattr of before.
    if (!start && (result = remove_xattrs(context, object, removed)) < 0)
        return result;
    std::vector<edit> made;
    for (size_t i = 0; i < edits.size(); i++)
        if (edits[i].kind != REMOVE_XATTR && (i < start || edits[i].kind != SET_XATTR || !removed.count(edits[i].name)))
            made.push_back(std::move(edits[i]));
    return make_in_order(context, made);
}
