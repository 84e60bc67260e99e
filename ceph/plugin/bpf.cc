#include "bpf.h"

#include "object.h"

#include <fstream>
#include <iterator>
#include <string>

namespace {

constexpr unsigned REQUEST_VERSION = 1;
constexpr size_t IMAGE_LIMIT = 65536, CLASS_LIMIT = 16;

enum source : unsigned { LOADED = 0, SENT = 1 };

struct request {
    source from = LOADED;
    slice name_or_image, method, input;
};

// Reads a request of a class from that source, and of no other.
int read_request(slice from, request &found) {
    reader in{from};
    unsigned version = unsigned(in.number(1)), source = unsigned(in.number(1));
    found.name_or_image = in.take(in.number(4));
    found.method = in.take(in.number(1));
    found.input = in.rest;
    return in.short_of || version != REQUEST_VERSION || source != unsigned(found.from) ? BAD_REQUEST : 0;
}

// A class's name: 1 to 64 visible ASCII characters, so that a list of names is lines.
bool is_class_name(slice name) {
    for (size_t i = 0; i < name.length; i++)
        if (name.at[i] <= 0x20 || name.at[i] >= 0x7f)
            return false;
    return name.length >= 1 && name.length <= NAME_LIMIT;
}

// The image that a request means; a loaded one is put into `held`.
int find_image(cls_method_context_t context, const request &asked, ceph::bufferlist &held, slice &image) {
    image = asked.name_or_image;
    if (asked.from == LOADED) {
        if (!is_class_name(asked.name_or_image))
            return BAD_REQUEST;
        int result = cls_cxx_getxattr(context, (OWN_PREFIX + asked.name_or_image.text()).c_str(), &held);
        if (result < 0)
            return result == -ENOENT ? NO_CLASS : result;
        if (!held.length())
            return NO_CLASS;
        image = slice_of(held);
    }
    return image.length > IMAGE_LIMIT ? CLASS_REFUSED : 0;
}

// A class that is held for one call.
struct held_class {
    sillarnica_verified one{};

    ~held_class() { sillarnica_verified_close(&one); }
};

// Verifies a class, and finds the parts of an object that the method needs.
int hold(slice image, const request &asked, held_class &held, unsigned &needs) {
    sillarnica_refusal why{};
    int32_t said = sillarnica_verified_open(image.at, image.length, &why, &held.one);
    if (said != SILLARNICA_OK)
        return refusal_of(said);
    said = sillarnica_verified_needs(&held.one, asked.method.at, asked.method.length);
    if (said < 0)
        return refusal_of(said);
    needs = unsigned(said);
    return 0;
}

// What was called, for the log: a class's name is visible ASCII, and a method's name is what no
// method is called if it has other bytes.
std::string called_by(const request &asked) {
    std::string name =
        asked.from == LOADED && is_class_name(asked.name_or_image) ? asked.name_or_image.text() : "image";
    return name + "." + (is_class_name(asked.method) ? asked.method.text() : "?");
}

int make_call(cls_method_context_t context, ceph::bufferlist &in, ceph::bufferlist &out, account &made, kind as,
              source from) {
    request asked;
    ceph::bufferlist kept;
    slice image;
    origin who;
    object_view object(is_behind(context), nullptr);
    held_class held;
    unsigned needs = 0;
    answer found{};
    asked.from = from;
    int result = read_request(slice_of(in), asked);
    if (result < 0)
        return result;
    made.called = called_by(asked);
    if ((result = find_image(context, asked, kept, image)) < 0 || (result = find_origin(context, who)) < 0)
        return result;
    // If there is no such class or method, nothing is read.
    if ((result = hold(image, asked, held, needs)) < 0 || (result = object.read(context, needs)) < 0)
        return result;
    question call{held.one, asked.method, asked.input, who.number, needs, true};
    if ((result = ask_by_rounds(context, call, object, found, made)) < 0)
        return result;
    return give_answer(context, found, object, as, out, made);
}

int verify(slice image, ceph::bufferlist &out) {
    if (image.length > IMAGE_LIMIT) {
        out.append("image refused: it has more than 65536 bytes");
        return 0;
    }
    uint8_t text[256];
    int64_t length = sillarnica_explain(image.at, image.length, text, sizeof text);
    if (length < 0 || size_t(length) > sizeof text)
        return length == SILLARNICA_NO_MEMORY ? NO_MEMORY : BROKEN;
    if (length)
        out.append(reinterpret_cast<const char *>(text), unsigned(length));
    return 0;
}

// The plug-in's own xattrs of the object; none of an absent one. One without bytes is no class.
int own_xattrs(cls_method_context_t context, values &own) {
    values all;
    int result = cls_cxx_getxattrs(context, &all);
    if (result == -ENOENT)
        return 0;
    for (auto &[name, value] : all)
        if (is_own(name))
            own[name] = value;
    return result < 0 ? result : 0;
}

int load(cls_method_context_t context, slice from) {
    // What an earlier step loaded isn't read, and would not be counted.
    if (is_behind(context))
        return NOT_FIRST;
    reader in{from};
    slice name = in.take(in.number(1)), image = in.rest;
    if (in.short_of || !is_class_name(name))
        return BAD_REQUEST;
    sillarnica_refusal why{};
    int result =
        image.length > IMAGE_LIMIT ? CLASS_REFUSED : refusal_of(sillarnica_verify(image.at, image.length, &why));
    values own;
    if (result < 0 || (result = own_xattrs(context, own)) < 0)
        return result;
    std::string key = OWN_PREFIX + name.text();
    own.erase(key);
    if (own.size() >= CLASS_LIMIT)
        return TOO_MANY_CLASSES;
    size_t together = image.length;
    for (auto &[other, bytes] : own)
        together += bytes.length();
    if (together > IMAGE_LIMIT)
        return NO_ROOM_FOR_IMAGE;
    ceph::bufferlist kept = image.list();
    return cls_cxx_setxattr(context, key.c_str(), &kept);
}

int unload(cls_method_context_t context, slice from) {
    // An earlier step's writes would be lost where the object is made again.
    if (is_behind(context))
        return NOT_FIRST;
    reader in{from};
    slice name = in.take(in.number(1));
    if (in.short_of || in.rest.length || !is_class_name(name))
        return BAD_REQUEST;
    std::string key = OWN_PREFIX + name.text();
    ceph::bufferlist held;
    int result = cls_cxx_getxattr(context, key.c_str(), &held);
    if (result < 0)
        return result == -ENOENT ? NO_CLASS : result;
    return held.length() ? remove_own_xattr(context, key) : NO_CLASS;
}

int list(cls_method_context_t context, slice from, ceph::bufferlist &out) {
    if (from.length)
        return BAD_REQUEST;
    values own;
    int result = own_xattrs(context, own);
    if (result < 0)
        return result;
    for (auto &[name, image] : own)
        if (image.length())
            out.append(name.substr(sizeof OWN_PREFIX - 1) + " " + std::to_string(image.length()) + "\n");
    return 0;
}

int classes(slice from, ceph::bufferlist &out) {
    if (from.length)
        return BAD_REQUEST;
    for (auto *one : all_classes())
        out.append(one->name + " " + one->image_text() + (one->refused.empty() ? " ok " : " refused ") +
                   one->budget_text() + "\n");
    return 0;
}

int stats(slice from, ceph::bufferlist &out) {
    if (from.length)
        return BAD_REQUEST;
    for (auto *one : all_classes())
        out.append(one->counted());
    return 0;
}

using context = cls_method_context_t;
using list_of_bytes = ceph::bufferlist;
using body = int (*)(context, list_of_bytes &in, list_of_bytes &out, account &made);

template <bool may_change, bool framed, source from>
int on_call(context at, list_of_bytes &in, list_of_bytes &out, account &made) {
    return make_call(at, in, out, made, {may_change, framed}, from);
}

template <int (*tell)(slice, list_of_bytes &)> int on_tell(context, list_of_bytes &in, list_of_bytes &out, account &) {
    return tell(slice_of(in), out);
}

template <int (*change)(context, slice)> int on_change(context at, list_of_bytes &in, list_of_bytes &, account &) {
    return change(at, slice_of(in));
}

int on_list(context at, list_of_bytes &in, list_of_bytes &out, account &) {
    return list(at, slice_of(in), out);
}

int on_nothing(context, list_of_bytes &, list_of_bytes &, account &) {
    return 0;
}

struct method {
    const char *name;
    bool may_change;
    body call;
};

// clang-format off
constexpr method METHODS[] = {
    {"verify", false, on_tell<verify>},
    {"load", true, on_change<load>},
    {"unload", true, on_change<unload>},
    {"list", false, on_list},
    {"classes", false, on_tell<classes>},
    {"stats", false, on_tell<stats>},
    {"nothing", true, on_nothing},
    {"exec", true, on_call<true, true, LOADED>},
    {"query", false, on_call<false, true, LOADED>},
    {"run", true, on_call<true, false, LOADED>},
    {"see", false, on_call<false, false, LOADED>},
    {"exec_sent", true, on_call<true, true, SENT>},
    {"query_sent", false, on_call<false, true, SENT>},
    {"run_sent", true, on_call<true, false, SENT>},
    {"see_sent", false, on_call<false, false, SENT>},
};
// clang-format on

constexpr size_t SENT_METHODS = 4; // the last ones

} // namespace

bpf_class::bpf_class(const std::string &name, const std::string &folder) : opened_class(name) {
    size_t count = std::size(METHODS);
    if (!std::ifstream(folder + "/" + name + ".sent"))
        count -= SENT_METHODS;
    for (size_t i = 0; i < count; i++)
        methods.push_back({METHODS[i].name, METHODS[i].may_change});
}

int bpf_class::call(unsigned method, cls_method_context_t context, ceph::bufferlist &in, ceph::bufferlist &out,
                    account &made) {
    return METHODS[method].call(context, in, out, made);
}
