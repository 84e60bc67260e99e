// What the stubs share. It opens a class when the OSD opens the class's stub.
#include "engine.h"

#include "bpf.h"
#include "classes.h"
#include "native.h"

#include <cstdlib>
#include <memory>

namespace {

constexpr uint32_t LIBRARY_VERSION = 2;
constexpr char PREFIX[] = "libcls_", SUFFIX[] = ".so", OWN_NAME[] = "bpf";

bool is_release_known() {
    int found = atoi(ceph_version_to_str());
    for (int release : RELEASES)
        if (found == release)
            return true;
    return false;
}

// The folder of a stub, and the class's name, which is none if the file has another kind of name.
struct place {
    std::string folder, name;

    explicit place(const std::string &path) {
        size_t slash = path.rfind('/'), start = slash == std::string::npos ? 0 : slash + 1;
        size_t prefix = sizeof PREFIX - 1, suffix = sizeof SUFFIX - 1;
        folder = slash == std::string::npos ? "." : path.substr(0, slash);
        std::string file = path.substr(start);
        if (file.size() > prefix + suffix && file.compare(0, prefix, PREFIX) == 0 &&
            file.compare(file.size() - suffix, suffix, SUFFIX) == 0)
            name = file.substr(prefix, file.size() - prefix - suffix);
    }
};

// Where a stub is, by the path that it was opened by. That of a link, which can be opened before the
// file itself, says nothing of the class: then it is the file that does.
place find_place(const char *path) {
    std::unique_ptr<char, void (*)(void *)> real(realpath(path, nullptr), free);
    place at(real ? real.get() : path);
    return at.name.empty() ? place(path) : at;
}

std::unique_ptr<opened_class> make_class(const place &at) {
    if (at.name == OWN_NAME)
        return std::make_unique<bpf_class>(OWN_NAME, at.folder);
    auto made = std::make_unique<native_class>(at.name);
    made->open(at.folder + "/" + at.name);
    return made;
}

opened_class *open_class(const char *path, const sillarnica_entry *entries) {
    place at = find_place(path);
    if (at.name.empty()) {
        cls_log(0, "bpf: %s is no name of a class's file", path);
        return nullptr;
    }
    std::unique_ptr<opened_class> made = make_class(at);
    // A refused class is known to the OSD by its file, without methods: each is answered -95.
    if (made->refused.empty() && !made->enlist(entries)) {
        cls_log(0, "bpf: class %s is opened under another name, or a second time", at.name.c_str());
        return nullptr;
    }
    keep(made.get());
    opened_class *kept = made.release();
    if (!kept->refused.empty()) {
        cls_log(0, "bpf: class %s is refused: %s", at.name.c_str(), kept->refused.c_str());
        return nullptr;
    }
    cls_log(1, "bpf: class %s is opened, image %s, budget %s", at.name.c_str(), kept->image_text().c_str(),
            kept->budget_text().c_str());
    return kept;
}

} // namespace

void *sillarnica_open_1(const char *path, const sillarnica_entry *entries) {
    if (sillarnica_version() != LIBRARY_VERSION) {
        cls_log(0, "bpf: the library has version %u, not %u", sillarnica_version(), LIBRARY_VERSION);
        return nullptr;
    }
    // What osd.h declares is that of some releases. Of a class without methods each is answered -95.
    if (!is_release_known()) {
        cls_log(0, "bpf: this is Ceph %s, which the plug-in isn't for", ceph_version_to_str());
        return nullptr;
    }
    try {
        return open_class(path, entries);
    } catch (...) {
        cls_log(0, "bpf: no memory for the class of %s", path);
        return nullptr;
    }
}

int sillarnica_call_1(void *opened, unsigned method, void *context, void *input, void *output) {
    if (!opened)
        return BROKEN;
    return static_cast<opened_class *>(opened)->serve(method, context, *static_cast<ceph::bufferlist *>(input),
                                                      *static_cast<ceph::bufferlist *>(output));
}
