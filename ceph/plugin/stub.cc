// What an OSD opens as a class: `libcls_bpf.so`, and for each installed class a copy of it,
// `libcls_NAME.so`. A copy, and no link: of a second name of one file `dlopen` gives the first one
// again, with its path and its memory.
//
// It uses nothing of Ceph's and nothing of the C++ library's.
#include "engine.h"

#include <dlfcn.h>
#include <utility>

namespace {

// The opened class. It is set before the OSD can call: it holds its lock of classes until
// `__cls_init` is done.
void *opened;

template <unsigned method> int on_call(void *context, void *input, void *output) {
    return sillarnica_call_1(opened, method, context, input, output);
}

struct table {
    sillarnica_entry entries[SILLARNICA_METHODS];
};

template <unsigned... method> constexpr table entries_of(std::integer_sequence<unsigned, method...>) {
    return {{on_call<method>...}};
}

constexpr table TABLE = entries_of(std::make_integer_sequence<unsigned, SILLARNICA_METHODS>());

} // namespace

extern "C" void __cls_init() {
    // The OSD doesn't say which class it opens. The linker knows by which path.
    Dl_info self;
    if (!dladdr(&opened, &self) || !self.dli_fname)
        return;
    // Null under a second name, by a link: then the class of the first name stays.
    if (void *found = sillarnica_open_1(self.dli_fname, TABLE.entries))
        opened = found;
}
