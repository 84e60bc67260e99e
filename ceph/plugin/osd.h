// The OSD's calls that this plug-in makes. <rados/objclass.h> declares those of the object class
// SDK; the others are declared here by hand, as in Ceph's own src/objclass/objclass.h, which is the
// same in the releases below. Each name is resolved when the OSD opens the plug-in: if one is
// missing, the plug-in isn't opened at all. `ceph/build.sh` tests that the installed OSD exports
// every one and is of one of these releases.
#pragma once

#include <map>
#include <string>
#include <string_view>

#include <rados/objclass.h>

extern "C" int cls_get_request_origin(cls_method_context_t context, void *entity);
int cls_current_subop_num(cls_method_context_t context);
uint64_t cls_current_version(cls_method_context_t context);
int cls_gen_random_bytes(char *to, int length);
int cls_cxx_getxattrs(cls_method_context_t context, std::map<std::string, ceph::bufferlist> *xattrs);
int cls_cxx_map_get_vals(cls_method_context_t context, const std::string &after, const std::string &prefix,
                         uint64_t most, std::map<std::string, ceph::bufferlist> *values, bool *more);
int cls_cxx_map_set_vals(cls_method_context_t context, const std::map<std::string, ceph::bufferlist> *values);
int cls_cxx_map_remove_key(cls_method_context_t context, const std::string &key);
int cls_cxx_map_read_header(cls_method_context_t context, ceph::bufferlist *header);
int cls_cxx_map_write_header(cls_method_context_t context, ceph::bufferlist *header);
int cls_cxx_truncate(cls_method_context_t context, int size);

// The OSD's version, as "16.2.15", and the releases that this page was compared with.
const char *ceph_version_to_str();
constexpr int RELEASES[] = {16, 18};

// The OSD's settings, of which one is read. Its type is a number of bytes.
struct Option {
    struct size_t {
        std::size_t value;
    };
};
namespace ceph {
namespace common {
class ConfigProxy {
public:
    template <typename T> const T get_val(std::string_view key) const;
};
} // namespace common
namespace global {
common::ConfigProxy &g_conf();
} // namespace global
} // namespace ceph
