// The environment of a call: what an OSD knows, and an object doesn't hold. An installed class sees it as xattrs of the
// object, by names that no xattr of RADOS has, since they begin with a NUL byte. All numbers are little-endian.
//
//     \0address   the caller's address, in Ceph's encoding
//     \0entity    the caller, as `client.4123`
//     \0header    the omap's header; there is no such entry if it has no bytes. It alone can be set and removed
//     \0made      nothing, of an object that is made for the call (WITH_OBJECT); there is no such entry else
//     \0random    16 random bytes, the same through one call
//     \0time      u64 nanoseconds since 1970, by the clock of the OSD, which is the object's primary
//     \0version   u64 the version of the newest change in the object's placement group
//
// An address is u8 1, u8 1, u8 1, u32 how many bytes follow, u32 its type (1 legacy, 2 msgr2, 3 any), u32 nonce, u32
// how many bytes follow, and those of a `struct sockaddr`: u16 family, then 14 bytes of IPv4, or 26 of IPv6.
#pragma once

#include "bytes.h"
#include "osd.h"

#include <cerrno>

using values = std::map<std::string, ceph::bufferlist>;

// Who calls: a client's number, below 2^32, and its address as the OSD has it in memory, u32 type, u32 nonce and a
// `struct sockaddr`.
struct origin {
    uint64_t number = 0;
    uint8_t address[36] = {};
};

// The caller, as the client says it of itself: the OSD compares its number with nothing that it authenticated. So it is
// a help against mistakes, not against attackers. Refused: NO_CLIENT.
int find_origin(cls_method_context_t context, origin &who);

// Whether a name is kept for the environment.
bool is_of_environment(const std::string &name);

// Names of two entries.
extern const std::string HEADER_NAME, MADE_NAME;

// The code by which a method that may change asks for an object, where there is none: it is called again upon one
// without data, xattrs and keys, but with an environment. That object is made if the second call changes anything.
constexpr int64_t WITH_OBJECT = -ENOANO;

// The entries of a call upon an object that is there, with this header.
int make_environment(cls_method_context_t context, const origin &who, const ceph::bufferlist &header, values &shown);
