#include "environment.h"

#include "refusals.h"

#include <cstring>
#include <sys/socket.h>
#include <time.h>

const std::string HEADER_NAME("\0header", 7), MADE_NAME("\0made", 5);

namespace {

constexpr uint8_t CLIENT_TYPE = 8;      // CEPH_ENTITY_TYPE_CLIENT
constexpr size_t ADDRESS = 16;          // the place of the address in an `entity_inst_t`
constexpr size_t IPV4 = 16, OTHER = 28; // bytes of a `struct sockaddr`, as Ceph keeps it
constexpr size_t RANDOM = 16;

std::string reserved(const char *name) {
    return std::string(1, '\0') + name;
}

ceph::bufferlist list_of(const bytes &from) {
    return slice{from.data(), from.size()}.list();
}

ceph::bufferlist number_of(uint64_t value) {
    bytes made;
    put_number(made, value, 8);
    return list_of(made);
}

// In Ceph's encoding.
bytes address_of(const origin &who) {
    reader in{{who.address, sizeof who.address}};
    uint64_t type = in.number(4), nonce = in.number(4), family = reader{in.rest}.number(2);
    slice socket = in.take(family == AF_INET ? IPV4 : OTHER);
    bytes made{1, 1, 1};
    put_number(made, 12 + socket.length, 4);
    put_number(made, type, 4);
    put_number(made, nonce, 4);
    put_number(made, socket.length, 4);
    put_bytes(made, socket);
    return made;
}

uint64_t now() {
    timespec found{};
    clock_gettime(CLOCK_REALTIME, &found);
    return uint64_t(found.tv_sec) * 1000000000 + uint64_t(found.tv_nsec);
}

} // namespace

// The OSD writes an `entity_inst_t`: a type in one byte, the number in 8 bytes from the 8th on, and
// an address, for which there is more than enough room.
int find_origin(cls_method_context_t context, origin &who) {
    alignas(16) unsigned char entity[512] = {};
    if (cls_get_request_origin(context, entity) < 0)
        return NO_CLIENT;
    uint64_t number = reader{{entity + 8, 8}}.number(8);
    if (entity[0] != CLIENT_TYPE || number < 1 || number > UINT32_MAX)
        return NO_CLIENT;
    who.number = number;
    memcpy(who.address, entity + ADDRESS, sizeof who.address);
    return 0;
}

bool is_of_environment(const std::string &name) {
    return !name.empty() && name[0] == '\0';
}

int make_environment(cls_method_context_t context, const origin &who, const ceph::bufferlist &header, values &shown) {
    char random[RANDOM];
    if (cls_gen_random_bytes(random, RANDOM) < 0)
        return BROKEN;
    shown[reserved("random")].append(random, RANDOM);
    shown[reserved("address")] = list_of(address_of(who));
    shown[reserved("entity")].append("client." + std::to_string(who.number));
    shown[reserved("time")] = number_of(now());
    shown[reserved("version")] = number_of(cls_current_version(context));
    if (header.length())
        shown[HEADER_NAME] = header;
    return 0;
}
