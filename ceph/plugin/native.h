// An installed class: its image lies beside the stub that the OSD opened, and so does `NAME.budget`, a file with the
// greatest budget that a method with loops may declare; without it that is the usual one. The class is verified when it
// is opened, and called by handles that share it.
#pragma once

#include "classes.h"

#include <mutex>

#include "sillarnica.h"

// Handles of one class. On each one call is made at a time, so there are as many as calls were made at once.
class handles {
public:
    ~handles();

    // Verifies the class, for the first handle: what the library said, and why. To be called once, before all others.
    int32_t open(slice image, uint32_t budget, sillarnica_refusal &why);

    // The method of a number, from 0 on, and what it declares: what the library said.
    int32_t method_at(size_t n, sillarnica_declared &told, std::string &name);

    // Takes a handle that no call has, or makes another of the class: what the library said.
    int32_t take(sillarnica_verified &one);
    void give(const sillarnica_verified &one) noexcept;

private:
    std::mutex lock;
    sillarnica_verified first{};
    std::vector<sillarnica_verified> idle;
    size_t made = 0;
};

class native_class : public opened_class {
public:
    explicit native_class(const std::string &name) : opened_class(name) {}

    // Reads image and budget, of a path without its ending, and verifies the class. If it is none that can be called,
    // `refused` says why.
    void open(const std::string &path);

private:
    int call(unsigned method, cls_method_context_t context, ceph::bufferlist &in, ceph::bufferlist &out,
             account &made) override;
    void judge(slice image);
    void find_methods();

    std::vector<unsigned> needs; // of each method the parts of an object
    handles pool;
};
