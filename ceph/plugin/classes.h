// The classes that an OSD opened in this process: what they are called by, and what their calls took.
#pragma once

#include "bytes.h"
#include "call.h"
#include "engine.h"

#include <array>
#include <atomic>
#include <string>
#include <vector>

// A method as the OSD is told of it.
struct declared {
    std::string name;
    bool may_change;
};

// What the calls of a method took since the OSD's start.
struct counters {
    std::atomic<uint64_t> calls{0}, refusals{0}, steps{0}, nanoseconds{0}, edits{0};
};

class opened_class {
public:
    explicit opened_class(std::string name) : name(std::move(name)) {}
    virtual ~opened_class() = default;

    // Calls a method: the operation's result. No exception leaves it, since it would end the OSD.
    // Each call is counted, and is a line in the OSD's log: at level 10, or at 5 if it is refused.
    int serve(unsigned method, cls_method_context_t context, ceph::bufferlist &in, ceph::bufferlist &out) noexcept;

    // Tells the OSD of the methods. False if it doesn't take the class, as of a name that is taken.
    bool enlist(const sillarnica_entry *entries) const;

    // A line for each method: class, method, calls, refusals, steps, nanoseconds, bytes of edits.
    std::string counted() const;

    // What operators are told of the image and the budget: `-` where there is none.
    std::string image_text() const { return sum.empty() ? "-" : sum; }
    std::string budget_text() const { return budget ? std::to_string(budget) : "-"; }

    const std::string name;
    std::string sum;     // SHA-256 of the image; none of the class `bpf`
    uint32_t budget = 0; // the greatest that a method with loops may declare; none of the class `bpf`
    std::string refused; // why it is no class; none if it is one

protected:
    virtual int call(unsigned method, cls_method_context_t context, ceph::bufferlist &in, ceph::bufferlist &out,
                     account &made) = 0;

    std::vector<declared> methods;

private:
    void note(unsigned method, int result, uint64_t nanoseconds, const account &made) noexcept;

    std::array<counters, SILLARNICA_METHODS> taken;
};

// Keeps a class until the process ends: an OSD closes none.
void keep(opened_class *one);

// All that were kept, in the order of their opening.
std::vector<const opened_class *> all_classes();
