// The object that a call is made on, as the OSD shows it.
#pragma once

#include "bytes.h"
#include "environment.h"
#include "osd.h"

// Of a part of an object (part.h), but for the data: an object that is made again has at most so much of each.
constexpr size_t DATA_LIMIT = 65536, XATTR_LIMIT = 32, KEY_LIMIT = 1024, NAME_LIMIT = 64, VALUE_LIMIT = 4096;

// The end of what the OSD's calls, whose places have 32 bits, can write.
constexpr uint64_t PLACE_LIMIT = INT32_MAX;

// The parts of an object that a method's code can reach, as `sillarnica_needs` adds them.
constexpr unsigned NEEDS_DATA = 1, NEEDS_XATTRS = 2;

// Xattrs whose names begin so hold the loaded classes. No method sees, sets or removes one.
constexpr char OWN_PREFIX[] = "bpf.";

// Whether a name is the plug-in's own.
bool is_own(const std::string &name);

// Whether another step of the call's operation stands before it. To be asked before all other calls of the
// OSD's: each of those that reads or changes the object counts as a step.
bool is_behind(cls_method_context_t context);

// An object as the OSD shows it to a class. Behind other steps of an operation presence and size are as
// those left them, and all else is as it was before the operation.
class object_view {
public:
    // With a caller the xattrs that a method sees begin with the environment of its call (environment.h); without one
    // there is none, as of the class `bpf`. It has to be known when xattrs are read.
    object_view(bool behind, const origin *caller) : behind(behind), caller(caller) {}

    // Reads whether there is an object and how long its data is, and its xattrs if these parts have them.
    int read(cls_method_context_t context, unsigned parts);

    // Of one that was read and is absent, with a caller: an object for its call (WITH_OBJECT).
    int make(cls_method_context_t context);
    bool is_absent() const { return is_found && !is_there; }
    bool is_made() const { return was_made; }
    bool was_there() const { return is_there && !was_made; }

    uint64_t length() const { return size; }

    // The xattrs that a method sees, of those that were read.
    const values &shown() const { return seen; }

    // Of xattrs that were read, the plug-in's own among them.
    bool has_xattr(const std::string &name) const { return xattrs.count(name) || own.count(name); }

    // Reads all of it, for `make_without`, of an object whose xattrs were read. Refused: DATA_TOO_LONG, and TOO_MUCH,
    // an object that is past the limits.
    int read_whole(cls_method_context_t context);

    // Removes xattrs that it has, in the one way that the OSD's calls have, which Ceph's class `rgw` uses
    // too: the object is removed and made again, all in the operation's one transaction, with its data, its
    // omap and its other xattrs. Who watches the object is cut off. Only for an operation's first step: what
    // earlier steps wrote isn't shown, and would be lost. All of it was read.
    int make_without(cls_method_context_t context, const std::vector<std::string> &names);

    bool shows_environment() const { return caller; }

    const bool behind; // other steps

private:
    int read_xattrs(cls_method_context_t context);
    int read_header(cls_method_context_t context);
    int write(cls_method_context_t context);

    const origin *const caller;
    bool is_found = false, is_there = false, was_made = false, has_header = false;
    uint64_t size = 0;
    ceph::bufferlist data, header;
    values xattrs, own, keys, seen;
};

// Keys above a name, in their order; `more` if there are others above them. Of an object that an earlier step made
// there are none.
int keys_above(cls_method_context_t context, bool behind, const std::string &name, uint64_t most, values &keys,
               bool &more);

// Removes an xattr of the plug-in's, as an operation's first step. Of an object that can't be made again,
// since it is past the limits or its pool is erasure-coded, the xattr is left without bytes.
int remove_own_xattr(cls_method_context_t context, const std::string &name);
