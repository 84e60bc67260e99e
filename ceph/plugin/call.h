// A call of a class, whether it is installed, loaded beside the object or sent: what the library
// answers, whether that can be given back, and what is written down of it.
#pragma once

#include "bytes.h"
#include "object.h"
#include "osd.h"
#include "part.h"
#include "refusals.h"

#include <memory>

#include "sillarnica.h"

// How a call is made: whether it may change the object, and whether code and steps come before the
// output, or the code is the operation's result.
struct kind {
    bool may_change, framed;
};

// A call of the library, of a class that is held for it.
struct question {
    sillarnica_verified &held;
    slice method, input;
    uint64_t caller;
    unsigned needs; // the parts of an object that the method needs
    bool may_write;
};

// An answer of the library, with its bytes.
struct answer : sillarnica_answer {
    std::unique_ptr<uint8_t[]> bytes;
    size_t room = 0;

    void make_room(size_t length) {
        bytes.reset(new uint8_t[length]);
        room = length;
    }

    slice output() const { return {bytes.get(), size_t(output_len)}; }
    slice edits() const { return {bytes.get() + output_len, size_t(edits_len)}; }
};

// What the log and the counters say of a call.
struct account {
    std::string called; // the class and the method, where the method's own name doesn't say it
    bool was_run = false;
    int64_t code = 0;
    uint64_t steps = 0;
    size_t input = 0, output = 0, edits = 0;
    const char *why = nullptr; // more of a refusal than its number
};

// What nearly every answer fits in. A longer one makes the call twice.
constexpr size_t FIRST_BUFFER = 16384;

// Makes a call of the library, which is a function of its bytes: into a buffer of that size, and
// where that is too small into one of the size that the library asks for.
template <class Call> int32_t ask_library(Call call, answer &found) {
    if (!found.room)
        found.make_room(FIRST_BUFFER);
    int32_t said = call(found.bytes.get(), found.room);
    if (said != SILLARNICA_NO_ROOM)
        return said;
    found.make_room(size_t(found.output_len + found.edits_len));
    return call(found.bytes.get(), found.room);
}

// The refusal of an answer of the library; 0 of a good one.
int refusal_of(int32_t said);

// How often the library is asked for one answer.
constexpr unsigned ROUNDS = 16;

// Asks the library by rounds: each hands it the part of the object that the rounds before asked for. All of a call read
// one state of the object, under the OSD's lock of it, and nothing is changed before the answer is whole. Refused:
// what `object_part::fetch` refuses; TOO_MUCH; what the library refuses.
int ask_by_rounds(cls_method_context_t context, const question &asked, object_view &object, answer &found,
                  account &made);

// Gives an answer back: tests that it can be given, makes its edits of the object that was handed to the
// library, and puts its output. The operation's result.
int give_answer(cls_method_context_t context, const answer &found, object_view &object, kind as, ceph::bufferlist &out,
                account &made);
