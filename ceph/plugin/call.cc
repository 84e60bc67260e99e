#include "call.h"

#include "edits.h"

#include <algorithm>

namespace {

constexpr size_t FRAME = 16;

// Settings are found by their names, which takes as long as an object's xattrs: each is asked for where it matters
// alone.
uint64_t setting(const char *name) {
    return ceph::global::g_conf().get_val<Option::size_t>(name).value;
}

// What an object may hold. As many names as there may be, which an OSD doesn't count; and of data what it lets a client
// write, as far as a class can. That limits what is written alone.
sillarnica_limits limits_of(const question &asked) {
    uint64_t bytes = PLACE_LIMIT;
    if (asked.may_write && asked.needs & NEEDS_DATA)
        bytes = std::min(bytes, setting("osd_max_object_size"));
    return {bytes, SILLARNICA_ANY_NUMBER, SILLARNICA_ANY_NUMBER, NAME_LIMIT, NAME_LIMIT};
}

// Whether a code can be an operation's result. It has 32 bits, a client takes -4095 to -1 alone for
// errors, and the OSD never answers an operation with -11 or -115 (refusals.h).
bool is_result(int64_t code) {
    return code >= -4095 && code <= INT32_MAX && code != -EAGAIN && code != -EINPROGRESS;
}

// Whether what a call answers can be given back, before anything is changed.
int test_answer(const answer &found, kind as) {
    bool changes = found.edits_len > 0;
    if (changes && !as.may_change)
        return CHANGE_IN_READ;
    // A longer reply of a change is answered -75 by the OSD, and the change stands.
    size_t reply = found.output_len + (as.framed ? FRAME : 0);
    if (changes && reply && reply > setting("osd_max_write_op_reply_len"))
        return REPLY_TOO_LONG;
    if (!as.framed && !is_result(found.code))
        return NO_RESULT;
    return 0;
}

void put_answer(const answer &found, kind as, ceph::bufferlist &out) {
    if (as.framed) {
        bytes frame;
        put_number(frame, uint64_t(found.code), 8);
        put_number(frame, found.steps, 8);
        out.append(reinterpret_cast<const char *>(frame.data()), unsigned(frame.size()));
    }
    slice output = found.output();
    if (output.length)
        out.append(reinterpret_cast<const char *>(output.at), unsigned(output.length));
}

} // namespace

int refusal_of(int32_t said) {
    switch (said) {
    case SILLARNICA_OK: return 0;
    case SILLARNICA_IMAGE:
    case SILLARNICA_VERDICT: return CLASS_REFUSED;
    case SILLARNICA_NO_METHOD: return NO_METHOD;
    case SILLARNICA_INPUT_TOO_LONG: return INPUT_TOO_LONG;
    case SILLARNICA_NO_MEMORY: return NO_MEMORY;
    case SILLARNICA_FULL: return TOO_MUCH;
    default: return BROKEN; // the object's spelling is the plug-in's own, and the buffer is large enough
    }
}

int ask_by_rounds(cls_method_context_t context, const question &asked, object_view &object, answer &found,
                  account &made) {
    sillarnica_limits limits = limits_of(asked);
    object_part part(object, asked.needs);
    bytes spelled;
    for (unsigned round = 1;; round++) {
        sillarnica_want want{};
        part.put(spelled);
        int32_t said = ask_library(
            [&](uint8_t *out, size_t room) {
                return sillarnica_verified_call_part(&asked.held, asked.method.at, asked.method.length, spelled.data(),
                                                     spelled.size(), asked.caller, &limits, asked.input.at,
                                                     asked.input.length, &found, &want, out, room);
            },
            found);
        bool is_full = said == SILLARNICA_FULL;
        if (said != SILLARNICA_WANTS && !is_full)
            return refusal_of(said);
        if (round == ROUNDS) {
            made.why = "over 16 rounds";
            return TOO_MUCH;
        }
        int result = is_full ? part.spare(made.why) : part.fetch(context, {want.bytes, want.length}, made.why);
        if (result < 0)
            return result;
    }
}

int give_answer(cls_method_context_t context, const answer &found, object_view &object, kind as, ceph::bufferlist &out,
                account &made) {
    made.code = found.code;
    made.steps = found.steps;
    made.output = size_t(found.output_len);
    int result = test_answer(found, as);
    if (result < 0)
        return result;
    if (found.edits_len && (result = make_edits(context, object, found.edits(), made.why)) < 0)
        return result;
    put_answer(found, as, out);
    made.edits = size_t(found.edits_len);
    made.was_run = true;
    return as.framed ? 0 : int(found.code);
}
