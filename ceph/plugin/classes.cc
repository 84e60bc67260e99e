#include "classes.h"

#include <chrono>
#include <mutex>
#include <new>

namespace {

constexpr int LEVEL_OF_CALLS = 10, LEVEL_OF_REFUSALS = 5;

struct kept_classes {
    std::mutex lock;
    std::vector<opened_class *> all;
};

// Never freed: an OSD may still call when the process ends.
kept_classes &kept() {
    static auto *classes = new kept_classes;
    return *classes;
}

uint64_t now() {
    using namespace std::chrono;
    return uint64_t(duration_cast<nanoseconds>(steady_clock::now().time_since_epoch()).count());
}

void add(std::atomic<uint64_t> &to, uint64_t value) {
    to.fetch_add(value, std::memory_order_relaxed);
}

std::string text_of(const std::atomic<uint64_t> &from) {
    return " " + std::to_string(from.load(std::memory_order_relaxed));
}

} // namespace

int opened_class::serve(unsigned method, cls_method_context_t context, ceph::bufferlist &in,
                        ceph::bufferlist &out) noexcept {
    uint64_t start = now();
    account made;
    made.input = in.length();
    int result;
    try {
        result = method < methods.size() ? call(method, context, in, out, made) : BROKEN;
    } catch (const std::bad_alloc &) {
        result = NO_MEMORY;
        made.was_run = false;
    } catch (...) {
        result = BROKEN;
        made.was_run = false;
    }
    if (result < 0)
        out.clear();
    note(method, result, now() - start, made);
    return result;
}

void opened_class::note(unsigned method, int result, uint64_t nanoseconds, const account &made) noexcept {
    if (method >= methods.size())
        return;
    bool is_refused = result < 0 && !made.was_run;
    counters &of = taken[method];
    add(of.calls, 1);
    add(of.refusals, is_refused);
    add(of.steps, made.steps);
    add(of.nanoseconds, nanoseconds);
    add(of.edits, made.edits);
    const char *blank = made.called.empty() ? "" : " ", *method_name = methods[method].name.c_str();
    if (is_refused)
        cls_log(LEVEL_OF_REFUSALS, "%s.%s%s%s: refused %d%s%s", name.c_str(), method_name, blank, made.called.c_str(),
                result, made.why ? ": " : "", made.why ? made.why : "");
    else if (made.was_run)
        cls_log(LEVEL_OF_CALLS, "%s.%s%s%s: code %lld, steps %llu, bytes: input %zu, output %zu, edits %zu",
                name.c_str(), method_name, blank, made.called.c_str(), (long long)made.code,
                (unsigned long long)made.steps, made.input, made.output, made.edits);
    else
        cls_log(LEVEL_OF_CALLS, "%s.%s%s%s: done", name.c_str(), method_name, blank, made.called.c_str());
}

bool opened_class::enlist(const sillarnica_entry *entries) const {
    cls_handle_t handle = nullptr;
    cls_register(name.c_str(), &handle);
    if (!handle) // with a null handle the next call would end the OSD
        return false;
    cls_method_handle_t ignored;
    for (size_t i = 0; i < methods.size(); i++) {
        // A method that may change reads as well, and the OSD answers -5 to one that reads and doesn't say so.
        int flags = methods[i].may_change ? CLS_METHOD_RD | CLS_METHOD_WR : CLS_METHOD_RD;
        auto entry = reinterpret_cast<cls_method_cxx_call_t>(entries[i]);
        cls_register_cxx_method(handle, methods[i].name.c_str(), flags, entry, &ignored);
    }
    return true;
}

std::string opened_class::counted() const {
    std::string lines;
    for (size_t i = 0; i < methods.size(); i++) {
        const counters &of = taken[i];
        lines += name + " " + methods[i].name + text_of(of.calls) + text_of(of.refusals) + text_of(of.steps) +
                 text_of(of.nanoseconds) + text_of(of.edits) + "\n";
    }
    return lines;
}

void keep(opened_class *one) {
    std::lock_guard<std::mutex> guard(kept().lock);
    kept().all.push_back(one);
}

std::vector<const opened_class *> all_classes() {
    std::lock_guard<std::mutex> guard(kept().lock);
    return {kept().all.begin(), kept().all.end()};
}
