#include "native.h"

#include "object.h"
#include "sum.h"

#include <algorithm>
#include <cerrno>
#include <cstdio>
#include <cstdlib>
#include <memory>

namespace {

// The most bytes of an image, and of a budget's file: seven digits and the line's end.
constexpr size_t LONGEST_FILE = 3826120, LONGEST_BUDGET = 8;

// A handle for the time of one call.
struct lease {
    handles &from;
    sillarnica_verified one{};

    ~lease() {
        if (one.is_open)
            from.give(one);
    }
};

// Reads a file, of one that is longer than this one byte more. 0, or the error's number.
int read_file(const std::string &path, size_t most, bytes &to) {
    std::unique_ptr<FILE, int (*)(FILE *)> file(fopen(path.c_str(), "rb"), fclose);
    if (!file)
        return errno;
    to.resize(most + 1);
    to.resize(fread(to.data(), 1, to.size(), file.get()));
    return ferror(file.get()) ? EIO : 0;
}

// The budget that a file keeps; the usual one if there is none, and 0 of a file that has another content.
uint32_t read_budget(const std::string &path) {
    bytes file;
    if (int error = read_file(path, LONGEST_BUDGET, file))
        return error == ENOENT ? SILLARNICA_BUDGET : 0;
    std::string text = slice{file.data(), file.size()}.text();
    unsigned long found = strtoul(text.c_str(), nullptr, 10);
    bool is_number = text == std::to_string(found) || text == std::to_string(found) + "\n";
    return is_number && found <= SILLARNICA_BUDGET_LIMIT ? uint32_t(found) : 0;
}

std::string verdict_of(slice image) {
    uint8_t text[256];
    int64_t length = sillarnica_loops_explain(image.at, image.length, text, sizeof text);
    if (length <= 0) // of an accepted one too, which memory was short for
        return "no memory";
    return slice{text, std::min(size_t(length), sizeof text)}.text();
}

} // namespace

handles::~handles() {
    for (auto &one : idle)
        sillarnica_verified_close(&one);
    sillarnica_verified_close(&first);
}

int32_t handles::open(slice image, uint32_t budget, sillarnica_refusal &why) {
    return sillarnica_loops_open(image.at, image.length, budget, &why, &first);
}

int32_t handles::method_at(size_t n, sillarnica_declared &told, std::string &name) {
    uint8_t text[NAME_LIMIT];
    int32_t said = sillarnica_verified_method_at(&first, n, &told, text, sizeof text);
    if (said == SILLARNICA_OK)
        name = slice{text, std::min(size_t(told.name_len), sizeof text)}.text();
    return said;
}

int32_t handles::take(sillarnica_verified &one) {
    std::lock_guard<std::mutex> guard(lock);
    if (!idle.empty()) {
        one = idle.back();
        idle.pop_back();
        return SILLARNICA_OK;
    }
    idle.reserve(made + 1); // so that giving it back takes no memory
    int32_t said = sillarnica_verified_copy(&first, &one);
    made += said == SILLARNICA_OK;
    return said;
}

void handles::give(const sillarnica_verified &one) noexcept {
    std::lock_guard<std::mutex> guard(lock);
    idle.push_back(one);
}

void native_class::open(const std::string &path) {
    bytes image;
    std::string kept = path + ".budget";
    // Once more if the class was installed anew in between: so no image is judged by another's budget.
    do {
        budget = read_budget(kept);
        if (read_file(path + ".img", LONGEST_FILE, image)) {
            refused = "there is no image " + path + ".img";
            return;
        }
    } while (budget != read_budget(kept));
    slice whole{image.data(), image.size()};
    sum = sum_of(whole);
    if (whole.length > LONGEST_FILE)
        refused = "the file is too long for an image";
    else if (!budget)
        refused = kept + " has no number from 1 to " + std::to_string(SILLARNICA_BUDGET_LIMIT);
    else
        judge(whole);
}

void native_class::judge(slice image) {
    sillarnica_refusal why{};
    int32_t said = pool.open(image, budget, why);
    if (said == SILLARNICA_OK)
        find_methods();
    else if (said == SILLARNICA_TOO_LARGE)
        refused = "method " + std::to_string(why.method) + " declares a budget of " + std::to_string(why.number) +
                  ", over the class's of " + std::to_string(budget);
    else
        refused = verdict_of(image);
}

void native_class::find_methods() {
    sillarnica_declared told{};
    std::string name;
    for (size_t n = 0; pool.method_at(n, told, name) == SILLARNICA_OK; n++) {
        methods.push_back({name, told.flags != 1});
        needs.push_back(told.needs);
    }
}

int native_class::call(unsigned method, cls_method_context_t context, ceph::bufferlist &in, ceph::bufferlist &out,
                       account &made) {
    const declared &called = methods[method];
    origin who;
    object_view object(is_behind(context), &who);
    answer found{};
    int result = find_origin(context, who);
    if (result < 0 || (result = object.read(context, needs[method])) < 0)
        return result;
    lease handle{pool};
    if ((result = refusal_of(pool.take(handle.one))) < 0)
        return result;
    question asked{handle.one, slice_of(called.name), slice_of(in), who.number, needs[method], called.may_change};
    result = ask_by_rounds(context, asked, object, found, made);
    if (result >= 0 && found.code == WITH_OBJECT && called.may_change && object.is_absent()) {
        uint64_t steps = found.steps;
        if ((result = object.make(context)) >= 0)
            result = ask_by_rounds(context, asked, object, found, made);
        found.steps += steps;
    }
    // What a class in C++ answers to a request that it can't decode.
    if (result < 0)
        return result == INPUT_TOO_LONG ? int(BAD_REQUEST) : result;
    return give_answer(context, found, object, {called.may_change, false}, out, made);
}
