// Makes calls of the plug-in over the stand-in of an OSD, of whatever bytes libFuzzer hands in, and looks at what each
// answers and what it does with the object. tools/fuzz.sh builds and runs it; the classes to open are in the folder
// `classes` beside the program.
//
// An input is u8 which method of which class, u8 flags (below), u8 the number of a call, a growth or an `operator new`
// that fails, u8 of a class, u8 of a method, u16 bytes of data, and the xattrs and the keys: u8 count, and of each u8
// length, name, u8 length, value. The rest is the request; or where it is made here, of a class and a method by their
// numbers, the image in it or the input. What an input lacks is zero.
#define main stand_in
#include "stand_in.cc"
#undef main

#include <cstdint>

// libFuzzer takes memory by this one too, and frees it by the stand-in's.
void *operator new(size_t size, const std::nothrow_t &) noexcept {
    return malloc(size ? size : 1);
}

namespace {

// Flags. The two bits from FAILS on say what fails: nothing, a call of the OSD's, a growth, an `operator new`.
enum : unsigned { IS_THERE = 1, HAS_CLASSES = 2, HAS_HEADER = 4, IS_SECOND = 8, IS_MADE = 16, HAS_IMAGE = 32 };
constexpr unsigned FAILS = 6;

const char OWN[] = "bpf.";

struct known_image {
    std::string name, image;
    std::vector<std::string> methods;
};
std::vector<known_image> images;
std::vector<std::pair<std::string, std::string>> methods; // of all classes: the class and the method

// What the class `bpf` refuses where nothing fails (docs/CEPH.md).
const std::set<int> REFUSALS = {-2, -7, -8, -13, -22, -27, -28, -30, -38, -61, -82, -84, -87, -90, -105, -114};

[[noreturn]] void differs(const one_call &asked, const char *what) {
    fprintf(stderr, "DIFFERS: %s: %s.%s, %s\n", what, asked.class_name.c_str(), asked.method.c_str(),
            now.misuse.c_str());
    abort();
}

std::string with_length(const std::string &from, size_t length) {
    bytes made;
    put_number(made, from.size(), length);
    return std::string(made.begin(), made.end()) + from;
}

std::string request_of(unsigned source, const std::string &name_or_image, const std::string &method,
                       const std::string &input) {
    return std::string("\1") + char(source) + with_length(name_or_image, 4) + with_length(method, 1) + input;
}

std::string file_text(const std::string &path) {
    std::string text;
    FILE *file = fopen(path.c_str(), "rb");
    for (int letter = file ? getc(file) : EOF; letter != EOF; letter = getc(file))
        text += char(letter);
    if (file)
        fclose(file);
    return text;
}

// The names in an accepted image (docs/IMAGE.md).
std::vector<std::string> names_of(const std::string &image) {
    std::vector<std::string> names;
    reader in{{reinterpret_cast<const uint8_t *>(image.data()), image.size()}};
    in.take(4);
    uint64_t count = in.number(2);
    in.take(2);
    for (; count && !in.short_of; count--) {
        names.push_back(in.take(in.number(1)).text());
        in.take(5);
        in.take(8 * in.number(2));
    }
    return names;
}

object some_object(reader &in, unsigned flags) {
    object made;
    made.present = flags & IS_THERE;
    uint64_t length = in.number(2);
    for (entries *part : {&made.xattrs, &made.omap})
        for (uint64_t left = in.number(1) % 40; left; left--) {
            std::string name = in.take(in.number(1)).text();
            (*part)[name] = in.take(in.number(1)).text();
        }
    // An OSD has no xattr without a name, nor with a NUL byte in it.
    for (auto at = made.xattrs.begin(); at != made.xattrs.end();)
        at = at->first.empty() || at->first.find('\0') != std::string::npos ? made.xattrs.erase(at) : std::next(at);
    if (!made.present)
        return object();
    made.data = std::string(length > 65000 ? 65537 : length, 'd');
    if (flags & HAS_CLASSES)
        for (auto &one : images)
            made.xattrs[OWN + one.name] = one.image;
    if (flags & HAS_HEADER)
        made.header = "header";
    return made;
}

bool starts_with(const std::string &text, const std::string &with) {
    return text.compare(0, with.size(), with) == 0;
}

entries own_of(const object &from) {
    entries own;
    for (auto &[name, value] : from.xattrs)
        if (starts_with(name, OWN))
            own[name] = value;
    return own;
}

// Whether a call of the class `bpf` has a result of its own, which the method's code isn't.
bool is_framed(const one_call &asked) {
    return asked.class_name == "bpf" && !starts_with(asked.method, "run") && !starts_with(asked.method, "see");
}

void test_result(const one_call &asked, const answered &found, bool fails) {
    if (fails)
        return;
    if (found.result == -EAGAIN || found.result == -EINPROGRESS || found.result < -4095)
        differs(asked, "a result that no OSD answers");
    if (is_framed(asked) && found.result && !REFUSALS.count(found.result))
        differs(asked, ("the result " + std::to_string(found.result)).c_str());
    if (found.result < 0 && now.has_changed)
        differs(asked, "a refused call changes the object");
    if (found.result < 0 && !(found.after == asked.with.before))
        differs(asked, "a refused call leaves another object");
}

// What no call that leaves the object may touch: images, but by `load` and `unload`, and the omap's header, but of an
// installed class.
void test_object(const one_call &asked, const answered &found) {
    const object &before = asked.with.before, &after = found.after;
    if (!before.present || !after.present)
        return;
    // A method that removes the object and creates it takes images and header along.
    if (now.trace.find("remove\n") != std::string::npos && !starts_with(asked.method, "unload"))
        return;
    if (asked.class_name == "bpf" && before.header != after.header)
        differs(asked, "the header is another");
    entries was = own_of(before), is = own_of(after);
    if (asked.class_name == "bpf" && (asked.method == "load" || asked.method == "unload")) {
        std::string name = OWN + (asked.request.empty() ? "" : asked.request.substr(1, uint8_t(asked.request[0])));
        was.erase(name);
        is.erase(name);
        if (before.data != after.data || before.omap != after.omap)
            differs(asked, "a load or an unload changes more than an image");
    }
    if (was != is)
        differs(asked, "an image is another");
}

answered make(const one_call &asked) {
    answered found = answer_of(asked);
    bool has_changed = now.has_changed;
    bool fails = asked.with.failing || asked.with.refused_growth || asked.with.refused_new;
    if (!now.misuse.empty())
        differs(asked, "the plug-in does what no OSD allows");
    test_result(asked, found, fails);
    test_object(asked, found);
    if (!fails && asked.method != "stats" && !(answer_of(asked) == found))
        differs(asked, "the same call answers something else");
    now.has_changed = has_changed;
    return found;
}

answered make(one_call asked, const char *method, const std::string &request) {
    asked.class_name = "bpf";
    asked.method = method;
    asked.request = request;
    return make(asked);
}

// The ways to call one method of a class that is loaded, or of its image, which have one answer.
void make_all(const one_call &asked, const known_image &of, const std::string &method, const std::string &input) {
    std::string loaded = request_of(0, of.name, method, input), sent = request_of(1, of.image, method, input);
    answered exec = make(asked, "exec", loaded), other = make(asked, "exec_sent", sent);
    if (!asked.with.before.present || !own_of(asked.with.before).count(OWN + of.name))
        return;
    if (!(exec == other))
        differs(asked, "another answer of the image than of the class");
    bool changes = !(exec.after == asked.with.before), has_written = now.has_changed;
    answered query = make(asked, "query", loaded), run = make(asked, "run", loaded);
    // A call that writes and leaves all as it was is a change too.
    if (exec.result == 0 && !has_written && query.result != -30 && !(query == exec))
        differs(asked, "another answer of query than of exec");
    if (exec.result == 0 && has_written && query.result != -30)
        differs(asked, "a change by query");
    if (exec.result)
        return;
    reader in{{reinterpret_cast<const uint8_t *>(exec.output.data()), exec.output.size()}};
    auto code = int64_t(in.number(8));
    bool fits = code >= -4095 && code <= INT32_MAX && code != -EAGAIN && code != -EINPROGRESS;
    if (in.take(8).length != 8 || run.result != (fits ? int(code) : -75))
        differs(asked, "another answer of run than of exec");
    if (code < 0 && (changes || in.rest.length))
        differs(asked, "a code below 0 with output or a change");
    if (fits && code >= 0 && (run.output != in.rest.text() || !(run.after == exec.after)))
        differs(asked, "another output of run than of exec");
}

} // namespace

extern "C" int LLVMFuzzerInitialize(int *, char ***words) {
    std::string path = **words;
    size_t slash = path.rfind('/');
    std::string folder = (slash == std::string::npos ? "." : path.substr(0, slash)) + "/classes";
    for (auto &name : names_in(folder))
        open_class(folder, name);
    for (auto &[name, known] : classes) {
        for (auto &[method, how] : known.methods)
            methods.push_back({name, method});
        std::string image = file_text(folder + "/" + name + ".img");
        if (name != "bpf" && !known.methods.empty())
            images.push_back({name, image, names_of(image)});
    }
    if (images.empty() || !classes.count("bpf")) {
        fprintf(stderr, "no classes in %s\n%s", folder.c_str(), now.log.c_str());
        exit(2);
    }
    return 0;
}

extern "C" int LLVMFuzzerTestOneInput(const uint8_t *at, size_t length) {
    reader in{{at, length}};
    one_call asked;
    auto &[class_name, method] = methods[in.number(1) % methods.size()];
    auto flags = unsigned(in.number(1)), failing = unsigned(in.number(1));
    const known_image &of = images[in.number(1) % images.size()];
    const std::string &called = of.methods[in.number(1) % of.methods.size()];
    asked.class_name = class_name;
    asked.method = method;
    asked.with.caller_type = 8;
    asked.with.caller_number = 4711;
    asked.with.reply_limit = 64;
    asked.with.step = flags & IS_SECOND && failing == 1;
    asked.with.before = asked.with.left = asked.with.after = some_object(in, flags);
    if (!(flags & IS_SECOND)) {
        unsigned *fails[] = {&asked.with.failing, &asked.with.refused_growth, &asked.with.refused_new};
        if (flags >> FAILS)
            *fails[(flags >> FAILS) - 1] = failing;
    }
    if (in.short_of)
        in = reader();
    std::string rest = in.rest.text();
    if (!(flags & IS_MADE)) {
        asked.request = rest;
        make(asked);
    } else if (flags & HAS_IMAGE) {
        reader parts{in.rest};
        std::string image = parts.take(parts.number(2)).text(), name = parts.take(parts.number(1)).text();
        make(asked, "exec_sent", request_of(1, image, name, parts.rest.text()));
        make(asked, "load", with_length("new", 1) + image);
        make(asked, "verify", image);
    } else if (flags >> FAILS && failing) {
        make(asked, "exec", request_of(0, of.name, called, rest));
    } else {
        make_all(asked, of, called, rest);
    }
    return 0;
}
