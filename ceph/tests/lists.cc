// Lists of edits, written by hand, made over the stand-in of an OSD's calls: what each asks of the OSD, what it
// leaves of the object, and which are refused. The library has no part in it.
//
//     lists
//
// The last line counts what was right and wrong, and the status is 0 if nothing was wrong.
#define main stand_in
#include "stand_in.cc"
#undef main

#include "../plugin/edits.h"
#include "../plugin/refusals.h"

#include <sstream>

namespace {

// An object is a text: `-` is an absent one; else the data, `.` being none and `_` a zero byte, and words: NAME=VALUE
// is an xattr, NAME:VALUE a key, !TEXT the omap's header.
struct row {
    const char *what;
    const char *before; // the operation
    const char *left;   // by the earlier steps; null if the call is the first
    const char *list;   // in hexadecimal, with blanks
    int result;
    const char *calls; // the changes that the OSD is asked for, and reads behind the first ones, with commas
    const char *after; // null: whatever it is
};

// Numbers of 8 bytes, and of 4.
#define N(low) #low "00000000000000"
#define L(low) #low "000000"
// A set and a removal: of the xattrs a, b and foo, of the keys k and m.
#define SET_A "03 0100 61 0100 31 "
#define SET_A2 "03 0100 61 0100 32 "
#define SET_B "03 0100 62 0100 31 "
#define SET_FOO "03 0300 666f6f 0300 626172 "
#define RM_A "04 0100 61 "
#define RM_B "04 0100 62 "
#define SET_K "05 0100 6b 0100 76 "
#define SET_K2 "05 0100 6b 0100 77 "
#define SET_M "05 0100 6d 0100 76 "
#define RM_K "06 0100 6b "

// clang-format off
const row ROWS[] = {
    // one edit each
    {"nothing", "abc a=1", nullptr, "", 0, "", "abc a=1"},
    {"create", "-", nullptr, "01", 0, "create", "."},
    {"remove", "abc a=1 k:v", nullptr, "02", 0, "remove", "-"},
    {"an xattr of an absent object", "-", nullptr, "01" SET_A, 0, "create,set xattr 61", ". a=1"},
    {"an xattr to what it was", ". a=1", nullptr, SET_A, 0, "set xattr 61", ". a=1"},
    {"a key", ". k:v", nullptr, SET_K2, 0, "set keys 6b", ". k:w"},
    {"a key goes", ". k:v m:v", nullptr, RM_K, 0, "remove key 6b", ". m:v"},
    {"a write past the end", "abc", nullptr, "08" N(05) L(02) "7879", 0, "write 5 2", "abc__xy"},
    {"a length that it has", "abc", nullptr, "07" N(03), 0, "truncate 3", "abc"},
    {"the greatest length", ".", nullptr, "07 0000010000000000 07" N(00), 0, "truncate 65536,truncate 0", "."},
    // their order
    {"two writes", "abc", nullptr, "08" N(00) L(02) "6162 08" N(02) L(01) "63", 0, "write 0 2,write 2 1", "abc"},
    {"writes around a cut", "abc", nullptr, "08" N(0a) L(02) "7071 07" N(04) "08" N(0c) L(02) "7273", 0,
     "write 10 2,truncate 4,write 12 2", "abc_________rs"},
    {"removed, and a key", "abc a=1", nullptr, "02 01" SET_K, 0, "remove,create,set keys 6b", ". k:v"},
    {"a key that is set and goes", "-", nullptr, "01" SET_K RM_K, 0, "create,set keys 6b,remove key 6b", "."},
    {"a key that goes and is set", ". k:v", nullptr, RM_K SET_K2, 0, "remove key 6b,set keys 6b", ". k:w"},
    {"a key twice with a removal between", ". m:v", nullptr, SET_K RM_K SET_K2, 0,
     "set keys 6b,remove key 6b,set keys 6b", ". k:w m:v"},
    {"neighbouring keys", ".", nullptr, SET_K SET_M, 0, "set keys 6b 6d", ". k:v m:v"},
    {"one key twice", ".", nullptr, SET_K SET_K2, 0, "set keys 6b", ". k:w"},
    {"keys around an xattr", ".", nullptr, SET_K SET_A SET_M, 0, "set keys 6b,set xattr 61,set keys 6d",
     ". a=1 k:v m:v"},
    {"a key before the object is removed", ". a=1", nullptr, SET_K "02", 0, "remove", "-"},
    {"removed twice", "abc a=1", nullptr, "02 01" SET_A "02 01" SET_B, 0, "remove,create,set xattr 62", ". b=1"},
    {"removed twice, and not made again", "abc a=1", nullptr, SET_B "02 01" SET_A "02", 0, "remove", "-"},
    {"made and removed", "-", nullptr, "01" SET_A "02", 0, "", "-"},
    {"made, removed and made", "-", nullptr, "01" SET_A "02 01" SET_K, 0, "create,set keys 6b", ". k:v"},
    {"an xattr twice", ".", nullptr, SET_A SET_A2, 0, "set xattr 61,set xattr 61", ". a=2"},
    // xattrs that go
    {"what only this call set", "x b=1", nullptr, SET_A RM_A, 0, "", "x b=1"},
    {"what only this call set, of an absent object", "-", nullptr, "01" SET_B RM_B, 0, "create", "."},
    {"what only this call set, among others", ".", nullptr, SET_A SET_B RM_A SET_K, 0, "set xattr 62,set keys 6b",
     ". b=1 k:v"},
    {"one of the object", "x a=1 bpf.c=i b=2 k:v !hd", nullptr, RM_A, 0,
     "read 0 1,keys - 1024,header,remove,create,write 0 1,set xattr 62,set xattr 6270662e63,set header,set keys 6b",
     "x b=2 bpf.c=i k:v !hd"},
    {"one that was set before", ". a=1 b=2", nullptr, SET_A2 RM_A SET_K, 0,
     "keys - 1024,header,remove,create,set xattr 62,set keys 6b", ". b=2 k:v"},
    {"one that is set again", ". a=1 b=2", nullptr, RM_A SET_A2, 0, "set xattr 61", ". a=2 b=2"},
    {"one before the object is removed", ". a=1 b=2", nullptr, RM_A "02", 0, "remove", "-"},
    {"one before it is made again", ". a=1 b=2", nullptr, RM_A "02 01" SET_B, 0, "remove,create,set xattr 62", ". b=1"},
    {"one of the object that was made again", ". a=1 b=2", nullptr, "02 01" SET_A SET_B RM_A, 0,
     "remove,create,set xattr 62", ". b=1"},
    // behind other steps
    {"an xattr to what it was, which an earlier step set", ". foo=bar", ". foo=xxxxx q=9", SET_FOO, 0,
     "set xattr 666f6f", ". foo=bar q=9"},
    {"a key to what it was, which an earlier step removed", ". k:v", ".", SET_K, 0, "set keys 6b", ". k:v"},
    {"a key that an earlier step removed goes", ". k:v m:v", ". m:v", RM_K, 0, "remove key 6b", ". m:v"},
    {"of an object that an earlier step made", "-", ". q=9", SET_A SET_K, 0, "set xattr 61,set keys 6b",
     ". a=1 q=9 k:v"},
    {"of an object that an earlier step removed", "abc a=1", "-", "01" SET_B, 0, "create,set xattr 62", ". b=1"},
    {"an object that an earlier step made goes", "-", "abc", "02", 0, "remove", "-"},
    {"a write where an earlier step left nothing", "abc a=1", ". a=1", "08" N(00) L(01) "78", 0, "write 0 1", "x a=1"},
    {"an xattr goes", ". a=1", ". a=1 k:v", RM_A, NOT_FIRST, "", ""},
    {"an xattr goes that the object hadn't", ".", ". a=1", SET_A RM_A, NOT_FIRST, "", ""},
    {"an xattr goes, and is set again", ". a=1", ". a=1 k:v", RM_A SET_A2, 0, "set xattr 61", ". a=2 k:v"},
    {"an xattr goes of what the call made", "-", "-", "01" SET_A RM_A SET_B, 0, "create,set xattr 62", ". b=1"},
    {"an xattr goes, and the object", ". a=1", ". a=1 q=9", RM_A "02", 0, "remove", "-"},
    // names that can't be set
    {"a name of the plug-in's", ".", nullptr, SET_A "03 0500 6270662e78 0000", NAME_IS_OURS, "", ""},
    {"a name of the plug-in's goes", ".", nullptr, SET_A "04 0400 6270662e", NAME_IS_OURS, "", ""},
    {"a name that begins so, but for the dot", ".", nullptr, "03 0400 62706678 0000", 0, "set xattr 62706678",
     ". bpfx="},
    {"a name with a NUL byte", ".", nullptr, SET_K "03 0300 610062 0000", NAME_WITH_NUL, "", ""},
    {"the header's name, where it isn't shown", ".", nullptr, SET_K "03 0700 00686561646572 0000", NAME_WITH_NUL, "",
     ""},
    {"a key of the plug-in's", ".", nullptr, "05 0500 6270662e78 0000", 0, "set keys 6270662e78", ". bpf.x:"},
    // no lists
    {"no such edit: 0", ".", nullptr, SET_A "00", BROKEN, "", ""},
    {"no such edit: 9", ".", nullptr, SET_A "09", BROKEN, "", ""},
    {"a name that passes the end", ".", nullptr, SET_A "04 0101 61", BROKEN, "", ""},
    {"a value that passes the end", ".", nullptr, "03 0100 61 0101 31", BROKEN, "", ""},
    {"a length that is cut", ".", nullptr, SET_A "07 00000000000000", BROKEN, "", ""},
    {"a write that is cut", ".", nullptr, "08" N(00) L(02) "61", BROKEN, "", ""},
    {"a length past the limit", ".", nullptr, "07 0000008000000000", BROKEN, "", ""},
    {"a write past the limit", ".", nullptr, "08 ffffff7f00000000" L(01) "61", BROKEN, "", ""},
    {"a place past the limit", ".", nullptr, "08 0000000001000000" L(01) "61", BROKEN, "", ""},
};

// The same of an installed class, whose method is shown the environment of its call. A name with a NUL byte before it.
#define HEADER "0700 00686561646572 "
#define SET_HEADER "03" HEADER "0200 6e77 "
#define RM_HEADER "04" HEADER
const row SHOWN[] = {
    {"the header", ". !hd", nullptr, SET_HEADER, 0, "set header", ". !nw"},
    {"the header of an absent object", "-", nullptr, "01" SET_HEADER, 0, "create,set header", ". !nw"},
    {"the header among keys", ". a=1 !hd", nullptr, SET_K SET_HEADER SET_M, 0, "set keys 6b,set header,set keys 6d",
     ". a=1 k:v m:v !nw"},
    {"the header goes", ". k:v !hd", nullptr, RM_HEADER, 0, "set header", ". k:v"},
    {"the header without bytes", ". !hd", nullptr, "03" HEADER "0000", 0, "set header", "."},
    {"the header goes and is set", ". !hd", nullptr, RM_HEADER SET_HEADER, 0, "set header,set header", ". !nw"},
    {"the header, and the object goes", ". !hd", nullptr, SET_HEADER "02", 0, "remove", "-"},
    {"the header of an object that is made again", ". a=1 !hd", nullptr, "02 01" SET_HEADER SET_A, 0,
     "remove,create,set header,set xattr 61", ". a=1 !nw"},
    {"the header, and an xattr goes", ". a=1 b=2 !hd", nullptr, SET_HEADER RM_A SET_K, 0,
     "keys - 1024,remove,create,set xattr 62,set header,set header,set keys 6b", ". b=2 k:v !nw"},
    {"an xattr goes, and the header stays", ". a=1 !hd", nullptr, RM_A, 0, "keys - 1024,remove,create,set header",
     ". !hd"},
    {"the header behind another step", ". !hd", ". a=1 !hd", SET_HEADER, 0, "set header", ". a=1 !nw"},
    {"the header goes behind another step", "-", ". a=1 !hd", SET_A RM_HEADER, 0, "set xattr 61,set header", ". a=1"},
    {"the time", ".", nullptr, SET_A "03 0500 0074696d65 0100 31", NAME_IS_OURS, "", ""},
    {"the time goes", ".", nullptr, SET_HEADER "04 0500 0074696d65", NAME_IS_OURS, "", ""},
    {"another such name", ".", nullptr, SET_K "03 0100 00 0000", NAME_IS_OURS, "", ""},
    {"a name that the header's begins", ".", nullptr, "03 0800 0068656164657273 0000", NAME_IS_OURS, "", ""},
    {"a name of the plug-in's", ".", nullptr, "03 0500 6270662e78 0000", NAME_IS_OURS, "", ""},
    {"a name with a NUL byte", ".", nullptr, SET_HEADER "03 0300 610062 0000", NAME_WITH_NUL, "", ""},
    {"a key of that name", ".", nullptr, "05 0500 0074696d65 0000", 0, "set keys 0074696d65", nullptr},
    {"no such edit: 9", ".", nullptr, SET_A "09" HEADER "0000", BROKEN, "", ""},
};
// clang-format on

object object_of(const char *text) {
    object made;
    std::istringstream words(text);
    std::string word;
    words >> word;
    made.present = !word.empty() && word != "-";
    made.data = word == "." || word == "-" ? "" : word;
    std::replace(made.data.begin(), made.data.end(), '_', '\0');
    while (words >> word) {
        size_t at = word.find_first_of("=:");
        if (word[0] == '!')
            made.header = word.substr(1);
        else
            (word[at] == '=' ? made.xattrs : made.omap)[word.substr(0, at)] = word.substr(at + 1);
    }
    return made;
}

bytes bytes_of(const char *hexadecimal) {
    bytes made;
    std::string digits;
    for (const char *at = hexadecimal; *at; at++)
        if (*at != ' ')
            digits += *at;
    for (size_t at = 0; at < digits.size(); at += 2)
        made.push_back(uint8_t(std::stoul(digits.substr(at, 2), nullptr, 16)));
    return made;
}

// The trace with commas.
std::string calls_made() {
    std::string made = now.trace.substr(0, now.trace.empty() ? 0 : now.trace.size() - 1);
    std::replace(made.begin(), made.end(), '\n', ',');
    return made;
}

bool is_right(const row &one, const origin *caller) {
    now = state();
    now.before = object_of(one.before);
    now.left = now.after = object_of(one.left ? one.left : one.before);
    now.step = one.left ? 1 : 0;
    object_view view(is_behind(&now), caller);
    bytes list = bytes_of(one.list);
    const char *why = nullptr;
    int result = view.read(&now, NEEDS_XATTRS);
    now.trace.clear();
    if (result >= 0)
        result = make_edits(&now, view, {list.data(), list.size()}, why);
    bool is_kept = result < 0 || !one.after || now.after == object_of(one.after);
    if (result == one.result && calls_made() == one.calls && is_kept && now.misuse.empty())
        return true;
    printf("BAD  %s: %d %s%s%s\n", one.what, result, calls_made().c_str(), is_kept ? "" : ", and another object, ",
           now.misuse.c_str());
    return false;
}

} // namespace

int main() {
    size_t right = 0;
    origin caller;
    for (auto &one : ROWS)
        right += is_right(one, nullptr);
    for (auto &one : SHOWN)
        right += is_right(one, &caller);
    size_t wrong = std::size(ROWS) + std::size(SHOWN) - right;
    printf("%s  lists of edits: %zu right, %zu wrong\n", wrong ? "BAD" : "ok ", right, wrong);
    return wrong ? 1 : 0;
}
