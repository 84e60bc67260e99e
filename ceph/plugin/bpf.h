// The class `bpf`: classes that are loaded beside an object, or sent with a call, to try them out; and
// what operators ask of an OSD. A class with loops is none for it: installed classes alone may have them.
//
//     method         input             answer
//     exec, query    a request         i64 code, u64 steps, the output; the result is 0
//     run, see       a request         the output; the result is the code
//     exec_sent ..   a request         the same four, of a class that is sent
//     load           u8 length, name,  nothing: the class is verified, and its image kept in the
//                    image             object's xattr `bpf.NAME`
//     unload         u8 length, name   nothing
//     list           nothing           of each loaded class a line: name, blank, bytes of its image
//     verify         image             the line that says why it is refused, or nothing
//     classes        nothing           of each class that the OSD opened a line: name, SHA-256 of its
//                                      image or -, `ok` or `refused`, and its budget or -
//     stats          nothing           of each method of these classes a line: class, method, calls,
//                                      refusals, steps, nanoseconds, bytes of edits
//     nothing        nothing           nothing
//
// A request is u8 1, u8 source, u32 length and the bytes of a name (source 0: a class that is loaded
// beside the object) or of an image (source 1), u8 length and the method's name, and the input.
// All numbers are little-endian. `query`, `see`, `query_sent`, `see_sent`, `list`, `verify`,
// `classes` and `stats` are read methods. An OSD asks no read method of an absent object; `nothing`
// as a step before it makes it do so, since `nothing` may change, and doesn't.
//
// The four methods for classes that are sent are there if a file `bpf.sent` lies in the folder of
// the plug-in when the OSD opens it.
#pragma once

#include "classes.h"

class bpf_class : public opened_class {
public:
    bpf_class(const std::string &name, const std::string &folder);

private:
    int call(unsigned method, cls_method_context_t context, ceph::bufferlist &in, ceph::bufferlist &out,
             account &made) override;
};
