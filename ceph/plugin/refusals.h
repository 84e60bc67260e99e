// What the plug-in refuses, each by a number of its own. A refused call changes nothing.
//
// -11 (EAGAIN) and -115 (EINPROGRESS) are no numbers for a refusal or for a code of `run` and
// `see`: the OSD takes them for its own, and doesn't answer the operation. At -115 it also holds
// the object's lock, so that no later operation on that object is answered either.
//
// The OSD itself answers some calls before the plug-in is asked: -1 (no right to call the class, or
// not on its load list), -2 (a read method on an absent object) and -95 (no such plug-in, or no
// such method of it).
#pragma once

#include <cerrno>

// clang-format off
enum refusal : int {
    BROKEN = -EIO,               // -5: the OSD or the library answers what it never should
    TOO_MUCH = -E2BIG,           // -7: the call needs over 16 rounds, 32 xattrs, 1,024 keys or 4 MiB of data, makes over
                                 // 4,096 edits, or meets a name over 64 bytes or a value over 4,096: the log says
                                 // which. Or the object can't be made again: it has over 32 xattrs or 1,024 keys, or
                                 // such a name or value
    CLASS_REFUSED = -ENOEXEC,    // -8: the image, or its class, is refused; `verify` says why
    NO_MEMORY = -ENOMEM,         // -12
    NAME_IS_OURS = -EACCES,      // -13: the method sets or removes an xattr whose name begins with `bpf.`; or an entry
                                 // of its call's environment other than the omap's header
    BAD_REQUEST = -EINVAL,       // -22: the bytes are no request; the input is longer than an installed method takes
    DATA_TOO_LONG = -EFBIG,      // -27: data is needed that begins past 2,147,483,647 bytes; or the object can't be
                                 // made again: it has over 65,536 bytes of data
    NO_ROOM_FOR_IMAGE = -ENOSPC, // -28: the images beside the object would have more than 65,536 bytes together
    CHANGE_IN_READ = -EROFS,     // -30: `query` or `see` of a call that changes the object
    NO_METHOD = -ENOSYS,         // -38: the class has no such method
    NO_CLASS = -ENODATA,         // -61: no class of that name is loaded beside the object
    NO_RESULT = -EOVERFLOW,      // -75: `run` or `see` of a call whose code can be no operation's result
    TOO_MANY_CLASSES = -ELIBMAX, // -82: 16 other classes are loaded beside the object
    NAME_WITH_NUL = -EILSEQ,     // -84: the method sets an xattr whose name has a NUL byte
    NO_CLIENT = -EUSERS,         // -87: the caller is no client, or its number doesn't fit 32 bits
    INPUT_TOO_LONG = -EMSGSIZE,  // -90: the input is longer than the method takes
    REPLY_TOO_LONG = -ENOBUFS,   // -105: a change, and its reply is over the OSD's osd_max_write_op_reply_len
    NOT_FIRST = -EALREADY,       // -114: another step of the operation stands before a load or an unload; or before a
                                 // call that reads data, or removes an xattr of before it
};
// clang-format on
