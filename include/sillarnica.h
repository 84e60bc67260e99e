/*
 * Sillarnica's verified classes for a host that keeps the objects itself. Calls 2.
 *
 * Memory: the caller owns all of it, before and after. Nothing is kept, and `malloc` and `free` are used within a call alone:
 * but for a handle, which holds memory of its own from open to close. What is written (refusal, answer, numbers, text, out,
 * handle) is apart from all else that is handed in. A null pointer is allowed for a slice of length 0, and for nothing else.
 * Threads: there is no state and nothing to initialise. Any number of calls may run at once, on one image too; on one handle
 * one at a time, on copies of it as many as there are.
 *
 * An object's flat form has one spelling. Numbers are little-endian:
 *
 *     object  = 0                                       absent
 *             | 1 u32:n byte*n entries entries          data (n <= 65536), xattrs (at most 32), keys of the omap (at most 1024)
 *     entries = u16:count entry*count                   their names strictly rise by their bytes
 *     entry   = u8:k byte*k u16:m byte*m                name (1 <= k <= 64) and value (m <= 4096)
 *
 * Edits are what the method's helpers did to the object, each that didn't answer a negative number, in their order: none is
 * merged or left out, also where it changes nothing. Made in that order they make of the object before the object after. A
 * negative code leaves none.
 *
 *     edit  = 1                     create, without data, xattrs and keys
 *           | 2                     remove
 *           | 3 text:name text      set an xattr         | 4 text:name    remove an xattr that is there
 *           | 5 text:key text       set a key            | 6 text:key     remove a key that is there
 *           | 7 u64:n               cut the data to n bytes, or extend it with zeros
 *           | 8 u64:at u32:n byte*n write n bytes, 1 or more; zeros fill a gap between the data's end and `at`
 *     text  = u16:n byte*n
 *
 * `sillarnica_edits.h` has the loop over them.
 *
 * A part is what a host knows of an object, which may be larger than a flat form. A block is 4096 bytes of the data, the last
 * one those up to its end. An interval is the names from lo to below hi, by their bytes; hi of length 0 is the end of all. One
 * name N is from N to N with a zero byte, what comes after N begins there, and all names are from the name of length 0 to the
 * end. In an interval each name is absent that has no entry; of other names, and of bytes of other blocks, nothing is known.
 *
 *     part  = 0                                       absent
 *             | 1 u64:size u32:n block*n names names  size < 2^63, n <= 1024; first the xattrs, then the keys of the omap
 *     block = u64:b byte*                             their b strictly rise, 4096 b < size; 4096 bytes, or up to the size
 *     names = u16:i interval*i u16:e entry*e          i <= 1025; e <= 32 xattrs, e <= 1024 keys
 *     interval = text:lo text:hi                      at most 65 bytes each; lo < hi < lo of the next
 *     entry = text:name text                          1 to 64 bytes, in an interval, rising; a value of at most 4096 bytes
 *
 * A need is what a call has to know of the object beyond the part, in at most 68 bytes:
 *
 *     need  = 1 u64:b u8:n          n blocks from b on, n >= 1
 *           | 2 text:name           an xattr             | 3 text:key      a key
 *           | 4 text:place          the least key from there on, or that there is none
 *           | 5 text:place          the least xattr from there on, or that there is none
 *
 * It is fetched by a part that has what that says: the blocks; an interval with the name; one from the place to past the least
 * name, or to the end.
 */
#ifndef SILLARNICA_H
#define SILLARNICA_H

#include <stddef.h>
#include <stdint.h>

#define SILLARNICA_VERSION "0.5.0-dev"

/* What sillarnica_version answers. */
#define SILLARNICA_CALLS 2

/* The greatest budget that a host may give the methods with loops, and the usual one. */
#define SILLARNICA_BUDGET_LIMIT 1048576
#define SILLARNICA_BUDGET 131072

#ifdef __cplusplus
extern "C" {
#endif

/* Each answer says one thing. */
enum {
	SILLARNICA_OK = 0,
	SILLARNICA_IMAGE = 1,            /* the bytes are no image; the refusal says why */
	SILLARNICA_VERDICT = 2,          /* a rule refuses the class; the refusal says which and where */
	SILLARNICA_NO_METHOD = -95,      /* the class has no method of that name */
	SILLARNICA_INPUT_TOO_LONG = -7,  /* the input is longer than the method takes */
	SILLARNICA_MALFORMED = -22,      /* the bytes are no object's flat form or no part, the limits are none, or the client's
	                                  * number is 2^32 or more */
	SILLARNICA_NO_MEMORY = -12,      /* memory was refused; the call may be made again */
	SILLARNICA_NO_ROOM = -34,        /* the buffer is too small; the answer says what is needed */
	SILLARNICA_CLOSED = -9,          /* the handle is closed */
	SILLARNICA_WANTS = -11,          /* more of the object is to be known; the want says what */
	SILLARNICA_FULL = -28,           /* one name more would be set than a call on a part can keep */
	SILLARNICA_TOO_LARGE = -27       /* a method declares a greater budget than the host gives; the refusal says which */
};

/* An answer in words. */
static inline const char *sillarnica_error(int32_t answer)
{
	switch (answer) {
	case SILLARNICA_OK: return "done";
	case SILLARNICA_IMAGE: return "the bytes are no image";
	case SILLARNICA_VERDICT: return "a rule refuses the class";
	case SILLARNICA_NO_METHOD: return "the class has no such method";
	case SILLARNICA_INPUT_TOO_LONG: return "the input is longer than the method takes";
	case SILLARNICA_MALFORMED: return "the bytes are no object or part, or a number is out of range";
	case SILLARNICA_NO_MEMORY: return "memory was refused";
	case SILLARNICA_NO_ROOM: return "the buffer is too small";
	case SILLARNICA_CLOSED: return "the handle is closed";
	case SILLARNICA_WANTS: return "more of the object is to be known";
	case SILLARNICA_FULL: return "the call sets too many names";
	case SILLARNICA_TOO_LARGE: return "a method declares a greater budget than the host gives";
	default: return "no answer of this library";
	}
}

/*
 * Why a class is refused. kind 1: the image, after `method` methods that were read whole, by the refusal `number` (1 to 11, or 13);
 * slot is -1 where it names none. kind 2: the rule `number` (1 to 17) at that method and slot, both from 0 on. kind 3: the budget
 * `number` of that method, from 0 on, which is greater than the host's; slot is -1.
 */
struct sillarnica_refusal {
	uint32_t kind, number;
	uint64_t method;
	int64_t slot;
};

/* The method's code, the instructions executed (exit included), and how many bytes of output and of edits there are. */
struct sillarnica_answer {
	int64_t code;
	uint64_t steps, output_len, edits_len;
};

/* What a method declares (flags 1 reads, 2 writes, 3 both; the most bytes of input and output), which parts of an object it
 * needs (1 data, 2 xattrs, 4 keys, added), and how many bytes its name has: at most 64. */
struct sillarnica_declared {
	uint32_t flags, in_cap, out_cap, needs;
	uint64_t name_len;
};

/* As many xattrs, or keys, as there may be. */
#define SILLARNICA_ANY_NUMBER UINT32_MAX

/*
 * What an object may hold: bytes of data (below 2^63), xattrs and keys (SILLARNICA_ANY_NUMBER: no limit), and bytes of their
 * names (1 to 64). A flat form's limits are {65536, 32, 1024, 64, 64}. Where a number is given, a part has to say all of those
 * names: one interval from the name of length 0 to the end.
 */
struct sillarnica_limits {
	uint64_t bytes;
	uint32_t xattrs, keys, xattr_name, key_name;
};

/* The need of a call, and how many bytes it has: 4 to 68. */
struct sillarnica_want {
	uint32_t length;
	uint8_t bytes[68];
};

/*
 * A handle of a verified class, so that a host verifies once and calls many times. Zeroed it is closed. The fields are the
 * library's. Assign it only to give the other one up; sillarnica_verified_copy makes a second one. It may go from thread to
 * thread, as long as one call at a time is on it. It holds the class, some 24 bytes a slot of its methods, and, once there was
 * one, the memory of a run on a flat form, on a part, and with loops, at most 132 KB each.
 */
struct sillarnica_verified {
	void *held;
	uint32_t is_open;
};

/* 2. What is declared here, the flat form and the edits change only with this number; further calls leave it as it is. */
uint32_t sillarnica_version(void);

/*
 * 0: the image spells a class and no rule refuses it. Then every method of it runs on every object and input to its exit,
 * never stuck, in no more instructions than it has. 1 or 2: why it is refused, in *refusal. -12.
 * *refusal is written at 1 and 2 alone.
 */
int32_t sillarnica_verify(const uint8_t *image, size_t image_len, struct sillarnica_refusal *refusal);

/*
 * The line that says why the image or the class is refused, as `radoscls verify` prints it: the answer is its length, and as
 * many bytes as fit are written; no zero byte follows. 0: the class is accepted. -12. At 0 and -12 nothing is written.
 */
int64_t sillarnica_explain(const uint8_t *image, size_t image_len, uint8_t *text, size_t text_len);

/*
 * 0: what the method declares: flags 1 reads, 2 writes, 3 both, and the most bytes of its input and its output.
 * 1 (the bytes are no image), -95 or -12: nothing is written. No rule is asked.
 */
int32_t sillarnica_method(const uint8_t *image, size_t image_len, const uint8_t *method, size_t method_len,
	uint32_t *flags, uint32_t *in_cap, uint32_t *out_cap);

/*
 * The method of a number, from 0 on: *told, and as many bytes of its name as fit. 0; -95 past the last; 1 (the bytes are no
 * image) or -12. But for 0 nothing is written. No rule is asked.
 */
int32_t sillarnica_method_at(const uint8_t *image, size_t image_len, size_t n, struct sillarnica_declared *told,
	uint8_t *name, size_t name_len);

/*
 * Which parts of an object the method can see or change: 1 data, 2 xattrs, 4 keys, added. The flat
 * form that is handed to a call may leave the others out, as if the object had no data, xattrs or
 * keys, or have anything there. Answer and edits are those of the whole object, whatever it has there,
 * also past the limits. Whether there is an object is no part: a method always sees it.
 * -95: the image has no such method, or is none. -12.
 */
int32_t sillarnica_needs(const uint8_t *image, size_t image_len, const uint8_t *method, size_t method_len);

/*
 * Calls a method on an object for a client (`caller`, below 2^32). It is a function of its arguments.
 *
 * 0: *answer is the method's code, its instructions and the lengths, and out begins with the output and then the edits; the
 *    rest of out is as it was. A negative code is the method's own error, which changed nothing.
 * -34: out is shorter than output and edits: *answer says as much as at 0, and out is as it was. Make the call again.
 * 1, 2: *refusal says why there is no class. -95, -7, -22, -12: nothing is written.
 * Of several refusals it is the first in the order 1, 2, -95, -7, -22, -34; -12 may come in place of any answer.
 */
int32_t sillarnica_call(const uint8_t *image, size_t image_len, const uint8_t *method, size_t method_len,
	const uint8_t *object, size_t object_len, uint64_t caller, const uint8_t *input, size_t input_len,
	struct sillarnica_refusal *refusal, struct sillarnica_answer *answer, uint8_t *out, size_t out_len);

/*
 * Verifies a class and holds it, whatever becomes of the image. 0: *verified is open, and who opened it closes it once.
 * 1, 2, -12: as of sillarnica_verify, and *verified is closed. *refusal is written at 1 and 2 alone. What *verified held
 * isn't looked at: close it before it is opened again.
 */
int32_t sillarnica_verified_open(const uint8_t *image, size_t image_len, struct sillarnica_refusal *refusal,
	struct sillarnica_verified *verified);

/*
 * As sillarnica_verified_open, for a class whose methods may have loops, by a host whose greatest budget is `budget`. A method
 * with loops declares a budget and, at the head of each loop, what stays so there. By the verdict on loops it is never stuck; a
 * call takes 64 of its budget for each call of a helper and 1 for each other instruction, and where less is left it ends with
 * the code -62, without output and edits. Methods without loops are judged and called as ever.
 *
 * 0: *verified is open, and each of the calls below answers for the class by what its methods declare. 1, 2: *refusal says why
 * there is no class. -27: *refusal says which method is the first that declares a greater budget, of a class that is accepted.
 * -22: `budget` isn't 1 to SILLARNICA_BUDGET_LIMIT. -12. But for 0 *verified is closed. *refusal is written at 1, 2 and -27
 * alone. Of several refusals it is the first in the order -22, 1, 2, -27; -12 may come in place of any but -22.
 */
int32_t sillarnica_loops_open(const uint8_t *image, size_t image_len, uint32_t budget, struct sillarnica_refusal *refusal,
	struct sillarnica_verified *verified);

/* As sillarnica_explain, by the verdict on loops; it asks no budget. */
int64_t sillarnica_loops_explain(const uint8_t *image, size_t image_len, uint8_t *text, size_t text_len);

/*
 * Calls a method of the class that is held: what sillarnica_call answers of its image, -12 apart, and *verified holds the class
 * afterwards too, whatever the answer. There is no 1 and no 2. -9: *verified is closed, and nothing is written.
 */
int32_t sillarnica_verified_call(struct sillarnica_verified *verified, const uint8_t *method, size_t method_len,
	const uint8_t *object, size_t object_len, uint64_t caller, const uint8_t *input, size_t input_len,
	struct sillarnica_answer *answer, uint8_t *out, size_t out_len);

/*
 * Calls a method of the class that is held on a part of an object, by the host's limits. Answer and edits are those of the
 * method on every object that agrees with the part: that is absent or has the size as the part says, and its blocks, names and
 * values, and has anything where it says nothing. Nothing of the object is changed: the host makes the edits at 0.
 *
 * 0, -34: as of sillarnica_call. By other limits than a flat form's an edit may pass that form's.
 * -95, -7, -12, -9: as of sillarnica_verified_call.
 * -22: caller is 2^32 or more, the limits aren't such, or part spells none that says all names of which they have a number.
 * -11: the run came to a call of a helper that what is known can't answer: *want is the need, the rest of it as it was. Call
 *    again with a part of the same object that has the one before and what is needed too. If each next part has, that comes at
 *    most as often as the run calls helpers and removes names.
 * -28: the run came to a set of a 33rd xattr or a 1025th key, of those that the part has or it set. No more of the object helps.
 * Of several refusals it is the first in the order -9, -95, -7, -22, then -11 or -28, -34; -12 may come in place of any answer
 * but -9. *answer is written at 0 and -34 alone, *want at -11 alone, out at 0 alone.
 */
int32_t sillarnica_verified_call_part(struct sillarnica_verified *verified, const uint8_t *method, size_t method_len,
	const uint8_t *part, size_t part_len, uint64_t caller, const struct sillarnica_limits *limits,
	const uint8_t *input, size_t input_len, struct sillarnica_answer *answer, struct sillarnica_want *want,
	uint8_t *out, size_t out_len);

/*
 * Opens *copy on the class that *verified holds, which both share, for another thread, say. 0; or -9 (*verified is closed) or
 * -12, and *copy is closed. *verified stays as it was; what *copy held isn't looked at. Each is closed by itself.
 */
int32_t sillarnica_verified_copy(struct sillarnica_verified *verified, struct sillarnica_verified *copy);

/* As sillarnica_method_at, of the class that is held: 0, -95, or -9 (*verified is closed). */
int32_t sillarnica_verified_method_at(struct sillarnica_verified *verified, size_t n, struct sillarnica_declared *told,
	uint8_t *name, size_t name_len);

/* As sillarnica_needs, of the class that is held: the parts, -95, or -9 (*verified is closed). */
int32_t sillarnica_verified_needs(struct sillarnica_verified *verified, const uint8_t *method, size_t method_len);

/* Frees what *verified holds; the class, once no copy holds it. *verified is closed then; closing it again does nothing. */
void sillarnica_verified_close(struct sillarnica_verified *verified);

#ifdef __cplusplus
}
#endif
#endif
