/* Large things on the library, and what a host may hand in as a handle: `embed_large`. tools/embed.sh compiles it.
 *
 * The largest image, the largest flat form, answers of over 2 MB, the largest budget. What is expected is computed here, after docs/IMAGE.md,
 * docs/MACHINE.md, docs/ASSEMBLY.md, docs/LOOPS.md and the header, and taken from no answer of the library.
 *
 * It is linked with -Wl,--wrap=malloc,--wrap=realloc,--wrap=free. It prints a line for each difference; the status is 0 if there
 * is none. */
#include "sillarnica.h"
#include <stdio.h>
#include <stdlib.h>
#include <string.h>

enum { METHODS = 32, SLOTS = 4096, NAME = 64, VALUE = 4096, MOST = 65535, DATA = 65536, XATTRS = 32, KEYS = 1024, STACK = 512, ROOM = 1 << 23 };

static long wrong;

static void want(int is, const char *what, long n) {
	if (is) return;
	wrong++;
	fprintf(stderr, "large: %s (%ld)\n", what, n);
}

/* ---- memory: a growth that is refused, and a piece that nobody may free */

static long growths = -1; /* how many are still granted; below 0 all are */
static void *watched;
void *__real_malloc(size_t);
void *__real_realloc(void *, size_t);
void __real_free(void *);
void *__wrap_malloc(size_t);
void *__wrap_realloc(void *, size_t);
void __wrap_free(void *);
void *__wrap_malloc(size_t n) { return growths == 0 ? NULL : (growths -= growths > 0, __real_malloc(n)); }
void *__wrap_realloc(void *p, size_t n) { return growths == 0 ? NULL : (growths -= growths > 0, __real_realloc(p, n)); }
void __wrap_free(void *p) {
	if (!p || p != watched) { __real_free(p); return; }
	fprintf(stderr, "large: what a handle holds is freed, and another has it\n");
	exit(1);
}

/* ---- bytes, images and code (docs/IMAGE.md) */

struct bytes { uint8_t *at; size_t len; };

static struct bytes room_of(size_t n) {
	struct bytes b = { (uint8_t *)malloc(n), 0 };
	if (!b.at) exit(2);
	return b;
}

static void put(struct bytes *b, const void *from, size_t n) { memcpy(b->at + b->len, from, n), b->len += n; }
static void number(struct bytes *b, uint64_t x, int n) { for (; n; n--, x >>= 8) b->at[b->len++] = (uint8_t)x; }

static void slot(struct bytes *b, int opcode, int dst, int src, int offset, int32_t imm) {
	number(b, (uint64_t)opcode, 1), number(b, (uint64_t)(dst | src << 4), 1);
	number(b, (uint64_t)(int64_t)offset, 2), number(b, (uint32_t)imm, 4);
}

enum { ADD = 0x07, AND = 0x57, MOV = 0xb7, ADD_R = 0x0f, MOV_R = 0xbf, CALL = 0x85, EXIT = 0x95, WIDE = 0x18, LOAD = 0x79, STORE_4 = 0x62,
	STORE_R = 0x7b, JUMP = 0x05, JUMP_SLT = 0xc5, JUMP_LT_R = 0xad, LOAD_4 = 0x61 };
enum { STAT = 1, WRITE = 3, REMOVE = 5, GETXATTR = 6, SETXATTR = 7, MAP_GET = 9, MAP_SET = 10, MAP_NEXT = 12, OUT_LEN = 13, CREATE = 14, COPY = 17 };

static int has_heads; /* of the image that is made: rule set 3 counts them behind each method's code */

static void head(struct bytes *b, int rules, int methods) {
	has_heads = rules == 3;
	put(b, "RCL", 3), number(b, (uint64_t)('0' + rules), 1), number(b, (uint64_t)methods, 2), number(b, 0, 2);
}

/* What stands before a method's code; the number of slots is written when they are there. */
static size_t begin(struct bytes *b, const char *name, int flags, int in, int out) {
	number(b, strlen(name), 1), put(b, name, strlen(name)), number(b, (uint64_t)flags, 1);
	number(b, (uint64_t)in, 2), number(b, (uint64_t)out, 2), number(b, 0, 2);
	return b->len;
}

static size_t end(struct bytes *b, size_t code) {
	size_t slots = (b->len - code) / 8;
	b->at[code - 2] = (uint8_t)slots, b->at[code - 1] = (uint8_t)(slots >> 8);
	if (has_heads) number(b, 0, 2);
	return slots;
}

/* ---- calls, each by an image and by a handle */

struct asked { struct bytes image; struct sillarnica_verified handle; };
struct found { int32_t result; struct sillarnica_answer said; uint8_t *out; };
static uint8_t out[ROOM], other_out[ROOM];

static struct found ask(struct asked *a, int by_handle, const char *method, struct bytes form, struct bytes input, size_t room) {
	struct sillarnica_refusal why;
	struct found f;
	const uint8_t *name = (const uint8_t *)method;
	size_t len = strlen(method);
	f.out = by_handle ? other_out : out;
	memset(&f.said, 0xa5, sizeof f.said), memset(f.out, 0x5a, ROOM);
	if (by_handle)
		f.result = sillarnica_verified_call(&a->handle, name, len, form.at, form.len, 7, input.at, input.len, &f.said, f.out, room);
	else
		f.result = sillarnica_call(a->image.at, a->image.len, name, len, form.at, form.len, 7, input.at, input.len, &why, &f.said, f.out, room);
	return f;
}

static int is_filled(const void *at, uint8_t with, size_t n) {
	const uint8_t *p = (const uint8_t *)at;
	return !n || (p[0] == with && !memcmp(p, p + 1, n - 1));
}

/* The answer of both ways, which is one, and of too little room. */
static struct found answer(struct asked *a, const char *method, struct bytes form, struct bytes input, long n) {
	struct found f = ask(a, 0, method, form, input, ROOM), g = ask(a, 1, method, form, input, ROOM);
	want(f.result == g.result && !memcmp(&f.said, &g.said, sizeof f.said) && !memcmp(out, other_out, ROOM), "a handle answers something else", n);
	size_t used = f.result ? 0 : f.said.output_len + f.said.edits_len;
	want(used <= ROOM && is_filled(out + used, 0x5a, ROOM - used), "the rest of the buffer changed", n);
	if (f.result) want(is_filled(&f.said, 0xa5, sizeof f.said), "a refusal has an answer", n);
	for (int i = 0; used && i < 2; i++) {
		g = ask(a, 1, method, form, input, i ? used - 1 : 0);
		want(g.result == -34 && !memcmp(&f.said, &g.said, sizeof f.said), "-34 says something else", n);
		want(is_filled(g.out, 0x5a, ROOM), "without room the buffer changed", n);
	}
	return f;
}

static void open_class(struct asked *a) {
	struct sillarnica_refusal why;
	memset(&a->handle, 0xa5, sizeof a->handle);
	want(sillarnica_verified_open(a->image.at, a->image.len, &why, &a->handle) == 0, "the class isn't opened", (long)a->image.len);
	want(a->handle.is_open == 1 && a->handle.held, "an open handle says that it isn't", 0);
}

static void close_class(struct asked *a) {
	sillarnica_verified_close(&a->handle);
	want(a->handle.is_open == 0, "a closed handle says that it is open", 0);
	sillarnica_verified_close(&a->handle);
}

/* What verify, explain and open say of an image that is refused. */
static void refused(struct bytes image, uint32_t kind, uint32_t n, uint64_t method, int64_t at, const char *line) {
	struct sillarnica_refusal why[2];
	struct sillarnica_verified handle;
	uint8_t text[256];
	memset(&handle, 0xa5, sizeof handle);
	int32_t results[2] = { sillarnica_verify(image.at, image.len, &why[0]), sillarnica_verified_open(image.at, image.len, &why[1], &handle) };
	for (int i = 0; i < 2; i++)
		want(results[i] == (int32_t)kind && why[i].kind == kind && why[i].number == n && why[i].method == method && why[i].slot == at,
			line, results[i]);
	want(!handle.held && handle.is_open == 0, "a handle of a refused class is open", 0);
	int64_t len = sillarnica_explain(image.at, image.len, text, sizeof text);
	want(len == (int64_t)strlen(line) && !memcmp(text, line, strlen(line)), line, (long)len);
}

/* ---- the largest image */

static uint32_t state = 1;
static int32_t chance(void) {
	state ^= state << 13, state ^= state >> 17, state ^= state << 5;
	return (int32_t)state;
}

static void name_of(int n, char *to) {
	memset(to, '_', NAME), to[NAME] = 0;
	to[0] = (char)('0' + n / 10), to[1] = (char)('0' + n % 10);
}

/* A method of 4,096 slots, a sum: of each eight slots one stores it into the output, one loads eight bytes of the input, and one
 * adds them; all others add numbers. What it gives for an input of 4,096 bytes: its code, and its output. */
static int64_t largest_method(struct bytes *b, int n, const uint8_t *input, uint8_t *gives) {
	char name[NAME + 1];
	uint64_t sum = (uint64_t)n, loaded = 0;
	name_of(n, name);
	size_t code = begin(b, name, 1, VALUE, VALUE);
	memset(gives, 0, VALUE);
	slot(b, MOV, 0, 0, 0, n);
	for (int i = 1; i < SLOTS - 6; i++) {
		int at = i & ~7;
		if (i % 8 == 0) {
			slot(b, STORE_R, 3, 0, at, 0);
			for (int j = 0; j < 8; j++) gives[at + j] = (uint8_t)(sum >> (8 * j));
		} else if (i % 8 == 4) {
			slot(b, LOAD, 4, 1, at, 0);
			loaded = 0;
			for (int j = 7; j >= 0; j--) loaded = loaded << 8 | input[at + j];
		} else if (i % 8 == 5) slot(b, ADD_R, 0, 4, 0, 0), sum += loaded;
		else {
			int32_t by = chance();
			slot(b, ADD, 0, 0, 0, by);
			sum += (uint64_t)(int64_t)by;
		}
	}
	slot(b, AND, 0, 0, 0, 0x7fffffff), slot(b, MOV_R, 6, 0, 0, 0);
	slot(b, MOV, 1, 0, 0, VALUE), slot(b, CALL, 0, 0, 0, OUT_LEN), slot(b, MOV_R, 0, 6, 0, 0), slot(b, EXIT, 0, 0, 0, 0);
	want(end(b, code) == SLOTS, "a largest method has another size", n);
	return (int64_t)(sum & 0x7fffffff);
}

static void try_refused_images(struct bytes image, int rules) {
	size_t heads = rules == 3 ? 2 : 0, last = image.len - heads - 8 * SLOTS, at;
	struct bytes b = room_of(image.len + 8);
	put(&b, image.at, image.len), b.at[b.len] = 0;
	b.len++, refused(b, 1, 11, 32, -1, "image refused after 32 methods: 11 Trailing");
	b.len -= 2, refused(b, 1, 1, 31, -1, "image refused after 31 methods: 1 Truncated");
	b.len++, at = b.len - heads - 8;
	if (heads) {
		b.at[b.len - 1] = 1, refused(b, 1, 10, 31, -1, "image refused after 31 methods: 10 Limit");
		b.at[b.len - 1] = 0;
	}
	b.at[at] = MOV_R, refused(b, 2, 3, 31, 4095, "refused method 31 slot 4095: 3 FallsOff");
	b.at[at] = 0, refused(b, 1, 3, 31, 4095, "image refused after 31 methods, slot 4095: 3 Opcode");
	b.at[at] = EXIT, b.at[at + 4] = 1, refused(b, 1, 5, 31, 4095, "image refused after 31 methods, slot 4095: 5 NonzeroField");
	b.at[at + 4] = 0;
	/* before the code stand how many slots, the capacities, the flags, the name and its length */
	memset(b.at + b.len, 0, 8), b.len += 8;
	b.at[last - 2]++, refused(b, 1, 10, 31, -1, "image refused after 31 methods: 10 Limit");
	b.at[last - 2]--, b.len -= 8;
	/* (rule set 3 has larger capacities) */
	for (int i = 4; rules < 3 && i <= 6; i += 2) {
		b.at[last - i]++, refused(b, 1, 10, 31, -1, "image refused after 31 methods: 10 Limit");
		b.at[last - i]--;
	}
	b.at[last - 8 - NAME]++, refused(b, 1, 7, 31, -1, "image refused after 31 methods: 7 Name");
	b.at[last - 8 - NAME]--, b.at[4]++, refused(b, 1, 10, 0, -1, "image refused after 0 methods: 10 Limit");
	b.at[4]--;
	want(b.len == image.len && !memcmp(b.at, image.at, b.len), "the test spoiled the image", 0);
	free(b.at);
}

static void try_largest_image(int rules) {
	static uint8_t gives[METHODS][VALUE];
	int64_t codes[METHODS];
	struct asked a = { room_of(1 << 21), { NULL, 0 } };
	struct bytes input = room_of(VALUE), absent = room_of(1);
	struct sillarnica_refusal why;
	uint8_t text[8];
	number(&absent, 0, 1);
	while (input.len < VALUE) number(&input, (uint32_t)chance() >> 8, 1);
	head(&a.image, rules, METHODS);
	for (int n = 0; n < METHODS; n++) codes[n] = largest_method(&a.image, n, input.at, gives[n]);
	want(a.image.len == (rules == 3 ? 1050952 : 1050888), "the largest image has another size", (long)a.image.len);
	want(sillarnica_verify(a.image.at, a.image.len, &why) == 0, "the largest image is refused", rules);
	want(sillarnica_explain(a.image.at, a.image.len, text, sizeof text) == 0, "the largest image is explained", rules);
	open_class(&a);
	for (int n = 0; n < METHODS; n++) {
		char name[NAME + 1];
		uint32_t told[3] = { 0, 0, 0 };
		name_of(n, name);
		want(sillarnica_method(a.image.at, a.image.len, (uint8_t *)name, NAME, &told[0], &told[1], &told[2]) == 0, "a method isn't there", n);
		want(told[0] == 1 && told[1] == VALUE && told[2] == VALUE, "a method's numbers", n);
		want(sillarnica_needs(a.image.at, a.image.len, (uint8_t *)name, NAME) == 0, "a method needs a part", n);
		struct found f = answer(&a, name, absent, input, n);
		want(f.result == 0 && f.said.code == codes[n] && f.said.steps == SLOTS && f.said.edits_len == 0, "a largest method's answer", f.result);
		want(f.result == 0 && f.said.output_len == VALUE && !memcmp(out, gives[n], VALUE), "a largest method's output", n);
	}
	input.len++; /* (it isn't read) */
	char name[NAME + 1];
	name_of(0, name);
	want(answer(&a, name, absent, input, 0).result == -7, "an input of 4,097 bytes", 0);
	close_class(&a);
	try_refused_images(a.image, rules);
	free(a.image.at), free(input.at), free(absent.at);
}

/* ---- the largest object (the header) */

struct entry { uint8_t name[NAME]; const uint8_t *value; };
struct part { int count; struct entry at[KEYS + 1]; };
struct object { int is_there; size_t len; uint8_t data[DATA + 1]; struct part parts[2]; }; /* xattrs, keys */

/* Names are 60 letters and a number, so that they rise with it; all values have 4,096 bytes. */
static void entry_name(int n, uint8_t *to) {
	memset(to, 'n', NAME);
	for (int i = 1; i <= 4; i++, n /= 10) to[NAME - i] = (uint8_t)('0' + n % 10);
}

static void set(struct part *p, const uint8_t *name, const uint8_t *value) {
	int i = 0;
	while (i < p->count && memcmp(p->at[i].name, name, NAME) < 0) i++;
	if (i == p->count || memcmp(p->at[i].name, name, NAME)) {
		memmove(&p->at[i + 1], &p->at[i], (size_t)(p->count - i) * sizeof p->at[0]);
		p->count++;
	}
	memcpy(p->at[i].name, name, NAME), p->at[i].value = value;
}

/* Whether the name was there. */
static int unset(struct part *p, const uint8_t *name) {
	int i = 0;
	while (i < p->count && memcmp(p->at[i].name, name, NAME)) i++;
	if (i == p->count) return 0;
	memmove(&p->at[i], &p->at[i + 1], (size_t)(--p->count - i) * sizeof p->at[0]);
	return 1;
}

static struct bytes flat(const struct object *o) {
	struct bytes b = room_of(ROOM);
	number(&b, (uint64_t)o->is_there, 1);
	if (!o->is_there) return b;
	number(&b, o->len, 4), put(&b, o->data, o->len);
	for (int i = 0; i < 2; i++) {
		number(&b, (uint64_t)o->parts[i].count, 2);
		for (int j = 0; j < o->parts[i].count; j++)
			number(&b, NAME, 1), put(&b, o->parts[i].at[j].name, NAME), number(&b, VALUE, 2), put(&b, o->parts[i].at[j].value, VALUE);
	}
	return b;
}

static size_t number_at(const uint8_t *p, int n) { return n ? p[0] + 256 * number_at(p + 1, n - 1) : 0; }

/* Makes one edit: its length, or 0 where it is none that can be made. Each name has 64 bytes, each value 4,096. */
static size_t edit(struct object *o, const uint8_t *p, size_t left) {
	if (p[0] <= 2) {
		if (!p[0] || o->is_there == (p[0] == 1)) return 0;
		o->is_there = p[0] == 1, o->len = 0, o->parts[0].count = o->parts[1].count = 0;
		return 1;
	}
	if (!o->is_there || p[0] > 8) return 0;
	if (p[0] >= 7) {
		size_t n = left < 9 ? DATA + 1 : number_at(p + 1, 8), count = p[0] == 7 || left < 13 ? 0 : number_at(p + 9, 4), to = n + count;
		if (n > DATA || to > DATA || (p[0] == 8 && (!count || left - 13 < count))) return 0;
		if (to > o->len) memset(o->data + o->len, 0, to - o->len);
		if (p[0] == 7) return o->len = n, 9;
		if (to > o->len) o->len = to;
		return memcpy(o->data + n, p + 13, count), 13 + count;
	}
	struct part *part = &o->parts[p[0] >= 5];
	if (left < 3 + NAME || number_at(p + 1, 2) != NAME) return 0;
	if (p[0] % 2 == 0) return unset(part, p + 3) ? 3 + NAME : 0;
	if (left < 5 + NAME + VALUE || number_at(p + 3 + NAME, 2) != VALUE) return 0;
	if (part->count >= (p[0] >= 5 ? KEYS : XATTRS) + 1) return 0;
	return set(part, p + 3, p + 5 + NAME), 5 + NAME + VALUE;
}

/* A call that makes of an object another: its code, and how many bytes its edits have. */
static void changes(struct asked *a, const char *method, const struct object *before, const struct object *after, struct bytes input,
	int64_t code, size_t edits) {
	static struct object made;
	struct bytes form = flat(before), wants = flat(after);
	struct found f = answer(a, method, form, input, (long)form.len);
	want(f.result == 0 && f.said.code == code && f.said.output_len == 0, method, f.result);
	size_t len = f.result ? 0 : f.said.edits_len, at = 0, n = 1;
	want(len == edits, "as many bytes of edits", (long)len);
	memcpy(&made, before, sizeof made);
	while (at < len && (n = edit(&made, out + at, len - at))) at += n;
	want(n && at == len, "an edit that can't be made", (long)at);
	struct bytes is = flat(&made);
	want(is.len == wants.len && !memcmp(is.at, wants.at, is.len), "another object after", (long)is.len);
	free(form.at), free(wants.at), free(is.at);
}

/* Code: register 6 is the input, and the stack ends with 60 letters and place for a number. */
static void prologue(struct bytes *b) {
	slot(b, MOV_R, 6, 1, 0, 0);
	slot(b, WIDE, 7, 0, 0, 0x6e6e6e6e), slot(b, 0, 0, 0, 0, 0x6e6e6e6e);
	for (int i = 0; i < NAME; i += 8) slot(b, STORE_R, 10, 7, i - NAME, 0);
}

/* A name to register 1 and its length to 2. */
static void a_name(struct bytes *b, int n) {
	uint8_t name[NAME];
	entry_name(n, name);
	slot(b, STORE_4, 10, 0, -4, (int32_t)number_at(name + NAME - 4, 4));
	slot(b, MOV_R, 1, 10, 0, 0), slot(b, ADD, 1, 0, 0, -NAME), slot(b, MOV, 2, 0, 0, NAME);
}

static void sets(struct bytes *b, int helper, int n) {
	a_name(b, n);
	slot(b, MOV_R, 3, 6, 0, 0), slot(b, MOV, 4, 0, 0, VALUE), slot(b, CALL, 0, 0, 0, helper);
}

static void writes(struct bytes *b, int at, int n) {
	slot(b, MOV, 1, 0, 0, at), slot(b, MOV_R, 2, 6, 0, 0), slot(b, MOV, 3, 0, 0, n), slot(b, CALL, 0, 0, 0, WRITE);
}

static void finish(struct bytes *b, size_t code) {
	slot(b, EXIT, 0, 0, 0, 0);
	want(end(b, code) <= SLOTS, "a method is too long", (long)code);
}

/* Makes 65,536 bytes of data of an input of 4,096, and sets all xattrs and the keys of the first half to it. */
static void low(struct bytes *b) {
	size_t code = begin(b, "low", 2, VALUE, 0);
	prologue(b);
	for (int i = 0; i < DATA; i += VALUE) writes(b, i, VALUE);
	for (int i = 0; i < XATTRS; i++) sets(b, SETXATTR, i);
	for (int i = 0; i < KEYS / 2; i++) sets(b, MAP_SET, i);
	finish(b, code);
}

static void high(struct bytes *b) {
	size_t code = begin(b, "high", 2, VALUE, 0);
	prologue(b);
	for (int i = KEYS / 2; i < KEYS; i++) sets(b, MAP_SET, i);
	finish(b, code);
}

/* Both ends of all that an object has: the first and the last byte of data, xattr and key. */
static void both(struct bytes *b) {
	size_t code = begin(b, "ends", 2, VALUE, 0);
	prologue(b);
	writes(b, 0, 1), writes(b, DATA - 1, 1);
	sets(b, SETXATTR, 0), sets(b, SETXATTR, XATTRS - 1), sets(b, MAP_SET, 0), sets(b, MAP_SET, KEYS - 1);
	finish(b, code);
}

/* One thing more than there may be. */
static void one_more(struct bytes *b, const char *name, int helper, int n) {
	size_t code = begin(b, name, 2, VALUE, 0);
	prologue(b);
	if (helper == WRITE) writes(b, n, 1); else sets(b, helper, n);
	finish(b, code);
}

/* The last key's value, and the name of the one before its name. */
static void reads(struct bytes *b, const char *name, int helper, int n, int room) {
	size_t code = begin(b, name, 1, 0, room);
	slot(b, MOV_R, 8, 3, 0, 0), prologue(b);
	a_name(b, n);
	slot(b, MOV_R, 3, 8, 0, 0), slot(b, MOV, 4, 0, 0, room), slot(b, CALL, 0, 0, 0, helper), slot(b, MOV_R, 6, 0, 0, 0);
	slot(b, MOV, 1, 0, 0, room), slot(b, CALL, 0, 0, 0, OUT_LEN), slot(b, MOV_R, 0, 6, 0, 0);
	finish(b, code);
}

static void plain(struct bytes *b, const char *name, int flags, int helper) {
	size_t code = begin(b, name, flags, 0, 0);
	slot(b, CALL, 0, 0, 0, helper);
	if (helper == REMOVE) slot(b, MOV, 1, 0, 0, 0), slot(b, CALL, 0, 0, 0, CREATE);
	finish(b, code);
}

/* What an output of a full object is. */
static void gives(struct asked *a, const char *method, struct bytes form, int64_t code, const uint8_t *output, size_t len) {
	struct bytes none = { NULL, 0 };
	struct found f = answer(a, method, form, none, 0);
	want(f.result == 0 && f.said.code == code && f.said.edits_len == 0, method, f.result);
	want(f.result == 0 && f.said.output_len == len && (!len || !memcmp(out, output, len)), method, -1);
}

/* A full object with one byte, entry or letter too many is none. */
static void try_malformed(struct asked *a, const struct object *full, const uint8_t *value) {
	static struct object o;
	struct bytes none = { NULL, 0 }, form = flat(full);
	uint8_t name[NAME];
	entry_name(9999, name);
	form.at[form.len++] = 0;
	want(answer(a, "stat", form, none, 0).result == -22, "a byte behind a full object", 0);
	form.len -= 2;
	want(answer(a, "stat", form, none, 0).result == -22, "a full object without its last byte", 0);
	free(form.at);
	for (int i = 0; i < 3; i++) {
		memcpy(&o, full, sizeof o);
		if (i == 2) o.len++; else set(&o.parts[i], name, value);
		form = flat(&o);
		want(answer(a, "stat", form, none, i).result == -22, "an xattr, a key or a byte of data too many", i);
		free(form.at);
	}
	form = flat(full);
	size_t last = form.len - VALUE - 2; /* the last value's length */
	form.at[last] = 1, form.at[form.len++] = 0;
	want(answer(a, "stat", form, none, 0).result == -22, "a value of 4,097 bytes", 0);
	form.at[last] = 0, memmove(form.at + last + 1, form.at + last, VALUE + 2), form.at[last] = 'n', form.at[last - NAME - 1] = NAME + 1;
	want(answer(a, "stat", form, none, 0).result == -22, "a name of 65 bytes", 0);
	free(form.at);
}

/* With memory refused at one growth after the other, further and further on. */
static void try_refused(struct asked *a, const char *method, struct bytes form, struct bytes input) {
	struct found all = ask(a, 0, method, form, input, ROOM);
	int is_met = 1;
	for (long k = 0; is_met; k += 1 + k / 5) {
		is_met = 0;
		for (int by_handle = 0; by_handle < 2; by_handle++) {
			growths = k;
			struct found f = ask(a, by_handle, method, form, input, ROOM);
			int met = growths == 0;
			growths = -1, is_met |= met;
			want(met ? f.result == -12 || f.result == all.result : f.result == all.result, "memory is refused, and it says something else", k);
			want(f.result != -12 || (is_filled(f.out, 0x5a, ROOM) && is_filled(&f.said, 0xa5, sizeof f.said)), "-12 writes", k);
		}
	}
	struct found again = ask(a, 1, method, form, input, ROOM);
	want(again.result == all.result && !memcmp(&again.said, &all.said, sizeof all.said), "a handle after refusals of memory", 0);
}

/* The largest input, copied to the largest output. */
static void try_largest_regions(void) {
	struct asked a = { room_of(256), { NULL, 0 } };
	struct bytes input = room_of(MOST + 1), absent = room_of(1);
	number(&absent, 0, 1);
	head(&a.image, 3, 1);
	size_t code = begin(&a.image, "f", 1, MOST, MOST);
	slot(&a.image, MOV_R, 4, 2, 0, 0), slot(&a.image, MOV_R, 2, 3, 0, 0), slot(&a.image, MOV_R, 3, 1, 0, 0), slot(&a.image, MOV_R, 1, 2, 0, 0);
	slot(&a.image, MOV, 2, 0, 0, MOST), slot(&a.image, CALL, 0, 0, 0, COPY), slot(&a.image, MOV_R, 6, 0, 0, 0);
	slot(&a.image, JUMP_SLT, 0, 0, 2, 0), slot(&a.image, MOV_R, 1, 0, 0, 0), slot(&a.image, CALL, 0, 0, 0, OUT_LEN);
	slot(&a.image, MOV_R, 0, 6, 0, 0), finish(&a.image, code);
	open_class(&a);
	for (int i = 0; i < 3; i++) {
		size_t len = i == 0 ? 0 : i == 1 ? 5000 : MOST;
		while (input.len < len) number(&input, (uint32_t)chance() >> 8, 1);
		struct found f = answer(&a, "f", absent, input, i);
		want(f.result == 0 && f.said.code == (int64_t)len && f.said.steps == 12 && f.said.edits_len == 0, "the largest regions' answer", f.result);
		want(f.result == 0 && f.said.output_len == len && !memcmp(out, input.at, len), "the largest output", i);
	}
	try_refused(&a, "f", absent, input);
	number(&input, 0, 1);
	want(answer(&a, "f", absent, input, 0).result == -7, "an input of 65,536 bytes", 0);
	close_class(&a);
	free(a.image.at), free(input.at), free(absent.at);
}

static void try_full_object(void) {
	static struct object absent, half, full, other, empty;
	struct asked a = { room_of(1 << 17), { NULL, 0 } };
	struct bytes first = room_of(VALUE), second = room_of(VALUE), none = { NULL, 0 };
	uint8_t name[NAME];
	while (first.len < VALUE) number(&first, (uint32_t)chance() >> 8 | 1, 1), number(&second, (uint32_t)chance() >> 8 & 0xfe, 1);
	head(&a.image, 1, 11);
	plain(&a.image, "again", 3, REMOVE), both(&a.image);
	reads(&a.image, "get", MAP_GET, KEYS - 1, VALUE), reads(&a.image, "getx", GETXATTR, XATTRS - 1, VALUE);
	high(&a.image), low(&a.image);
	one_more(&a.image, "more", WRITE, DATA), one_more(&a.image, "morekeys", MAP_SET, KEYS), one_more(&a.image, "morexattrs", SETXATTR, XATTRS);
	reads(&a.image, "next", MAP_NEXT, KEYS - 2, NAME), plain(&a.image, "stat", 1, STAT);
	open_class(&a);

	half.is_there = 1, half.len = DATA;
	for (int i = 0; i < DATA; i += VALUE) memcpy(half.data + i, first.at, VALUE);
	for (int i = 0; i < XATTRS; i++) entry_name(i, name), set(&half.parts[0], name, first.at);
	for (int i = 0; i < KEYS / 2; i++) entry_name(i, name), set(&half.parts[1], name, first.at);
	memcpy(&full, &half, sizeof full);
	for (int i = KEYS / 2; i < KEYS; i++) entry_name(i, name), set(&full.parts[1], name, first.at);
	struct bytes form = flat(&full);
	want(form.len == 4461673, "the largest flat form has another size", (long)form.len);

	/* from nothing to all, in two calls: each write and each set is an edit, a number and its fields */
	size_t set_one = 5 + NAME + VALUE, writes_all = (DATA / VALUE) * (13 + VALUE), sets_low = (XATTRS + KEYS / 2) * set_one;
	changes(&a, "low", &absent, &half, first, 0, 1 + writes_all + sets_low);
	changes(&a, "high", &half, &full, first, 0, KEYS / 2 * set_one);
	/* another value everywhere; and the same once more, which changes nothing and is written all the same */
	memcpy(&other, &full, sizeof other);
	for (int i = 0; i < DATA; i += VALUE) memcpy(other.data + i, second.at, VALUE);
	for (int i = 0; i < XATTRS; i++) other.parts[0].at[i].value = second.at;
	for (int i = 0; i < KEYS / 2; i++) other.parts[1].at[i].value = second.at;
	changes(&a, "low", &full, &other, second, 0, writes_all + sets_low);
	changes(&a, "low", &full, &full, first, 0, writes_all + sets_low);
	/* both ends */
	memcpy(&other, &full, sizeof other);
	other.data[0] = other.data[DATA - 1] = second.at[0];
	for (int i = 0; i < 2; i++) other.parts[i].at[0].value = other.parts[i].at[other.parts[i].count - 1].value = second.at;
	changes(&a, "ends", &full, &other, second, 0, 2 * 14 + 4 * set_one);
	/* all of it goes: a removal and a creation */
	empty.is_there = 1;
	changes(&a, "again", &full, &empty, none, 0, 2);
	/* what is full takes no more: EFBIG, ENOSPC */
	changes(&a, "more", &full, &full, second, -27, 0), changes(&a, "morekeys", &full, &full, second, -28, 0);
	changes(&a, "morexattrs", &full, &full, second, -28, 0);
	/* what is read of it */
	entry_name(KEYS - 1, name);
	gives(&a, "stat", form, DATA, NULL, 0), gives(&a, "next", form, NAME, name, NAME);
	gives(&a, "get", form, VALUE, first.at, VALUE), gives(&a, "getx", form, VALUE, first.at, VALUE);
	want(sillarnica_needs(a.image.at, a.image.len, (const uint8_t *)"ends", 4) == 7, "what both ends need", 0);
	try_malformed(&a, &full, first.at);
	try_refused(&a, "ends", form, second);
	close_class(&a);
	free(a.image.at), free(first.at), free(second.at), free(form.at);
}

/* ---- what a host hands in as a handle */

/* A class of one method, whose code is that number. */
static struct bytes class_of(int code) {
	struct bytes b = room_of(64);
	head(&b, 1, 1);
	size_t at = begin(&b, "f", 1, 0, 0);
	slot(&b, MOV, 0, 0, 0, code), finish(&b, at);
	return b;
}

static void holds(struct sillarnica_verified *handle, int code) {
	struct sillarnica_answer said;
	uint8_t absent = 0;
	int32_t result = sillarnica_verified_call(handle, (const uint8_t *)"f", 1, &absent, 1, 7, NULL, 0, &said, NULL, 0);
	want(result == 0 && said.code == code && said.steps == 2, "a handle's class", result);
}

static void try_handles(void) {
	static const uint32_t states[] = { 0, 2, 3, 255, 256, 257, 0x10000, 0x80000001, 0xffffffff };
	struct bytes one = class_of(1), two = class_of(2), bad = class_of(3);
	struct sillarnica_verified handle, given;
	struct sillarnica_refusal why;
	struct sillarnica_answer said;
	uint8_t absent = 0;
	bad.len--;
	/* A copy has the class, and the memory is opened anew: what it held isn't looked at. */
	want(sillarnica_verified_open(one.at, one.len, &why, &handle) == 0, "a small class", 0);
	given = handle, watched = given.held;
	want(sillarnica_verified_open(two.at, two.len, &why, &handle) == 0 && handle.is_open == 1, "a handle that was given up", 0);
	holds(&given, 1), holds(&handle, 2), holds(&given, 1);
	sillarnica_verified_close(&handle), holds(&given, 1);
	handle = given;
	want(sillarnica_verified_open(bad.at, bad.len, &why, &handle) == 1 && handle.is_open == 0, "no class", 0);
	sillarnica_verified_close(&handle), holds(&given, 1);
	/* Any other number than 1 says that a handle is closed. */
	for (size_t i = 0; i < sizeof states / sizeof *states; i++) {
		handle = given, handle.is_open = states[i];
		memset(&said, 0xa5, sizeof said);
		int32_t result = sillarnica_verified_call(&handle, (const uint8_t *)"f", 1, &absent, 1, 7, NULL, 0, &said, NULL, 0);
		want(result == -9 && is_filled(&said, 0xa5, sizeof said), "a closed handle answers", (long)states[i]);
		sillarnica_verified_close(&handle);
		holds(&given, 1);
	}
	watched = NULL;
	sillarnica_verified_close(&given);
	want(given.is_open == 0, "a closed handle says that it is open", 0);
	free(one.at), free(two.at), free(bad.at);
}

/* ---- classes with loops */

enum { UNSET, ANY }; /* kinds of places */

/* Ends a method that declares a budget and one head, of places that are unset and of one that is any number. */
static void finish_loop(struct bytes *b, size_t code, uint32_t budget, int slot, int unset, int any) {
	has_heads = 0, end(b, code), has_heads = 1;
	number(b, 1, 2), number(b, budget, 4), number(b, (uint64_t)slot, 2), number(b, (uint64_t)(unset + (any >= 0)), 1);
	for (int n = 1; n <= unset; n++) number(b, (uint64_t)n, 1), number(b, UNSET, 1);
	if (any >= 0) number(b, (uint64_t)any, 1), number(b, ANY, 1);
}

/* `a` has no loop, `b` goes round in one instruction. `count` adds 1 up to a number, in 2 n + 3 instructions. `writes` writes 8 bytes
 * every 8 up to a number: a round takes 70 of the budget in 7 instructions, all else 4. Unless it is whole
 * a head lacks its place. */
static struct bytes looped_class(int is_whole) {
	struct bytes b = room_of(1024);
	head(&b, 3, 4);
	size_t code = begin(&b, "a", 1, 0, 0);
	slot(&b, MOV, 0, 0, 0, 7), finish(&b, code);
	code = begin(&b, "b", 1, 0, 0);
	slot(&b, MOV, 0, 0, 0, 0), slot(&b, JUMP, 0, 0, -1, 0), finish_loop(&b, code, 5, 1, 0, -1);
	code = begin(&b, "count", 1, 4, 0);
	slot(&b, LOAD_4, 6, 1, 0, 0), slot(&b, MOV, 0, 0, 0, 0);
	slot(&b, ADD, 0, 0, 0, 1), slot(&b, JUMP_LT_R, 0, 6, -2, 0), slot(&b, EXIT, 0, 0, 0, 0);
	finish_loop(&b, code, SILLARNICA_BUDGET_LIMIT, 2, 0, is_whole ? 0 : -1);
	code = begin(&b, "writes", 2, 4, 0);
	slot(&b, LOAD_4, 7, 1, 0, 0), slot(&b, MOV, 6, 0, 0, 0);
	slot(&b, MOV_R, 1, 6, 0, 0), slot(&b, MOV_R, 2, 10, 0, 0), slot(&b, ADD, 2, 0, 0, -8), slot(&b, MOV, 3, 0, 0, 8);
	slot(&b, CALL, 0, 0, 0, WRITE), slot(&b, ADD, 6, 0, 0, 8), slot(&b, JUMP_LT_R, 6, 7, -7, 0);
	slot(&b, MOV_R, 0, 6, 0, 0), slot(&b, EXIT, 0, 0, 0, 0);
	finish_loop(&b, code, SILLARNICA_BUDGET_LIMIT, 2, 3, 6);
	return b;
}

/* What opening says: the refusal is the answer's kind, or nothing is written. */
static void opens(struct bytes image, uint32_t budget, int32_t result, uint32_t kind, uint32_t n, uint64_t method, int64_t at) {
	struct sillarnica_refusal why;
	struct sillarnica_verified handle;
	memset(&why, 0xa5, sizeof why), memset(&handle, 0xa5, sizeof handle);
	want(sillarnica_loops_open(image.at, image.len, budget, &why, &handle) == result, "a class with loops is opened otherwise", (long)budget);
	want(handle.is_open == (result == 0) && (handle.held != NULL) == (result == 0), "whether a handle of loops is open", (long)budget);
	if (!kind) want(is_filled(&why, 0xa5, sizeof why), "a reason is written that isn't told", (long)budget);
	else want(why.kind == kind && why.number == n && why.method == method && why.slot == at, "why a class with loops is refused", (long)budget);
	sillarnica_verified_close(&handle);
}

/* What is said of an image, by the verdict on loops or without loops; `line` is empty if it is accepted. */
static void explains(struct bytes image, int loops, const char *line) {
	uint8_t text[256];
	size_t len = strlen(line);
	memset(text, 0x5a, sizeof text);
	int64_t said = loops ? sillarnica_loops_explain(image.at, image.len, text, sizeof text) : sillarnica_explain(image.at, image.len, text, sizeof text);
	want(said == (int64_t)len && !memcmp(text, line, len) && is_filled(text + len, 0x5a, sizeof text - len), line, (long)said);
}

static void try_openings(struct bytes good, struct bytes bad) {
	static const uint32_t none[] = { 0, SILLARNICA_BUDGET_LIMIT + 1, UINT32_MAX };
	struct bytes cut = { good.at, good.len - 1 }, nothing = { NULL, 0 };
	for (int i = 0; i < 3; i++) opens(good, none[i], -22, 0, 0, 0, 0), opens(nothing, none[i], -22, 0, 0, 0, 0);
	opens(good, 1, -27, 3, 5, 1, -1), opens(good, 4, -27, 3, 5, 1, -1);
	opens(good, 5, -27, 3, SILLARNICA_BUDGET_LIMIT, 2, -1);
	opens(good, SILLARNICA_BUDGET_LIMIT - 1, -27, 3, SILLARNICA_BUDGET_LIMIT, 2, -1);
	opens(good, SILLARNICA_BUDGET_LIMIT, 0, 0, 0, 0, 0);
	/* a class that is refused is refused so by each budget */
	opens(cut, 1, 1, 1, 1, 3, -1), opens(cut, SILLARNICA_BUDGET_LIMIT, 1, 1, 1, 3, -1);
	opens(bad, 1, 2, 2, 1, 2, 3), opens(bad, SILLARNICA_BUDGET_LIMIT, 2, 2, 1, 2, 3);
	explains(good, 1, ""), explains(good, 0, "refused method 1 slot 1: 1 Backward");
	explains(bad, 1, "refused method 2 slot 3: 1 Backward"), explains(cut, 1, "image refused after 3 methods: 1 Truncated");
	refused(good, 2, 1, 1, 1, "refused method 1 slot 1: 1 Backward");
}

/* What a call by a handle gives, on a flat form and on a part; its edits are writes of 8 zeros every 8 bytes. */
static void runs(struct asked *a, const char *method, uint32_t input, int64_t code, uint64_t steps, size_t edits) {
	static const struct sillarnica_limits limits = { DATA, SILLARNICA_ANY_NUMBER, SILLARNICA_ANY_NUMBER, NAME, NAME };
	static const uint8_t zeros[8];
	struct bytes absent = room_of(1), text = room_of(4);
	struct sillarnica_want needs;
	number(&absent, 0, 1), number(&text, input, 4);
	if (*method == 'a' || *method == 'b') text.len = 0;
	for (int on_part = 0; on_part < 2; on_part++) {
		struct found f = ask(a, 1, method, absent, text, ROOM);
		if (on_part) {
			memset(&f.said, 0xa5, sizeof f.said), memset(f.out, 0x5a, ROOM);
			f.result = sillarnica_verified_call_part(&a->handle, (const uint8_t *)method, strlen(method), absent.at, absent.len, 7, &limits,
				text.at, text.len, &f.said, &needs, f.out, ROOM);
		}
		want(f.result == 0 && f.said.code == code && f.said.steps == steps, method, (long)f.said.steps);
		want(f.said.output_len == 0 && f.said.edits_len == edits, "as many bytes of edits of a loop", (long)f.said.edits_len);
		want(f.result || is_filled(f.out + edits, 0x5a, ROOM - edits), "behind a loop's edits the buffer changed", input);
		want(!edits || f.out[0] == 1, "a loop's object isn't made", input);
		for (size_t at = 1, n = 0; at + 21 <= edits; at += 21, n += 8)
			want(f.out[at] == 8 && number_at(f.out + at + 1, 8) == n && number_at(f.out + at + 9, 4) == 8 && !memcmp(f.out + at + 13, zeros, 8),
				"an edit of a loop", (long)n);
	}
	free(absent.at), free(text.at);
}

/* A call up to each end of the largest budget, and past it. */
static void try_budgets(struct asked *a) {
	const uint32_t most = SILLARNICA_BUDGET_LIMIT, count = (most - 3) / 2, rounds = (most - 4) / 70;
	const size_t list = 1 + 21 * (DATA / 8); /* (what would pass the data's limit is refused) */
	runs(a, "a", 0, 7, 2, 0), runs(a, "b", 0, -62, 5, 0);
	runs(a, "count", 0, 1, 5, 0), runs(a, "count", 1000, 1000, 2003, 0);
	runs(a, "count", count, count, 2 * count + 3, 0), runs(a, "count", count + 1, -62, most, 0);
	runs(a, "writes", 8, 8, 11, 22), runs(a, "writes", DATA, DATA, 4 + 7 * (DATA / 8), list);
	runs(a, "writes", 8 * rounds, 8 * rounds, 4 + 7 * rounds, list), runs(a, "writes", 8 * rounds + 1, -62, most, 0);
}

/* With memory refused at one growth after the other: at opening, and in a call that ends or is spent. */
static void try_refused_loops(struct bytes image, uint32_t input, int64_t code) {
	struct asked a = { image, { NULL, 0 } };
	struct sillarnica_refusal why;
	struct bytes absent = room_of(1), text = room_of(4);
	int is_met = 1;
	number(&absent, 0, 1), number(&text, input, 4);
	for (long k = 0; is_met; k += 1 + k / 5) {
		memset(&why, 0xa5, sizeof why), growths = k;
		int32_t result = sillarnica_loops_open(image.at, image.len, SILLARNICA_BUDGET_LIMIT, &why, &a.handle);
		is_met = growths == 0, growths = -1;
		want((result == 0 || (is_met && result == -12)) && a.handle.is_open == (result == 0), "a class with loops where memory is refused", k);
		want(is_filled(&why, 0xa5, sizeof why), "a reason where memory is refused", k);
		sillarnica_verified_close(&a.handle);
	}
	want(sillarnica_loops_open(image.at, image.len, SILLARNICA_BUDGET_LIMIT, &why, &a.handle) == 0, "a class with loops after it", 0);
	is_met = 1;
	for (long k = 0; is_met; k += 1 + k / 5) {
		growths = k;
		struct found f = ask(&a, 1, "writes", absent, text, ROOM);
		is_met = growths == 0, growths = -1;
		want(f.result == 0 ? f.said.code == code : is_met && f.result == -12, "a loop where memory is refused", k);
		want(f.result == 0 || (is_filled(f.out, 0x5a, ROOM) && is_filled(&f.said, 0xa5, sizeof f.said)), "-12 of a loop writes", k);
	}
	runs(&a, "b", 0, -62, 5, 0);
	sillarnica_verified_close(&a.handle);
	free(absent.at), free(text.at);
}

static void try_loops(void) {
	struct bytes good = looped_class(1), bad = looped_class(0);
	struct asked a = { good, { NULL, 0 } }, copy = a;
	struct sillarnica_refusal why;
	try_openings(good, bad);
	want(sillarnica_loops_open(good.at, good.len, SILLARNICA_BUDGET_LIMIT, &why, &a.handle) == 0, "a class with loops", 0);
	try_budgets(&a);
	want(sillarnica_verified_copy(&a.handle, &copy.handle) == 0 && copy.handle.is_open == 1, "a copy of a handle with loops", 0);
	runs(&copy, "count", 1000, 1000, 2003, 0);
	sillarnica_verified_close(&a.handle);
	want(sillarnica_verified_copy(&a.handle, &a.handle) == -9, "a copy of a closed handle with loops", 0);
	try_budgets(&copy);
	want(sillarnica_verified_needs(&copy.handle, (const uint8_t *)"writes", 6) == 1, "what a method with a loop needs", 0);
	sillarnica_verified_close(&copy.handle);
	try_refused_loops(good, 800, 800), try_refused_loops(good, DATA * 4, -62);
	free(good.at), free(bad.at);
}

int main(void) {
	try_handles();
	try_loops();
	for (int rules = 1; rules <= 3; rules++) try_largest_image(rules);
	try_largest_regions();
	try_full_object();
	return wrong != 0;
}
