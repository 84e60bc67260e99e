/* Makes calls of the library of whatever bytes libFuzzer hands in, and compares each answer with what the header and the pages
 * say (fuzz_model.c). tools/fuzz.sh compiles and runs it; fuzz.h has an input's fields. Of the last field, 7 bytes, three are the
 * room for an answer, one that for a line, two say which growth of memory is refused, one how a run's memory is laid out.
 *
 * Whatever is handed in lies at the end of its memory, so that a byte read or written behind it ends the process, and so does a
 * byte behind memory that the library took. A difference ends it too: libFuzzer keeps the input then. */
#include "fuzz.h"
#include "sillarnica.h"
#include <malloc.h>
#include <stdio.h>
#include <stdlib.h>
#include <string.h>
#include <sys/mman.h>

enum { PLACE = 1 << 24, BEFORE = 64, BEHIND = 16, ROUNDS = 200 };
struct call { struct slice image, method, object, input; uint64_t caller; };
struct found { int32_t result; struct sillarnica_refusal why; struct sillarnica_answer said; size_t room; };
enum { FORM = FIELDS, OUT, TEXT, KEPT, SAID, PLACES };

static uint8_t *ends[PLACES]; /* of memory; behind each is none */
static struct class_of class;
static struct object before, after, edited;
static struct outcome outcome;

/* What was refused, and of which instruction, is what libFuzzer is to find more of. */
__attribute__((section("__libfuzzer_extra_counters"))) static uint8_t refusals[32 * 256];

static void want(int is, const char *what) {
	if (is) return;
	fprintf(stderr, "DIFFERS: %s\n", what);
	abort();
}

/* ---- the library's memory */

static int is_inside;         /* a call of the library */
static long growths = -1;     /* how many are still granted; below 0 all are */
static long granted;          /* how many were */
static long held_memory;      /* how many pieces it has */
static uint8_t fresh = 0xa7;  /* what memory holds that nothing was written to */

void *__real_malloc(size_t);
void *__real_realloc(void *, size_t);
void __real_free(void *);
void *__wrap_malloc(size_t);
void *__wrap_realloc(void *, size_t);
void __wrap_free(void *);

void *__wrap_malloc(size_t n) {
	if (!is_inside) return __real_malloc(n);
	if (growths == 0) return NULL;
	growths -= growths > 0;
	uint8_t *p = (uint8_t *)__real_malloc(n + BEHIND);
	if (!p) return NULL;
	held_memory++, granted++;
	memset(p, fresh, n), memset(p + n, 0xc9, BEHIND);
	return p;
}

/* How many bytes the library asked for there. */
static size_t asked_for(const uint8_t *p) {
	size_t n = malloc_usable_size((void *)p) - BEHIND;
	for (int i = 0; i < BEHIND; i++) want(p[n + i] == 0xc9, "the library wrote behind its memory");
	return n;
}

void __wrap_free(void *p) {
	if (is_inside && p) asked_for((uint8_t *)p), held_memory--;
	__real_free(p);
}

void *__wrap_realloc(void *old, size_t n) {
	if (!is_inside) return __real_realloc(old, n);
	void *p = __wrap_malloc(n);
	if (!p || !old) return p;
	size_t had = asked_for((uint8_t *)old);
	memcpy(p, old, had < n ? had : n);
	__wrap_free(old);
	return p;
}

#define INSIDE(call) __extension__({ is_inside = 1; __typeof__(call) said_ = (call); is_inside = 0; said_; })

/* ---- what is handed in */

static struct slice placed(int where, struct slice from) {
	struct slice to = { from.len ? ends[where] - from.len : NULL, from.len };
	if (from.len) memmove(ends[where] - from.len, from.at, from.len);
	return to;
}

static int is_filled(const void *at, uint8_t with, size_t n) {
	const uint8_t *p = (const uint8_t *)at;
	return !n || (p[0] == with && !memcmp(p, p + 1, n - 1));
}

/* Makes the call, by a handle if there is one, and looks at what it wrote. */
static struct found ask(const struct call *c, struct sillarnica_verified *held, size_t room) {
	struct found f;
	uint8_t *out = ends[OUT] - room;
	memset(&f, 0xa5, sizeof f);
	memset(out - BEFORE, 0x5a, room + BEFORE);
	f.room = room, fresh = (uint8_t)~fresh;
	if (held)
		f.result = INSIDE(sillarnica_verified_call(held, c->method.at, c->method.len, c->object.at, c->object.len, c->caller,
			c->input.at, c->input.len, &f.said, out, room));
	else
		f.result = INSIDE(sillarnica_call(c->image.at, c->image.len, c->method.at, c->method.len, c->object.at, c->object.len, c->caller,
			c->input.at, c->input.len, &f.why, &f.said, out, room));
	size_t used = f.result == 0 ? f.said.output_len + f.said.edits_len : 0;
	want(used <= room && is_filled(out + used, 0x5a, room - used), "the rest of the buffer changed");
	want(is_filled(out - BEFORE, 0x5a, BEFORE), "what is before the buffer changed");
	if (f.result != 1 && f.result != 2) want(is_filled(&f.why, 0xa5, sizeof f.why), "the refusal changed");
	if (f.result != 0 && f.result != -34) want(is_filled(&f.said, 0xa5, sizeof f.said), "the answer changed");
	return f;
}

/* Whether both answer the same, each by its room: `first` has its bytes in KEPT, `f` in OUT. */
static int is_same(const struct found *first, const struct found *f) {
	if (first->result != 0) return first->result == f->result && !memcmp(&first->why, &f->why, sizeof f->why);
	size_t used = first->said.output_len + first->said.edits_len;
	if (f->result != (used > f->room ? -34 : 0) || memcmp(&first->said, &f->said, sizeof f->said)) return 0;
	return f->result || !memcmp(ends[KEPT] - used, ends[OUT] - f->room, used);
}

/* Opens a handle, by a host's greatest budget if there is one. */
static int32_t open_class(const struct call *c, uint32_t budget, struct sillarnica_refusal *why, struct sillarnica_verified *held) {
	if (budget) return INSIDE(sillarnica_loops_open(c->image.at, c->image.len, budget, why, held));
	return INSIDE(sillarnica_verified_open(c->image.at, c->image.len, why, held));
}

static void close_class(struct sillarnica_verified *held) { is_inside = 1, sillarnica_verified_close(held), is_inside = 0; }

/* ---- what it should answer */

static const char *const ERRORS[] = { "", "Truncated", "Magic", "Opcode", "Register", "NonzeroField", "WideHalf", "Name", "Order", "Flags",
	"Limit", "Trailing", "NoMemory", "Head" };
static const char *const RULES[] = { "", "Backward", "Target", "FallsOff", "LocalCall", "UnsetRead", "WritesR10", "PointerArithmetic",
	"PointerCompare", "PointerStored", "Bounds", "ReadOnlyRegion", "UnknownHelper", "HelperArgument", "WriteHelperInReader",
	"ReturnsPointer", "NoMemory", "PointerBytes" };

/* Whether it may be that a rule refuses a class so: of rules 5 and above, and of a jump back to a head, it is the library's word. */
static void test_rule(const struct sillarnica_refusal *why, int by_loops) {
	struct where plain = plain_rules(&class, by_loops);
	want(why->kind == 2 && why->number >= 1 && why->number <= 17 && why->number != 16, "a rule's number");
	want(why->method < class.count && why->slot >= 0 && why->slot < class.methods[why->method].slots, "a rule's place");
	const struct method *m = &class.methods[why->method];
	int is_before = why->method < plain.method || (why->method == plain.method && why->slot < plain.slot);
	int is_plain = why->number == plain.number && why->method == plain.method && why->slot == plain.slot;
	int is_own = why->number > 4 || (by_loops && why->number == 1 && goes_to_head(m, why->slot));
	want(is_own ? !plain.number || is_before : is_plain, "it isn't the first refusal");
	const uint8_t *slot = m->code + 8 * why->slot;
	want(slot[0] != 0, "a rule refuses half an instruction");
	refusals[why->number << 8 | slot[0]]++;
}

/* The verdict of an image: 0, 1 or 2, and why. */
static int32_t verdict(const struct call *c, struct sillarnica_refusal *why) {
	struct where refused = read_class(c->image, &class);
	memset(why, 0xa5, sizeof *why);
	int32_t result = INSIDE(sillarnica_verify(c->image.at, c->image.len, why));
	if (refused.number) {
		want(result == 1 && why->kind == 1 && why->number == refused.number && why->method == refused.method && why->slot == refused.slot,
			"an image's refusal");
		refusals[refused.number]++;
		return 1;
	}
	if (result == 0) {
		want(is_filled(why, 0xa5, sizeof *why) && !plain_rules(&class, 0).number, "a class is accepted that a plain rule refuses");
		return 0;
	}
	want(result == 2, "the number of a verdict");
	test_rule(why, 0);
	return 2;
}

static void test_explain(const struct call *c, int32_t result, const struct sillarnica_refusal *why, size_t room, int by_loops) {
	char line[256] = "";
	int n = 0;
	if (result == 1) {
		n = snprintf(line, sizeof line, "image refused after %llu methods", (unsigned long long)why->method);
		if (why->slot >= 0) n += snprintf(line + n, sizeof line - (size_t)n, ", slot %lld", (long long)why->slot);
		n += snprintf(line + n, sizeof line - (size_t)n, ": %u %s", why->number, ERRORS[why->number]);
	} else if (result == 2)
		n = snprintf(line, sizeof line, "refused method %llu slot %lld: %u %s", (unsigned long long)why->method, (long long)why->slot,
			why->number, RULES[why->number]);
	uint8_t *text = ends[TEXT] - room;
	size_t written = (size_t)n < room ? (size_t)n : room;
	memset(text, 0x5a, room);
	int64_t length = by_loops ? INSIDE(sillarnica_loops_explain(c->image.at, c->image.len, text, room))
		: INSIDE(sillarnica_explain(c->image.at, c->image.len, text, room));
	want(length == n, "the length of the line");
	want(!memcmp(text, line, written) && is_filled(text + written, 0x5a, room - written), "the line");
}

/* What is told of a method by its number; by a handle if there is one. Whether there is one. */
static int test_method_at(const struct call *c, struct sillarnica_verified *held, size_t n, int32_t fails) {
	struct sillarnica_declared told;
	uint8_t name[NAME + 1];
	memset(&told, 0xa5, sizeof told), memset(name, 0x5a, sizeof name);
	size_t room = n % (NAME + 2), most = room < sizeof name ? room : sizeof name;
	int32_t found = held ? INSIDE(sillarnica_verified_method_at(held, n, &told, name, most))
		: INSIDE(sillarnica_method_at(c->image.at, c->image.len, n, &told, name, most));
	const struct method *m = !fails && n < class.count ? &class.methods[n] : NULL;
	want(found == (m ? 0 : fails ? fails : -95), "what is said of a method by its number");
	if (!m) return want(is_filled(&told, 0xa5, sizeof told) && is_filled(name, 0x5a, sizeof name), "a method that isn't there is told"), 0;
	want(told.flags == m->flags && told.in_cap == m->in_cap && told.out_cap == m->out_cap, "a method's numbers by its number");
	want((int)told.needs == needs_of(m) && told.name_len == m->name.len, "a method's parts and its name's length");
	size_t written = most < m->name.len ? most : m->name.len;
	want(!memcmp(name, m->name.at, written) && is_filled(name + written, 0x5a, sizeof name - written), "a method's name");
	return 1;
}

static void test_method(const struct call *c, int32_t result, const struct method *m) {
	uint32_t said[3] = { 7, 7, 7 };
	int32_t found = INSIDE(sillarnica_method(c->image.at, c->image.len, c->method.at, c->method.len, &said[0], &said[1], &said[2]));
	want(found == (result == 1 ? 1 : m ? 0 : -95), "what is said of a method");
	if (found) want(said[0] == 7 && said[1] == 7 && said[2] == 7, "a method that isn't there has numbers");
	else want(said[0] == m->flags && said[1] == m->in_cap && said[2] == m->out_cap, "a method's numbers");
	int32_t needs = INSIDE(sillarnica_needs(c->image.at, c->image.len, c->method.at, c->method.len));
	want(needs == (result != 1 && m ? needs_of(m) : -95), "what a method needs");
	for (size_t n = 0; test_method_at(c, NULL, n, result == 1 ? 1 : 0); n++) {}
}

/* What a call answers, before its room is looked at, by its budget if there is one. An answer is in `outcome`, and the object in
 * `after`. */
static int32_t wanted(const struct call *c, int32_t result, const struct method *m, unsigned budget, unsigned layout) {
	if (result) return result;
	if (!m) return -95;
	if (c->input.len > m->in_cap) return -7;
	if (c->caller >> 32 || !read_flat(c->object, &before)) return -22;
	copy_object(&after, &before);
	const char *stuck = run_method(m, &after, (uint32_t)c->caller, c->input, budget, layout, &outcome);
	want(!stuck, stuck);
	if (outcome.code < 0) copy_object(&after, &before);
	return 0;
}

/* Whether output and edits are what they should be; `out` has both. */
static void test_answer(const struct found *f, const struct method *m, const uint8_t *out) {
	struct slice edits = { out + f->said.output_len, f->said.edits_len };
	want(f->said.code == outcome.code, "the code");
	want(f->said.steps == outcome.steps, "the steps");
	want(f->said.output_len == outcome.len && !memcmp(out, outcome.output, outcome.len), "the output");
	copy_object(&edited, &before);
	want(make_edits(&edited, edits), "the edits can't be made");
	want(same_object(&edited, &after), "the edits don't make the object after");
	want(!edits.len || m->flags != 1, "edits of a method that reads alone");
	want(!outcome.is_listed || same(edits, outcome.edits), "edits that aren't what the helpers did");
}

/* Grants so many growths, and refuses the next: one of those that were made since `before`. */
static void refuse(long number, long before) { growths = number % (granted - before + 1); }

/* Each call with memory refused: -12, or what it answers with all of its memory. */
static void with_refused_memory(const struct call *c, const struct found *first, int32_t result, const struct method *m, long number) {
	struct sillarnica_refusal why;
	struct sillarnica_verified held;
	uint8_t line[BEFORE];
	uint32_t said[3];
	long had = granted;
	struct found f = ask(c, NULL, first->room);
	refuse(number, had), f = ask(c, NULL, first->room);
	want(f.result == -12 || is_same(first, &f), "an answer where memory is refused");
	growths = -1, had = granted;
	int32_t verdict = INSIDE(sillarnica_verify(c->image.at, c->image.len, &why));
	refuse(number, had), verdict = INSIDE(sillarnica_verify(c->image.at, c->image.len, &why));
	refuse(number, had);
	int64_t length = INSIDE(sillarnica_explain(c->image.at, c->image.len, line, sizeof line));
	want((verdict == -12 || verdict == result) && (length == -12 || (length > 0) == (result > 0)), "a verdict where memory is refused");
	refuse(number, had);
	int32_t needs = INSIDE(sillarnica_needs(c->image.at, c->image.len, c->method.at, c->method.len));
	refuse(number, had);
	int32_t told = INSIDE(sillarnica_method(c->image.at, c->image.len, c->method.at, c->method.len, &said[0], &said[1], &said[2]));
	want(needs == -12 || needs == (result != 1 && m ? needs_of(m) : -95), "what a method needs where memory is refused");
	want(told == -12 || told == (result == 1 ? 1 : m ? 0 : -95), "what is said of a method where memory is refused");
	refuse(number, had);
	int32_t opened = INSIDE(sillarnica_verified_open(c->image.at, c->image.len, &why, &held));
	want((opened == -12 || opened == result) && held.is_open == (opened == 0), "a handle where memory is refused");
	growths = -1;
	if (opened == -12) opened = INSIDE(sillarnica_verified_open(c->image.at, c->image.len, &why, &held));
	want(opened == result, "a handle after memory was refused");
	if (opened) return;
	struct sillarnica_verified second;
	refuse(number, had);
	int32_t copied = INSIDE(sillarnica_verified_copy(&held, &second));
	growths = -1;
	want((copied == 0 || copied == -12) && second.is_open == (copied == 0) && held.is_open == 1, "a copy where memory is refused");
	close_class(&second);
	had = granted, f = ask(c, &held, first->room);
	refuse(number, had), f = ask(c, &held, first->room);
	want(f.result == -12 || is_same(first, &f), "a handle's answer where memory is refused");
	growths = -1, f = ask(c, &held, first->room);
	want(is_same(first, &f), "a handle's answer after memory was refused");
	close_class(&held);
}

/* By a handle, and by a closed one. */
static void by_handle(const struct call *c, const struct found *first, int32_t result, const struct sillarnica_refusal *why,
	size_t room) {
	struct sillarnica_verified held;
	struct sillarnica_refusal other;
	struct found f;
	memset(&held, 0xa5, sizeof held), memset(&other, 0xa5, sizeof other);
	want(INSIDE(sillarnica_verified_open(c->image.at, c->image.len, &other, &held)) == result, "a handle's verdict");
	want(!memcmp(&other, why, sizeof other), "a handle's refusal");
	want(held.is_open == (result == 0), "whether a handle is open");
	for (int i = 0; result == 0 && i < 3; i++) {
		f = ask(c, &held, i ? first->room : room);
		want(is_same(first, &f), "a handle's answer");
	}
	/* another handle of the class, which outlives the first */
	struct sillarnica_verified second;
	memset(&second, 0xa5, sizeof second);
	want(INSIDE(sillarnica_verified_copy(&held, &second)) == (result ? -9 : 0), "a copy of a handle");
	want(held.is_open == (result == 0) && second.is_open == held.is_open, "whether a copy is open");
	for (size_t n = 0; test_method_at(c, &held, n, result ? -9 : 0); n++) {}
	if (result == 0) {
		const struct method *m = method_named(&class, c->method);
		f = ask(c, &second, first->room), want(is_same(first, &f), "a copy's answer");
		close_class(&held);
		f = ask(c, &second, first->room), want(is_same(first, &f), "a copy's answer once the first is closed");
		want(INSIDE(sillarnica_verified_needs(&second, c->method.at, c->method.len)) == (m ? needs_of(m) : -95), "what a handle's method needs");
		close_class(&second);
	}
	want(INSIDE(sillarnica_verified_needs(&second, c->method.at, c->method.len)) == -9, "what a closed handle's method needs");
	for (int i = 0; i < 2; i++) {
		close_class(&held);
		f = ask(c, &held, room);
		want(held.is_open == 0 && f.result == -9, "a closed handle");
	}
}

/* On the parts that the method needs alone; and for another client, if its code asks for none. */
static void on_parts(const struct call *c, struct sillarnica_verified *held, const struct found *first, const struct method *m) {
	struct call other = *c;
	struct slice form = { ends[FORM] - PLACE / 2, write_flat(&before, needs_of(m), ends[FORM] - PLACE / 2) };
	other.object = placed(FORM, form);
	int asks = 0;
	for (unsigned i = 0; i < m->slots; i++) asks |= m->code[8 * i] == 0x85 && m->code[8 * i + 4] == 15;
	other.caller ^= asks ? 0 : 0x80000001;
	struct found f = ask(&other, held, first->room);
	want(is_same(first, &f), "another answer on the parts alone, or for another client");
}

/* ---- calls on parts */

struct part_found { struct found of; struct sillarnica_want want; };

/* Makes the call, and looks at what it wrote. */
static struct part_found ask_part(const struct call *c, struct sillarnica_verified *held, const struct sillarnica_limits *limits, size_t room) {
	struct part_found f;
	uint8_t *out = ends[OUT] - room;
	memset(&f, 0xa5, sizeof f), memset(out - BEFORE, 0x5a, room + BEFORE);
	f.of.room = room, fresh = (uint8_t)~fresh;
	f.of.result = INSIDE(sillarnica_verified_call_part(held, c->method.at, c->method.len, c->object.at, c->object.len, c->caller, limits,
		c->input.at, c->input.len, &f.of.said, &f.want, out, room));
	size_t used = f.of.result == 0 ? f.of.said.output_len + f.of.said.edits_len : 0;
	want(used <= room && is_filled(out + used, 0x5a, room - used), "of a part: the rest of the buffer changed");
	want(is_filled(out - BEFORE, 0x5a, BEFORE), "of a part: what is before the buffer changed");
	if (f.of.result != 0 && f.of.result != -34) want(is_filled(&f.of.said, 0xa5, sizeof f.of.said), "of a part: the answer changed");
	if (f.of.result != -11) return want(is_filled(&f.want, 0xa5, sizeof f.want), "of a part: the want changed"), f;
	want(f.want.length >= 3 && f.want.length <= sizeof f.want.bytes, "the length of a need");
	want(is_filled(f.want.bytes + f.want.length, 0xa5, sizeof f.want.bytes - f.want.length), "the rest of the want changed");
	return f;
}

static int is_same_part(const struct part_found *a, const struct part_found *b) {
	return a->of.result == b->of.result && !memcmp(&a->of.said, &b->of.said, sizeof a->of.said) && !memcmp(&a->want, &b->want, sizeof a->want);
}

static int are_limits(const struct sillarnica_limits *l) {
	return !(l->bytes >> 63) && l->xattr_name >= 1 && l->xattr_name <= NAME && l->key_name >= 1 && l->key_name <= NAME;
}

/* With whatever is handed in as part and limits. */
static void on_any_part(const struct call *c, struct sillarnica_verified *held, const struct method *m, struct sillarnica_limits limits, size_t room) {
	int counted = (limits.xattrs != SILLARNICA_ANY_NUMBER) + 2 * (limits.keys != SILLARNICA_ANY_NUMBER);
	int refused = c->caller >> 32 || !are_limits(&limits) || !is_part(c->object, counted);
	int wants = !m ? -95 : c->input.len > m->in_cap ? -7 : refused ? -22 : 0;
	struct part_found f = ask_part(c, held, &limits, room), again;
	if (wants) want(f.of.result == wants, "the number of a refused call on a part");
	else want(f.of.result == 0 || f.of.result == -34 || f.of.result == -11 || f.of.result == -28, "the number of a call on a part");
	if (f.of.result == -34) {
		size_t used = f.of.said.output_len + f.of.said.edits_len;
		if (used >= PLACE / 2) return;
		f = ask_part(c, held, &limits, used), want(f.of.result == 0, "a call on a part again, with more room");
	}
	if (f.of.result == 0) memcpy(ends[SAID] - f.of.room, ends[OUT] - f.of.room, f.of.room);
	again = ask_part(c, held, &limits, f.of.room);
	want(is_same_part(&f, &again), "the same call on a part again");
	want(f.of.result || !memcmp(ends[SAID] - f.of.room, ends[OUT] - f.of.room, f.of.room), "its bytes");
}

/* By rounds, from what is known: the answer on the whole object, after no more needs than the method's calls allow. In one of the
 * rounds memory is refused. */
static void by_rounds(const struct call *c, struct sillarnica_verified *held, const struct found *first, struct known *known,
	const struct sillarnica_limits *limits, unsigned most, long number) {
	struct call other = *c;
	for (unsigned rounds = 0;; rounds++) {
		struct slice part = { ends[FORM] - PLACE / 2, write_part(&before, known, ends[FORM] - PLACE / 2) };
		other.object = placed(FORM, part);
		long had = granted;
		struct part_found f = ask_part(&other, held, limits, first->room), refused;
		if (rounds == (unsigned)number % (most + 1)) {
			refuse(number, had), refused = ask_part(&other, held, limits, first->room), growths = -1;
			want(refused.of.result == -12 || is_same_part(&refused, &f), "an answer on a part where memory is refused");
			f = ask_part(&other, held, limits, first->room);
		}
		if (f.of.result != -11) return want(is_same(first, &f.of), "another answer by rounds");
		struct slice need = { f.want.bytes, f.want.length };
		want(rounds < most, "more needs than calls of helpers");
		want(learn(known, &before, need), "a need of what was known, or isn't there");
	}
}

/* Calls on parts, by a handle of its own; by rounds where there is an answer on the whole object, as `first` is it. */
static void on_parts_by_rounds(const struct call *c, uint32_t budget, const struct found *first, const struct method *m, struct slice chosen,
	size_t room) {
	static struct known known;
	struct sillarnica_limits limits = { UINT64_C(1) << 31, SILLARNICA_ANY_NUMBER, SILLARNICA_ANY_NUMBER, NAME, NAME };
	struct sillarnica_limits whole = { DATA, XATTRS, KEYS, NAME, NAME }, any = { DATA, SILLARNICA_ANY_NUMBER, SILLARNICA_ANY_NUMBER, NAME, NAME };
	struct sillarnica_verified held;
	struct sillarnica_refusal why;
	struct slice none = { NULL, 0 };
	if (chosen.len) memcpy(&limits, chosen.at, chosen.len < sizeof limits ? chosen.len : sizeof limits);
	want(open_class(c, budget, &why, &held) == 0, "a handle for parts");
	on_any_part(c, &held, m, limits, room);
	unsigned calls = outcome.calls;
	/* (a loop of many calls would take as many rounds) */
	if (first->result == 0 && calls <= ROUNDS) {
		long number = chosen.len ? chosen.at[0] : 0;
		/* nothing is known; or all, and then nothing is needed; or names alone */
		memset(&known, 0, sizeof known);
		if (before.parts[0].count + calls <= XATTRS && before.parts[1].count + calls <= KEYS)
			by_rounds(c, &held, first, &known, &any, calls + outcome.removals, number);
		memset(&known, 0, sizeof known), memset(known.blocks, 1, sizeof known.blocks);
		learn_names(&known, 0, none, none), learn_names(&known, 1, none, none);
		by_rounds(c, &held, first, &known, &whole, 0, number);
		memset(known.blocks, 0, sizeof known.blocks);
		by_rounds(c, &held, first, &known, &whole, calls, number);
	}
	close_class(&held);
	want(ask_part(c, &held, &limits, room).of.result == -9, "a closed handle for parts");
}

/* An answer that is whole, by its room, and kept in KEPT; or the refusal. Whether the answer isn't too long to be kept. */
static int settle(const struct call *c, struct sillarnica_verified *held, int32_t wants, const struct method *m, size_t room,
	struct found *first) {
	*first = ask(c, held, room);
	if (wants) return want(first->result == wants, "the number of a refused call"), 1;
	size_t used = first->said.output_len + first->said.edits_len;
	want(first->result == (used > room ? -34 : 0), "an answer by its room");
	if (used >= PLACE / 2) return 0; /* a list of many long writes */
	if (first->result) *first = ask(c, held, used);
	want(first->result == 0 && first->said.output_len + first->said.edits_len == used, "the call again, with more room");
	memcpy(ends[KEPT] - used, ends[OUT] - first->room, used);
	test_answer(first, m, ends[KEPT] - used);
	on_parts(c, held, first, m);
	struct found less = ask(c, held, used ? used - 1 : 0);
	return want(is_same(first, &less), "with a byte of room too little"), 1;
}

/* ---- classes with loops */

/* The verdict on loops: 0, 1 or 2, and why. Where no method declares any it is the other verdict. */
static int32_t verdict_on_loops(const struct call *c, int32_t result, const struct sillarnica_refusal *plain, struct sillarnica_refusal *why) {
	struct sillarnica_verified held;
	int declares = 0;
	memset(why, 0xa5, sizeof *why), memset(&held, 0xa5, sizeof held);
	int32_t said = open_class(c, SILLARNICA_BUDGET_LIMIT, why, &held);
	want(held.is_open == (said == 0), "whether a handle of a class with loops is open");
	close_class(&held);
	for (unsigned i = 0; i < class.count; i++) declares |= class.methods[i].budget != 0;
	if (result == 1 || !declares) want(said == result && !memcmp(why, plain, sizeof *why), "a verdict on loops where there are none");
	else if (said) want(said == 2, "the number of a verdict on loops"), test_rule(why, 1);
	else want(is_filled(why, 0xa5, sizeof *why) && !plain_rules(&class, 1).number, "loops are accepted that a plain rule refuses");
	return said;
}

/* With memory refused: at opening, and in a call. */
static void loops_with_refused_memory(const struct call *c, uint32_t budget, const struct found *first, long number) {
	struct sillarnica_verified held;
	struct sillarnica_refusal why;
	long had = granted;
	int32_t opened = open_class(c, budget, &why, &held);
	close_class(&held);
	refuse(number, had), opened = open_class(c, budget, &why, &held), growths = -1;
	want((opened == 0 || opened == -12) && held.is_open == (opened == 0), "a handle with loops where memory is refused");
	if (opened) want(open_class(c, budget, &why, &held) == 0, "a handle with loops after memory was refused");
	had = granted;
	struct found f = ask(c, &held, first->room);
	refuse(number, had), f = ask(c, &held, first->room), growths = -1;
	want(f.result == -12 || is_same(first, &f), "a loop's answer where memory is refused");
	f = ask(c, &held, first->room);
	want(is_same(first, &f), "a loop's answer after memory was refused");
	close_class(&held);
}

/* By a host's greatest budget: how it is opened, and what it answers then. `result` and `plain` are the other verdict's. */
static void by_loops(const struct call *c, int32_t result, const struct sillarnica_refusal *plain, const struct method *m, const uint8_t *choices,
	struct slice chosen, size_t room) {
	static const uint32_t none[] = { SILLARNICA_BUDGET_LIMIT + 1, UINT32_MAX }, some[] = { 20000, 20000, 20000, SILLARNICA_BUDGET_LIMIT, 1000, 1 };
	struct sillarnica_verified held, second;
	struct sillarnica_refusal why, other;
	struct found first, f;
	uint32_t budget = some[choices[6] / LAYOUTS % 6];
	memset(&other, 0xa5, sizeof other), memset(&held, 0xa5, sizeof held), memset(&second, 0xa5, sizeof second);
	want(open_class(c, none[choices[6] % 2], &other, &held) == -22 && held.is_open == 0, "a budget that no host may give");
	want(INSIDE(sillarnica_loops_open(c->image.at, c->image.len, 0, &other, &held)) == -22 && held.is_open == 0, "a budget of 0");
	want(is_filled(&other, 0xa5, sizeof other), "a reason that isn't told");
	int32_t opens = verdict_on_loops(c, result, plain, &why);
	test_explain(c, opens, &why, choices[3], 1);
	for (unsigned i = 0; !opens && i < class.count; i++)
		if (class.methods[i].budget > budget) opens = -27, why.kind = 3, why.number = class.methods[i].budget, why.method = i, why.slot = -1;
	want(open_class(c, budget, &other, &held) == opens && held.is_open == (opens == 0), "a class is opened for a host's budget");
	want(!memcmp(&other, &why, sizeof why), "why a class isn't opened for a host's budget");
	if (opens) return;
	int32_t wants = wanted(c, 0, m, m ? m->budget : 0, choices[6]);
	if (settle(c, &held, wants, m, room, &first)) {
		want(wants || !m->budget || first.said.steps <= m->budget, "more steps than the budget");
		f = ask(c, &held, first.room), want(is_same(&first, &f), "the same call of a loop again");
		want(INSIDE(sillarnica_verified_copy(&held, &second)) == 0 && second.is_open == 1, "a copy of a handle with loops");
		for (size_t n = 0; test_method_at(c, &held, n, 0); n++) {}
		close_class(&held);
		f = ask(c, &second, first.room), want(is_same(&first, &f), "a copy's answer of a loop");
		want(INSIDE(sillarnica_verified_needs(&second, c->method.at, c->method.len)) == (m ? needs_of(m) : -95), "what a method with loops needs");
		on_parts_by_rounds(c, budget, &first, m, chosen, room);
		loops_with_refused_memory(c, budget, &first, (long)number_at(choices + 4, 2));
	}
	close_class(&held), close_class(&second);
}

int LLVMFuzzerInitialize(int *count, char ***words);
int LLVMFuzzerTestOneInput(const uint8_t *at, size_t len);

int LLVMFuzzerInitialize(int *count, char ***words) {
	(void)count, (void)words;
	for (int i = 0; i < PLACES; i++) {
		uint8_t *p = (uint8_t *)mmap(NULL, PLACE + 4096, PROT_READ | PROT_WRITE, MAP_PRIVATE | MAP_ANONYMOUS, -1, 0);
		if (p == MAP_FAILED || mprotect(p + PLACE, 4096, PROT_NONE)) abort();
		ends[i] = p + PLACE;
	}
	want(sillarnica_version() == SILLARNICA_CALLS && SILLARNICA_CALLS == 2, "the version");
	find_blocks();
	return 0;
}

int LLVMFuzzerTestOneInput(const uint8_t *at, size_t len) {
	struct slice whole = { at, len };
	struct cut_input cut = cut_input(whole);
	struct sillarnica_refusal why;
	uint8_t choices[7] = { 0 };
	memcpy(choices, cut.fields[CHOICES].at ? cut.fields[CHOICES].at : choices, cut.fields[CHOICES].len < 7 ? cut.fields[CHOICES].len : 7);
	struct call c = { placed(IMAGE, cut.fields[IMAGE]), placed(METHOD, cut.fields[METHOD]), placed(OBJECT, cut.fields[OBJECT]),
		placed(INPUT, cut.fields[INPUT]), 0 };
	for (size_t i = 0; i < cut.fields[CALLER].len && i < 8; i++) c.caller |= (uint64_t)cut.fields[CALLER].at[i] << (8 * i);
	size_t room = number_at(choices, 3) % (choices[2] % 8 ? 1 << 9 : 1 << 17);

	int32_t result = verdict(&c, &why);
	const struct method *m = method_named(&class, c.method);
	test_explain(&c, result, &why, choices[3], 0);
	test_method(&c, result, m);
	int32_t wants = wanted(&c, result, m, 0, choices[6]);
	struct found first;
	if (!settle(&c, NULL, wants, m, room, &first)) return 0;
	if (wants > 0) want(!memcmp(&first.why, &why, sizeof why), "a call's refusal");
	struct found again = ask(&c, NULL, first.room);
	want(is_same(&first, &again), "the same call again");
	by_handle(&c, &first, result, &why, room);
	struct slice chosen = { NULL, 0 };
	if (cut.fields[CHOICES].len > 7) chosen.at = cut.fields[CHOICES].at + 7, chosen.len = cut.fields[CHOICES].len - 7;
	if (result == 0) on_parts_by_rounds(&c, 0, &first, m, chosen, room);
	with_refused_memory(&c, &first, result, m, (long)number_at(choices + 4, 2));
	by_loops(&c, result, &why, m, choices, chosen, room);
	want(held_memory == 0, "the library kept memory");
	return 0;
}
