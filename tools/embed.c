/* Makes the calls of a file on the library, and prints what each gives: `embed FILE THREADS [BUDGET]`. tools/embed.sh compiles it.
 * With a host's greatest budget each call is by handles of classes that may loop. A call is five fields, each four bytes of length and its bytes: image, method, object, caller (four bytes), input.
 * Each call is also made by a handle, with too little room, on the parts that the method needs alone, and every sixteenth with
 * memory refused at each growth in turn, and its answer compared with what the header says. Then so many threads make all calls
 * at once, each by a handle of its own too, and each answer is compared again.
 * `malloc` and `realloc` of the library go through here (-Wl,--wrap), where REFUSE is asked for at link time. */
#include "sillarnica.h"
#include <pthread.h>
#include <stdio.h>
#include <stdlib.h>
#include <string.h>

struct slice { const uint8_t *at; size_t len; };
struct call { struct slice image, method, object, input; uint64_t caller; };
struct found { int32_t result; struct sillarnica_refusal why; struct sillarnica_answer said; uint8_t *out; };
/* a handle, and the image whose class it holds, if it is open */
struct holder { struct sillarnica_verified verified; struct slice image; int is_open; };

static struct call *calls;
static struct found *founds;
static size_t count, most;
static uint32_t budget; /* the host's greatest; 0 without loops */
static long wrong;

#ifdef REFUSE
static __thread long growths = -1; /* how many are still granted; below 0 all are */
#ifdef __cplusplus
extern "C" {
#endif
void *__real_malloc(size_t);
void *__real_realloc(void *, size_t);
void *__wrap_malloc(size_t n) { return growths == 0 ? NULL : (growths -= growths > 0, __real_malloc(n)); }
void *__wrap_realloc(void *p, size_t n) { return growths == 0 ? NULL : (growths -= growths > 0, __real_realloc(p, n)); }
#ifdef __cplusplus
}
#endif
#endif

static void want(int is, size_t n, const char *what) {
	if (is) return;
	__atomic_add_fetch(&wrong, 1, __ATOMIC_SEQ_CST);
	fprintf(stderr, "call %zu: %s\n", n, what);
}

static int32_t open_class(struct slice image, struct sillarnica_refusal *why, struct sillarnica_verified *verified) {
	return budget ? sillarnica_loops_open(image.at, image.len, budget, why, verified)
		: sillarnica_verified_open(image.at, image.len, why, verified);
}

static int32_t make(const struct call *c, struct found *f, size_t room) {
	struct sillarnica_verified verified;
	if (budget) {
		memset(&verified, 0xa5, sizeof verified);
		int32_t result = open_class(c->image, &f->why, &verified);
		want(verified.is_open == (result == 0), (size_t)(c - calls), "whether a handle is open");
		if (!result) result = sillarnica_verified_call(&verified, c->method.at, c->method.len, c->object.at, c->object.len, c->caller,
			c->input.at, c->input.len, &f->said, f->out, room);
		sillarnica_verified_close(&verified);
		return result;
	}
	return sillarnica_call(c->image.at, c->image.len, c->method.at, c->method.len, c->object.at, c->object.len, c->caller,
		c->input.at, c->input.len, &f->why, &f->said, f->out, room);
}

/* The same by a handle, which is opened where it holds the class of no image or of another one. */
static int32_t make_held(struct holder *h, const struct call *c, struct found *f, size_t room) {
	if (!h->is_open || h->image.len != c->image.len
		|| (h->image.at != c->image.at && memcmp(h->image.at, c->image.at, c->image.len))) {
		if (h->is_open) sillarnica_verified_close(&h->verified);
		int32_t result = open_class(c->image, &f->why, &h->verified);
		h->image = c->image, h->is_open = result == 0;
		if (result) return result;
	}
	return sillarnica_verified_call(&h->verified, c->method.at, c->method.len, c->object.at, c->object.len, c->caller,
		c->input.at, c->input.len, &f->said, f->out, room);
}

static void fill(struct found *f, uint8_t *out, size_t room) {
	memset(f, 0xa5, sizeof *f);
	f->out = (uint8_t *)memset(out, 0x5a, room);
}

static int is_filled(const void *at, uint8_t with, size_t n) {
	const uint8_t *p = (const uint8_t *)at;
	return !n || (p[0] == with && !memcmp(p, p + 1, n - 1));
}

/* Whether the answer says why there is no class. */
static int refuses(int32_t result) { return result == 1 || result == 2 || (budget && result == SILLARNICA_TOO_LARGE); }

/* Whether the call wrote what its answer lets it write, and no more. */
static void check(const struct found *f, size_t room, size_t n) {
	size_t used = f->result == 0 ? f->said.output_len + f->said.edits_len : 0;
	want(used <= room && is_filled(f->out + used, 0x5a, room - used), n, "the rest of the buffer changed");
	if (!refuses(f->result)) want(is_filled(&f->why, 0xa5, sizeof f->why), n, "the refusal changed");
	if (f->result != 0 && f->result != -34) want(is_filled(&f->said, 0xa5, sizeof f->said), n, "the answer changed");
}

static int is_same(const struct found *a, const struct found *b) {
	size_t used = a->result == 0 ? a->said.output_len + a->said.edits_len : 0;
	if (a->result != b->result || memcmp(&a->why, &b->why, sizeof a->why)) return 0;
	return !memcmp(&a->said, &b->said, sizeof a->said) && !memcmp(a->out, b->out, used);
}

static size_t number(const uint8_t *p, int n) { return n ? p[0] + 256 * number(p + 1, n - 1) : 0; }

/* Where the entries end that begin at a place of a flat form. */
static size_t entries_end(const uint8_t *p, size_t at) {
	size_t count = number(p + at, 2);
	for (at += 2; count; count--) at += 3 + p[at] + number(p + at + 1 + p[at], 2);
	return at;
}

/* Writes a flat form without the parts that are not needed, and gives its length. */
static size_t reduce(struct slice form, int32_t needs, uint8_t *to) {
	const uint8_t *p = form.at;
	size_t ends[4] = { 1, 0, 0, 0 }, least[3] = { 4, 2, 2 }, len = 1;
	to[0] = p[0];
	if (!p[0]) return len;
	ends[1] = 5 + number(p + 1, 4), ends[2] = entries_end(p, ends[1]), ends[3] = entries_end(p, ends[2]);
	for (int i = 0; i < 3; i++) {
		size_t n = needs >> i & 1 ? ends[i + 1] - ends[i] : least[i];
		if (needs >> i & 1) memcpy(to + len, p + ends[i], n); else memset(to + len, 0, n);
		len += n;
	}
	return len;
}

/* On the parts that the method needs alone. */
static void on_parts(size_t n, uint8_t *out) {
	struct call c = calls[n];
	struct found f;
	int32_t needs = sillarnica_needs(c.image.at, c.image.len, c.method.at, c.method.len);
	int has_class = !refuses(founds[n].result), has_method = has_class && founds[n].result != -95;
	want(has_method ? 0 <= needs && needs <= 7 : (!has_class && founds[n].result != 1) || needs == -95, n, "needs says something else");
	if (founds[n].result != 0) return;
	uint8_t *form = (uint8_t *)malloc(c.object.len);
	c.object.len = reduce(c.object, needs, form), c.object.at = form;
	fill(&f, out, most);
	f.result = make(&c, &f, most);
	want(is_same(&founds[n], &f), n, "another answer on the parts alone");
	free(form);
}

/* With too little room. */
static void in_little_room(size_t n, uint8_t *out, struct holder *held) {
	const struct found *first = &founds[n];
	struct found f;
	size_t used = first->result == 0 ? first->said.output_len + first->said.edits_len : 0;
	/* each size below of small answers, and of others the least and the largest */
	for (size_t room = 0; room < used; room += used <= 64 || !room ? 1 : used - 1 > room ? used - 1 - room : 1) {
		fill(&f, out, most);
		f.result = held ? make_held(held, &calls[n], &f, room) : make(&calls[n], &f, room);
		want(f.result == -34 && !memcmp(&f.said, &first->said, sizeof f.said), n, "-34 says something else");
		check(&f, most, n);
	}
}

#ifdef REFUSE
/* With memory refused, with loops at fewer growths; a handle that is open then holds its class afterwards too. */
static void refused_memory(size_t n, uint8_t *out, int by_handle) {
	const struct found *first = &founds[n];
	for (long k = 0, met = 1; met; k += budget ? 1 + k / 16 : 1) {
		struct found f;
		struct holder held;
		memset(&held, 0, sizeof held);
		fill(&f, out, most);
		growths = k;
		f.result = by_handle ? make_held(&held, &calls[n], &f, most) : make(&calls[n], &f, most);
		met = growths == 0 || f.result == -12;
		growths = -1;
		check(&f, most, n);
		if (f.result == -12 && held.is_open) {
			fill(&f, out, most);
			f.result = make_held(&held, &calls[n], &f, most);
		}
		if (f.result != -12) want(is_same(first, &f), n, "another answer after a refusal of memory");
		sillarnica_verified_close(&held.verified);
	}
}
#endif

/* By a handle, that is new or was closed, and by a closed one. */
static void by_handle(size_t n, uint8_t *out) {
	struct holder held;
	struct found f;
	memset(&held, 0, sizeof held);
	for (int i = 0; i < 2; i++) {
		for (int j = 0; j < 2; j++) {
			fill(&f, out, most);
			f.result = make_held(&held, &calls[n], &f, most);
			want(is_same(&founds[n], &f), n, "another answer of a handle");
			check(&f, most, n);
		}
		in_little_room(n, out, &held);
		sillarnica_verified_close(&held.verified);
		sillarnica_verified_close(&held.verified);
		fill(&f, out, most);
		held.image = calls[n].image, held.is_open = 1;
		f.result = make_held(&held, &calls[n], &f, most);
		want(f.result == -9, n, "a closed handle answers");
		check(&f, most, n);
		memset(&held, 0xa5, sizeof held), held.is_open = 0; /* what it held isn't looked at */
	}
	/* without loops both verdicts give one answer (an image of rule set 3 may declare some) */
	if (budget || (calls[n].image.len > 3 && calls[n].image.at[3] == '3')) return;
	budget = SILLARNICA_BUDGET;
	fill(&f, out, most);
	f.result = make(&calls[n], &f, most);
	want(is_same(&founds[n], &f), n, "another answer by the verdict on loops");
	check(&f, most, n);
	budget = 0;
}

/* A copy of one handle a thread, on one class, which the last to be closed frees. */
static struct holder shared;

static void by_copy(struct sillarnica_verified *copy, uint8_t *out) {
	struct found f;
	for (size_t n = 0; out && copy->is_open && n < count; n++) {
		struct call c = calls[n];
		if (c.image.len != shared.image.len || memcmp(c.image.at, shared.image.at, c.image.len)) continue;
		fill(&f, out, most);
		f.result = sillarnica_verified_call(copy, c.method.at, c.method.len, c.object.at, c.object.len, c.caller, c.input.at, c.input.len,
			&f.said, f.out, most);
		want(is_same(&founds[n], &f), n, "another answer of a copy in a thread");
	}
	sillarnica_verified_close(copy);
}

static void *all(void *copy) {
	uint8_t *out = (uint8_t *)malloc(most);
	struct holder held;
	memset(&held, 0, sizeof held);
	by_copy((struct sillarnica_verified *)copy, out);
	for (size_t n = 0; out && n < count; n++) {
		struct found f;
		for (int by = 0; by < 2; by++) {
			fill(&f, out, most);
			f.result = by ? make_held(&held, &calls[n], &f, most) : make(&calls[n], &f, most);
			want(is_same(&founds[n], &f), n, "another answer in a thread");
		}
	}
	sillarnica_verified_close(&held.verified);
	free(out);
	return copy;
}

static struct slice field(const uint8_t **p) {
	size_t n = (*p)[0] | (size_t)(*p)[1] << 8 | (size_t)(*p)[2] << 16 | (size_t)(*p)[3] << 24;
	struct slice s = { n ? *p + 4 : NULL, n };
	*p += 4 + n;
	return s;
}

static void print(const struct found *f) {
	printf("%d", f->result);
	if (refuses(f->result)) printf(" %u %u %llu %lld", f->why.kind, f->why.number, (unsigned long long)f->why.method, (long long)f->why.slot);
	if (f->result == 0) {
		printf(" %lld %llu ", (long long)f->said.code, (unsigned long long)f->said.steps);
		for (uint64_t i = 0; i < f->said.output_len; i++) printf("%02x", f->out[i]);
		printf(" ");
		for (uint64_t i = 0; i < f->said.edits_len; i++) printf("%02x", f->out[f->said.output_len + i]);
	}
	printf("\n");
}

int main(int argc, char **argv) {
	if (argc < 3 || sillarnica_version() != SILLARNICA_CALLS) return 2;
	if (argc > 3) budget = (uint32_t)atol(argv[3]);
	FILE *file = fopen(argv[1], "rb");
	if (!file || fseek(file, 0, SEEK_END)) return 2;
	size_t len = (size_t)ftell(file);
	uint8_t *text = (uint8_t *)malloc(len + 1);
	rewind(file);
	if (fread(text, 1, len, file) != len) return 2;
	fclose(file);
	most = 1 << 16;
	uint8_t *out = (uint8_t *)malloc(most);
	for (const uint8_t *p = text; p < text + len; count++) {
		calls = (struct call *)realloc(calls, (count + 1) * sizeof *calls);
		founds = (struct found *)realloc(founds, (count + 1) * sizeof *founds);
		struct call *c = &calls[count];
		struct found *f = &founds[count];
		c->image = field(&p), c->method = field(&p), c->object = field(&p);
		struct slice caller = field(&p);
		c->caller = caller.at[0] | (uint32_t)caller.at[1] << 8 | (uint32_t)caller.at[2] << 16 | (uint32_t)caller.at[3] << 24;
		c->input = field(&p);
		fill(f, out, most);
		f->result = make(c, f, most);
		check(f, most, count);
		print(f);
		f->out = (uint8_t *)memcpy(malloc(most), out, most);
		uint8_t *other = (uint8_t *)malloc(most);
		in_little_room(count, other, NULL);
		by_handle(count, other);
#ifdef REFUSE
		if (count % 16 == 0) refused_memory(count, other, 1);
		if (count % 16 == 0 && !budget) refused_memory(count, other, 0);
#endif
		on_parts(count, other);
		free(other);
		size_t used = f->result == 0 ? f->said.output_len + f->said.edits_len : 0;
		f->out = (uint8_t *)realloc(f->out, used + 1);
	}
	int threads = atoi(argv[2]);
	pthread_t ids[64];
	static struct sillarnica_verified copies[64];
	struct sillarnica_refusal why;
	if (!count || threads > 64) return 2;
	shared.image = calls[0].image;
	want(open_class(shared.image, &why, &shared.verified) == (refuses(founds[0].result) ? founds[0].result : 0), 0, "the shared handle");
	for (int i = 0; i < threads; i++) {
		int32_t result = sillarnica_verified_copy(&shared.verified, &copies[i]);
		want(result == (shared.verified.is_open ? 0 : -9) && copies[i].is_open == shared.verified.is_open, 0, "a copy of a handle");
	}
	sillarnica_verified_close(&shared.verified);
	for (int i = 0; i < threads; i++) pthread_create(&ids[i], NULL, all, &copies[i]);
	for (int i = 0; i < threads; i++) pthread_join(ids[i], NULL);
	for (size_t n = 0; n < count; n++) free(founds[n].out);
	free(out), free(text), free(calls), free(founds);
	return wrong != 0;
}
