/* A host that keeps objects in a hash table: `host IMAGE OBJECT METHOD[@CALLER] HEX ..` makes
 * the calls in order. It reads as C and C++. */
#include "sillarnica.h"
#include "sillarnica_edits.h"
#include <search.h>
#include <stdio.h>
#include <stdlib.h>
#include <string.h>

enum { ROOM = 1 << 23 }; /* more than the largest object, or output and edits */
static uint8_t image[1 << 21], out[ROOM], input[65536], zeros[1 << 16];

/* An object is kept as its flat form, and begins as zeros: absent. */
static uint8_t *find(char *name) {
	ENTRY wanted = { name, NULL }, *found = hsearch(wanted, ENTER);
	if (!found->data) found->data = calloc(1, ROOM);
	return (uint8_t *)found->data;
}

static size_t number(const uint8_t *p, int n) { return n ? p[0] + 256 * number(p + 1, n - 1) : 0; }
static void put(uint8_t *p, size_t x, int n) { for (; n; n--, x >>= 8) *p++ = (uint8_t)x; }
static size_t entry(const uint8_t *p) { return 3 + p[0] + number(p + 1 + p[0], 2); } /* how long name and value are */

/* Where an object's xattrs begin (0), or its keys (1), or where it ends (2). */
static uint8_t *part(uint8_t *o, int which) {
	uint8_t *at = o + 5 + number(o + 1, 4);
	for (size_t n; which; which--)
		for (n = number(at, 2), at += 2; n; n--) at += entry(at);
	return at;
}

/* Puts n bytes in place of those that are cut. */
static void splice(uint8_t *o, uint8_t *at, size_t cut, const uint8_t *from, size_t n) {
	memmove(at + n, at + cut, part(o, 2) - at - cut);
	memcpy(at, from, n);
}

/* The data gets another length: cut, or zeros at its end. */
static void resize(uint8_t *o, size_t n) {
	size_t old = number(o + 1, 4), least = n < old ? n : old;
	splice(o, o + 5 + least, old - least, zeros, n - least);
	put(o + 1, n, 4);
}

/* Sets or removes a name; names rise, by their bytes and then by their lengths. */
static void name(uint8_t *o, const struct sillarnica_edit *e) {
	static uint8_t set[1 << 13];
	int sets = e->kind % 2, order = 1, k = (int)e->name_len;
	uint8_t *begin = part(o, e->kind >= SILLARNICA_SET_KEY), *at = begin + 2;
	size_t count = number(begin, 2);
	set[0] = (uint8_t)k, memcpy(set + 1, e->name, e->name_len), put(set + 1 + k, e->text_len, 2);
	if (sets && e->text_len) memcpy(set + 3 + k, e->text, e->text_len);
	for (size_t i = 0; i < count && order > 0; i++) {
		order = memcmp(e->name, at + 1, k < at[0] ? (size_t)k : at[0]);
		if (!order) order = k - at[0];
		if (order > 0) at += entry(at);
	}
	splice(o, at, order ? 0 : entry(at), set, sets ? entry(set) : 0);
	put(begin, count + sets - !order, 2);
}

/* Makes one edit. */
static void make(uint8_t *o, const struct sillarnica_edit *e) {
	if (e->kind <= SILLARNICA_REMOVE) memset(o, 0, part(o, 2) - o), o[0] = e->kind == SILLARNICA_CREATE;
	else if (e->kind == SILLARNICA_LENGTH) resize(o, e->number);
	else if (e->kind == SILLARNICA_WRITE) {
		if (e->number + e->text_len > number(o + 1, 4)) resize(o, e->number + e->text_len);
		memcpy(o + 5 + e->number, e->text, e->text_len);
	} else name(o, e);
}

int main(int argc, char **argv) {
	struct sillarnica_verified verified = { NULL, 0 };
	struct sillarnica_refusal why;
	struct sillarnica_answer said;
	struct sillarnica_edit edit;
	FILE *file = fopen(argc > 1 ? argv[1] : "", "rb");
	if (!file || !hcreate(1 << 18)) return fprintf(stderr, "usage: host IMAGE [OBJECT METHOD[@CALLER] HEX|-] ..\n"), 2;
	size_t len = fread(image, 1, sizeof image, file);
	fclose(file);
	if (sillarnica_verified_open(image, len, &why, &verified))
		return printf("%s\n", sillarnica_explain(image, len, out, ROOM) > 0 ? (char *)out : "no memory"), 1;
	for (char **word = argv + 2; word + 2 < argv + argc; word += 3) {
		uint8_t *o = find(word[0]);
		size_t n = 0, k = strcspn(word[1], "@");
		uint64_t caller = word[1][k] ? (uint64_t)atol(word[1] + k + 1) : 1;
		for (unsigned b; n < sizeof input && sscanf(word[2] + 2 * n, "%2x", &b) == 1; n++) input[n] = (uint8_t)b;
		int result = sillarnica_verified_call(&verified, (const uint8_t *)word[1], k, o, o[0] ? part(o, 2) - o : 1, caller, input, n, &said, out, ROOM);
		if (result) { printf("refused %d\n", result); continue; }
		printf("code %lld output %s", (long long)said.code, said.output_len ? "" : "-");
		for (uint64_t i = 0; i < said.output_len; i++) printf("%02x", out[i]);
		for (const uint8_t *at = out + said.output_len, *end = at + said.edits_len; sillarnica_next_edit(&at, end, &edit);) make(o, &edit);
		printf(" steps %llu object ", (unsigned long long)said.steps);
		if (o[0]) printf("%zu %zu %zu\n", number(o + 1, 4), number(part(o, 0), 2), number(part(o, 1), 2)); else printf("absent\n");
	}
	sillarnica_verified_close(&verified);
	return 0;
}
