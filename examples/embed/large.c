/* A host whose objects have any size, in a file of SQLite: `large FILE IMAGE [OBJECT METHOD HEX|-] ..` makes the calls
 * in order. It hands in what the call asked for so far, and reads no more of the object. `cc large.c -lsqlite3` and
 * the library. */
#include "sillarnica.h"
#include "sillarnica_edits.h"
#include <sqlite3.h>
#include <stdio.h>
#include <stdlib.h>
#include <string.h>

enum { BLOCK = 4096, MOST = 1 << 24 }; /* a part has 4 MiB of blocks, and as much of keys */
static uint8_t image[1 << 21], part[MOST], out[MOST], input[65536];
static sqlite3 *file;

static void need(int ok, const char *what) { if (!ok) fprintf(stderr, "large: %s: %s\n", what, sqlite3_errmsg(file)), exit(1); }

/* One statement; each ? is a number, or bytes after their length. */
static sqlite3_stmt *ask(const char *words, const char *object) {
	sqlite3_stmt *s;
	need(!sqlite3_prepare_v2(file, words, -1, &s, NULL), words);
	sqlite3_bind_text(s, 1, object, -1, SQLITE_STATIC);
	return s;
}
static void bytes(sqlite3_stmt *s, int n, const uint8_t *p, size_t len) { sqlite3_bind_blob(s, n, len ? (const void *)p : "", (int)len, SQLITE_STATIC); }
static int row(sqlite3_stmt *s) { return sqlite3_step(s) == SQLITE_ROW; }
static void done(sqlite3_stmt *s) { need(sqlite3_step(s) == SQLITE_DONE, "a change"), sqlite3_finalize(s); }

/* What was asked for: blocks, and intervals of xattrs (0) and of keys (1), in order and apart. */
struct place { uint8_t at[66]; size_t len; };
struct interval { struct place lo, hi; };
static uint64_t blocks[1024];
static struct interval known[2][1025];
static size_t block_count, known_count[2];

static int order(const struct place *a, const struct place *b) {
	int x = memcmp(a->at, b->at, a->len < b->len ? a->len : b->len);
	return x ? x : (a->len > b->len) - (a->len < b->len);
}
static int ends(const struct place *hi, const struct place *lo) { return hi->len && order(hi, lo) < 0; } /* before lo, apart */

/* One interval more: those that it meets become one with it. */
static void learn(int kind, struct interval more) {
	struct interval *k = known[kind];
	size_t n = known_count[kind], from = 0, to;
	while (from < n && ends(&k[from].hi, &more.lo)) from++;
	for (to = from; to < n && !ends(&more.hi, &k[to].lo); to++) {
		if (order(&k[to].lo, &more.lo) < 0) more.lo = k[to].lo;
		if (!k[to].hi.len || (more.hi.len && order(&k[to].hi, &more.hi) > 0)) more.hi = k[to].hi;
	}
	need(n + 1 - (to - from) <= 1025, "too many intervals");
	memmove(k + from + 1, k + to, (n - to) * sizeof *k);
	k[from] = more, known_count[kind] = n + 1 - (to - from);
}

static struct place after(const void *name, size_t len) {
	struct place p = { { 0 }, len + 1 };
	memcpy(p.at, name, len);
	return p;
}

/* What a need names: its blocks, its name, or a page of 16 names from its place on. */
static void fetch(const char *object, const struct sillarnica_want *want) {
	const uint8_t *w = want->bytes;
	if (w[0] == 1) {
		for (uint64_t b = sillarnica_number(w + 1, 8), n = w[9], i; n; n--, b++) {
			for (i = block_count; i && blocks[i - 1] > b; i--);
			if (i && blocks[i - 1] == b) continue; /* it may lie between two that weren't known */
			need(block_count < 1024, "too many blocks");
			memmove(blocks + i + 1, blocks + i, (block_count - i) * sizeof *blocks);
			blocks[i] = b, block_count++;
		}
		return;
	}
	int kind = w[0] == 3 || w[0] == 4;
	struct interval more = { { { 0 }, w[1] }, { { 0 }, 0 } };
	memcpy(more.lo.at, w + 3, w[1]);
	if (w[0] < 4) more.hi = after(w + 3, w[1]);
	else {
		sqlite3_stmt *s = ask("SELECT name FROM entry WHERE object = ? AND kind = ? AND name >= ? ORDER BY name LIMIT 16", object);
		int n = 0;
		sqlite3_bind_int(s, 2, kind), bytes(s, 3, w + 3, w[1]);
		for (; row(s); n++) more.hi = after(sqlite3_column_blob(s, 0), (size_t)sqlite3_column_bytes(s, 0));
		if (n < 16) more.hi.len = 0;
		sqlite3_finalize(s);
	}
	learn(kind, more);
}

static uint8_t *put(uint8_t *p, uint64_t x, int n) { for (; n; n--, x >>= 8) *p++ = (uint8_t)x; return p; }
static uint8_t *text(uint8_t *p, const void *t, size_t n) {
	need(n + 8 <= (size_t)(part + MOST - p), "too large a part");
	p = put(p, n, 2);
	if (n) memcpy(p, t, n);
	return p + n;
}

/* The length of the part that says what was asked for. */
static size_t spell(const char *object) {
	sqlite3_stmt *s = ask("SELECT size FROM object WHERE object = ?", object);
	uint8_t *p = part;
	int there = row(s);
	uint64_t size = there ? (uint64_t)sqlite3_column_int64(s, 0) : 0;
	sqlite3_finalize(s);
	p = put(p, there, 1);
	if (!there) return 1;
	p = put(put(p, size, 8), block_count, 4);
	for (size_t i = 0; i < block_count; i++) {
		uint64_t len = size - blocks[i] * BLOCK < BLOCK ? size - blocks[i] * BLOCK : BLOCK;
		s = ask("SELECT bytes FROM block WHERE object = ? AND number = ?", object);
		sqlite3_bind_int64(s, 2, (sqlite3_int64)blocks[i]);
		p = put(p, blocks[i], 8), memset(p, 0, len);
		if (row(s)) memcpy(p, sqlite3_column_blob(s, 0), (size_t)sqlite3_column_bytes(s, 0));
		p += len, sqlite3_finalize(s);
	}
	for (int kind = 0; kind < 2; kind++) {
		uint8_t *count;
		uint64_t entries = 0;
		p = put(p, known_count[kind], 2);
		for (size_t i = 0; i < known_count[kind]; i++) p = text(text(p, known[kind][i].lo.at, known[kind][i].lo.len), known[kind][i].hi.at, known[kind][i].hi.len);
		count = p, p += 2;
		for (size_t i = 0; i < known_count[kind]; i++) {
			const struct interval *k = &known[kind][i];
			s = ask("SELECT name, value FROM entry WHERE object = ? AND kind = ? AND name >= ? AND (? = 0 OR name < ?) ORDER BY name", object);
			sqlite3_bind_int(s, 2, kind), bytes(s, 3, k->lo.at, k->lo.len), sqlite3_bind_int(s, 4, (int)k->hi.len), bytes(s, 5, k->hi.at, k->hi.len);
			for (; row(s); entries++) p = text(text(p, sqlite3_column_blob(s, 0), (size_t)sqlite3_column_bytes(s, 0)), sqlite3_column_blob(s, 1), (size_t)sqlite3_column_bytes(s, 1));
			sqlite3_finalize(s);
		}
		put(count, entries, 2);
	}
	return (size_t)(p - part);
}

/* Bytes over those of the blocks that they meet. */
static void overwrite(const char *object, uint64_t at, const uint8_t *from, size_t n) {
	while (n) {
		uint8_t block[BLOCK] = { 0 };
		uint64_t number = at / BLOCK, begin = at % BLOCK, len = BLOCK - begin < n ? BLOCK - begin : n, old = 0;
		sqlite3_stmt *s = ask("SELECT bytes FROM block WHERE object = ? AND number = ?", object);
		sqlite3_bind_int64(s, 2, (sqlite3_int64)number);
		if (row(s)) memcpy(block, sqlite3_column_blob(s, 0), old = (uint64_t)sqlite3_column_bytes(s, 0));
		sqlite3_finalize(s);
		memcpy(block + begin, from, len);
		s = ask("REPLACE INTO block VALUES (?, ?, ?)", object);
		sqlite3_bind_int64(s, 2, (sqlite3_int64)number), bytes(s, 3, block, old > begin + len ? old : begin + len), done(s);
		at += len, from += len, n -= len;
	}
}

static void change(const char *object, const char *words, sqlite3_int64 number) {
	sqlite3_stmt *s = ask(words, object);
	if (number >= 0) sqlite3_bind_int64(s, 2, number);
	done(s);
}

/* Makes one edit. A block that isn't kept, or what is missing of one, is zeros. */
static void make(const char *object, const struct sillarnica_edit *e) {
	sqlite3_int64 n = (sqlite3_int64)e->number;
	int kind = e->kind >= SILLARNICA_SET_KEY;
	sqlite3_stmt *s;
	switch (e->kind) {
	case SILLARNICA_CREATE: change(object, "INSERT INTO object VALUES (?, 0)", -1); break;
	case SILLARNICA_REMOVE:
		change(object, "DELETE FROM object WHERE object = ?", -1), change(object, "DELETE FROM block WHERE object = ?", -1);
		change(object, "DELETE FROM entry WHERE object = ?", -1);
		break;
	case SILLARNICA_LENGTH:
		change(object, "UPDATE object SET size = ?2 WHERE object = ?1", n);
		change(object, "DELETE FROM block WHERE object = ?1 AND number * 4096 >= ?2", n);
		change(object, "UPDATE block SET bytes = substr(bytes, 1, ?2 - number * 4096) WHERE object = ?1 AND number = ?2 / 4096", n);
		break;
	case SILLARNICA_WRITE:
		overwrite(object, e->number, e->text, e->text_len);
		change(object, "UPDATE object SET size = max(size, ?2) WHERE object = ?1", n + (sqlite3_int64)e->text_len);
		break;
	default:
		s = ask(e->kind % 2 ? "REPLACE INTO entry VALUES (?, ?, ?, ?)" : "DELETE FROM entry WHERE object = ? AND kind = ? AND name = ?", object);
		sqlite3_bind_int(s, 2, kind), bytes(s, 3, e->name, e->name_len);
		if (e->kind % 2) bytes(s, 4, e->text, e->text_len);
		done(s);
	}
}

int main(int argc, char **argv) {
	struct sillarnica_limits limits = { UINT64_C(1) << 40, SILLARNICA_ANY_NUMBER, SILLARNICA_ANY_NUMBER, 64, 64 };
	struct sillarnica_verified verified = { NULL, 0 };
	struct sillarnica_refusal why;
	struct sillarnica_answer said;
	struct sillarnica_edit edit;
	struct sillarnica_want want;
	FILE *read = fopen(argc > 2 ? argv[2] : "", "rb");
	if (!read) return fprintf(stderr, "usage: large FILE IMAGE [OBJECT METHOD HEX|-] ..\n"), 2;
	size_t len = fread(image, 1, sizeof image, read);
	fclose(read);
	need(!sqlite3_open(argv[1], &file), argv[1]);
	need(!sqlite3_exec(file, "CREATE TABLE IF NOT EXISTS object (object TEXT PRIMARY KEY, size INTEGER) WITHOUT ROWID;"
		"CREATE TABLE IF NOT EXISTS block (object TEXT, number INTEGER, bytes BLOB, PRIMARY KEY (object, number)) WITHOUT ROWID;"
		"CREATE TABLE IF NOT EXISTS entry (object TEXT, kind INTEGER, name BLOB, value BLOB, PRIMARY KEY (object, kind, name)) WITHOUT ROWID", NULL, NULL, NULL), "tables");
	if (sillarnica_verified_open(image, len, &why, &verified)) return printf("no class\n"), 1;
	for (char **word = argv + 3; word + 2 < argv + argc; word += 3) {
		int result, calls = 0;
		size_t n = 0;
		block_count = known_count[0] = known_count[1] = 0;
		for (unsigned b; n < sizeof input && sscanf(word[2] + 2 * n, "%2x", &b) == 1; n++) input[n] = (uint8_t)b;
		/* All calls of a round, and the edits, are of one state of the object. */
		need(!sqlite3_exec(file, "BEGIN IMMEDIATE", NULL, NULL, NULL), "begin");
		for (;; fetch(word[0], &want)) {
			size_t part_len = spell(word[0]);
			calls++;
			result = sillarnica_verified_call_part(&verified, (const uint8_t *)word[1], strlen(word[1]), part, part_len, 1, &limits, input, n, &said, &want, out, sizeof out);
			if (result != SILLARNICA_WANTS) break;
		}
		if (result) printf("refused %d", result);
		else {
			printf("code %lld output %s", (long long)said.code, said.output_len ? "" : "-");
			for (uint64_t i = 0; i < said.output_len; i++) printf("%02x", out[i]);
			for (const uint8_t *at = out + said.output_len, *end = at + said.edits_len; sillarnica_next_edit(&at, end, &edit);) make(word[0], &edit);
		}
		printf(" calls %d\n", calls);
		need(!sqlite3_exec(file, "COMMIT", NULL, NULL, NULL), "commit");
	}
	sillarnica_verified_close(&verified);
	return sqlite3_close(file);
}
