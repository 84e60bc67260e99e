/* Parts of objects, for tools/fuzz.c: which bytes are one, what a host knows of an object that fetches what is needed, and no more,
 * and the part that says it. After docs/EMBED.md and the header, with nothing of the library's. */
#include "fuzz.h"
#include <string.h>

enum { BLOCK = 4096, BLOCKS = 1024 };

/* ---- which bytes are a part */

/* The next n bytes; NULL past the end. */
static const uint8_t *take(struct slice *rest, size_t n) {
	const uint8_t *at = rest->at;
	if (n > rest->len) return NULL;
	rest->at += n, rest->len -= n;
	return at ? at : (const uint8_t *)"";
}

static int take_text(struct slice *rest, size_t most, struct slice *to) {
	const uint8_t *at = take(rest, 2);
	if (!at) return 0;
	to->len = number_at(at, 2);
	return to->len <= most && (to->at = take(rest, to->len)) != NULL;
}

static int are_blocks(struct slice *rest, uint64_t size) {
	const uint8_t *at = take(rest, 4);
	if (!at || number_at(at, 4) > BLOCKS) return 0;
	uint64_t least = 0;
	for (size_t left = number_at(at, 4); left; left--) {
		if (!(at = take(rest, 8))) return 0;
		uint64_t b = number_at(at, 8);
		if (b < least || b >= size / BLOCK + (size % BLOCK != 0)) return 0;
		if (!take(rest, size - b * BLOCK < BLOCK ? size - b * BLOCK : BLOCK)) return 0;
		least = b + 1;
	}
	return 1;
}

/* The intervals and entries of xattrs or of keys; and whether they are all names. */
static int are_names(struct slice *rest, size_t most, int *are_all) {
	static struct slice lows[INTERVALS], highs[INTERVALS];
	const uint8_t *at = take(rest, 2);
	if (!at || number_at(at, 2) > INTERVALS) return 0;
	size_t intervals = number_at(at, 2), entries, in = 0;
	for (size_t i = 0; i < intervals; i++) {
		if (!take_text(rest, NAME + 1, &lows[i]) || !take_text(rest, NAME + 1, &highs[i])) return 0;
		if (highs[i].len && order(lows[i], highs[i]) >= 0) return 0;
		if (i && (!highs[i - 1].len || order(highs[i - 1], lows[i]) >= 0)) return 0;
	}
	*are_all = intervals == 1 && !lows[0].len && !highs[0].len;
	if (!(at = take(rest, 2)) || (entries = number_at(at, 2)) > most) return 0;
	struct slice name, value, last = { NULL, 0 };
	for (size_t i = 0; i < entries; i++, last = name) {
		if (!take_text(rest, NAME, &name) || !name.len || !take_text(rest, VALUE, &value)) return 0;
		if (i && order(last, name) >= 0) return 0;
		while (in < intervals && highs[in].len && order(highs[in], name) <= 0) in++;
		if (in == intervals || order(name, lows[in]) < 0) return 0;
	}
	return 1;
}

int is_part(struct slice bytes, int counted) {
	const uint8_t *at = take(&bytes, 1);
	int all[2] = { 1, 1 };
	if (!at || *at > 1) return 0;
	if (!*at) return !bytes.len;
	if (!(at = take(&bytes, 8)) || at[7] & 0x80 || !are_blocks(&bytes, number_at(at, 8))) return 0;
	for (int i = 0; i < 2; i++)
		if (!are_names(&bytes, i ? KEYS : XATTRS, &all[i])) return 0;
	return !bytes.len && (all[0] || !(counted & 1)) && (all[1] || !(counted & 2));
}

/* ---- a host */

static int is_held(const struct known *k, int kind, struct slice name) {
	for (size_t i = 0; i < k->count[kind]; i++) {
		const struct interval *one = &k->intervals[kind][i];
		struct slice low = { one->low, one->low_len }, high = { one->high, one->high_len };
		if (order(low, name) <= 0 && (!high.len || order(name, high) < 0)) return 1;
	}
	return 0;
}

void learn_names(struct known *k, int kind, struct slice low, struct slice high) {
	struct interval more, *all = k->intervals[kind];
	size_t kept = 0;
	memset(&more, 0, sizeof more);
	if (low.len) memcpy(more.low, low.at, low.len);
	if (high.len) memcpy(more.high, high.at, high.len);
	more.low_len = low.len, more.high_len = high.len;
	for (size_t i = 0; i < k->count[kind]; i++) {
		struct slice one_low = { all[i].low, all[i].low_len }, one_high = { all[i].high, all[i].high_len };
		struct slice more_low = { more.low, more.low_len }, more_high = { more.high, more.high_len };
		if ((one_high.len && order(one_high, more_low) < 0) || (more_high.len && order(more_high, one_low) < 0)) {
			all[kept++] = all[i];
			continue;
		}
		if (order(one_low, more_low) < 0) memcpy(more.low, all[i].low, sizeof more.low), more.low_len = one_low.len;
		if (more_high.len && (!one_high.len || order(more_high, one_high) < 0)) memcpy(more.high, all[i].high, sizeof more.high), more.high_len = one_high.len;
	}
	size_t at = kept;
	for (; at; at--) {
		struct slice before = { all[at - 1].low, all[at - 1].low_len }, low_now = { more.low, more.low_len };
		if (order(before, low_now) < 0) break;
		all[at] = all[at - 1];
	}
	all[at] = more, k->count[kind] = kept + 1;
}

/* The name, and a zero byte. */
static struct slice after(uint8_t *to, struct slice name) {
	struct slice made = { to, name.len + 1 };
	if (name.len) memcpy(to, name.at, name.len);
	to[name.len] = 0;
	return made;
}

int learn(struct known *k, const struct object *o, struct slice need) {
	uint8_t end[NAME + 2];
	const uint8_t *at = take(&need, 1);
	if (!at || *at < 1 || *at > 5 || !o->is_there) return 0;
	unsigned kind = *at;
	if (kind == 1) {
		if (!(at = take(&need, 9)) || need.len) return 0;
		uint64_t first = number_at(at, 8), last = first + at[8] - 1;
		if (!at[8] || last < first || last * BLOCK >= o->len || k->blocks[first] || k->blocks[last]) return 0;
		memset(k->blocks + first, 1, at[8]);
		return 1;
	}
	int which = kind == 3 || kind == 4;
	struct slice name, high = { NULL, 0 };
	if (!take_text(&need, NAME + 1, &name) || need.len || is_held(k, which, name)) return 0;
	if (kind <= 3) high = after(end, name);
	const struct part *p = &o->parts[which];
	for (size_t i = 0; kind > 3 && !high.len && i < p->count; i++)
		if (order(p->at[i].name, name) >= 0) high = after(end, p->at[i].name);
	return (kind > 3 || (name.len && name.len <= NAME)) && (learn_names(k, which, name, high), 1);
}

static uint8_t *put_number(uint8_t *to, uint64_t x, int n) { for (; n; n--, x >>= 8) *to++ = (uint8_t)x; return to; }

static uint8_t *put_text(uint8_t *to, struct slice text) {
	to = put_number(to, text.len, 2);
	if (text.len) memcpy(to, text.at, text.len);
	return to + text.len;
}

size_t write_part(const struct object *o, const struct known *k, uint8_t *to) {
	uint8_t *p = put_number(to, (uint64_t)o->is_there, 1), *count;
	uint64_t held = 0;
	if (!o->is_there) return 1;
	p = put_number(p, o->len, 8), count = p, p += 4;
	for (size_t b = 0; b * BLOCK < o->len; b++) {
		size_t len = o->len - b * BLOCK < BLOCK ? o->len - b * BLOCK : BLOCK;
		if (!k->blocks[b]) continue;
		p = put_number(p, b, 8), memcpy(p, o->data + b * BLOCK, len), p += len, held++;
	}
	put_number(count, held, 4);
	for (int kind = 0; kind < 2; kind++) {
		p = put_number(p, k->count[kind], 2);
		for (size_t i = 0; i < k->count[kind]; i++) {
			const struct interval *one = &k->intervals[kind][i];
			struct slice low = { one->low, one->low_len }, high = { one->high, one->high_len };
			p = put_text(put_text(p, low), high);
		}
		count = p, p += 2, held = 0;
		for (size_t i = 0; i < o->parts[kind].count; i++) {
			const struct entry *e = &o->parts[kind].at[i];
			if (is_held(k, kind, e->name)) p = put_text(put_text(p, e->name), e->value), held++;
		}
		put_number(count, held, 2);
	}
	return (size_t)(p - to);
}
