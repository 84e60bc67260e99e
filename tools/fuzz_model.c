/* What the pages say of images and objects; fuzz.h tells of each. */
#include "fuzz.h"
#include <string.h>

int same(struct slice a, struct slice b) { return a.len == b.len && (!a.len || !memcmp(a.at, b.at, a.len)); }

size_t number_at(const uint8_t *p, int n) {
	size_t x = 0;
	while (n--) x = x << 8 | p[n];
	return x;
}

/* Cuts n bytes from the front, if there are so many. */
static const uint8_t *cut(struct slice *from, size_t n) {
	const uint8_t *at = from->at;
	if (n > from->len) return NULL;
	if (n) from->at += n;
	from->len -= n;
	return at;
}

struct cut_input cut_input(struct slice from) {
	struct cut_input made;
	for (int i = 0; i < CHOICES; i++) {
		const uint8_t *at = cut(&from, 4);
		size_t n = at ? number_at(at, 4) : 0;
		if (n > from.len) n = from.len;
		made.fields[i].at = cut(&from, n), made.fields[i].len = n;
	}
	made.fields[CHOICES] = from;
	return made;
}

/* ---- images (docs/IMAGE.md) */

int is_wide(const uint8_t *slot) { return slot[0] == 0x18; }
int is_arithmetic(unsigned opcode) { return (opcode & 7) == 4 || (opcode & 7) == 7; }
int is_comparison(unsigned opcode) {
	return ((opcode & 7) == 5 || (opcode & 7) == 6) && opcode >> 4 != 0 && opcode >> 4 != 8 && opcode >> 4 != 9 && opcode >> 4 < 14;
}

static int is_opcode(unsigned opcode) {
	if (is_arithmetic(opcode)) {
		if (opcode >> 4 == 8) return !(opcode & 8);
		if (opcode >> 4 == 13) return opcode != 0xdf;
		return opcode >> 4 < 13;
	}
	if (is_comparison(opcode)) return 1;
	return opcode && !!strchr("\x05\x06\x18\x61\x62\x63\x69\x6a\x6b\x71\x72\x73\x79\x7a\x7b\x81\x85\x89\x91\x95", (int)opcode);
}

/* Whether the fields that an instruction leaves unused are zero, and those that select it have a row's value. */
static int has_plain_fields(const uint8_t *slot) {
	unsigned opcode = slot[0], dst = slot[1] & 15, src = slot[1] >> 4, high = opcode >> 4;
	int16_t offset = (int16_t)number_at(slot + 2, 2);
	int32_t imm = (int32_t)number_at(slot + 4, 4);
	if (is_arithmetic(opcode)) {
		if (high == 13) return !src && !offset && (imm == 16 || imm == 32 || imm == 64);
		if (high == 8) return !src && !offset && !imm;
		if (opcode & 8 ? imm : (int)src) return 0;
		if (high == 3 || high == 9) return offset == 0 || offset == 1;
		if (high == 11 && opcode & 8) return !offset || offset == 8 || offset == 16 || (offset == 32 && (opcode & 7) == 7);
		return !offset;
	}
	switch (opcode) {
	case 0x05: return !dst && !src && !imm;
	case 0x06: return !dst && !src && !offset;
	case 0x95: return !dst && !src && !offset && !imm;
	case 0x85: return !dst && src < 2 && !offset;
	case 0x18: return !src && !offset;
	}
	if (is_comparison(opcode)) return opcode & 8 ? !imm : !src;
	return (opcode & 7) == 2 ? !src : !imm; /* a store of a number; of a register, and a load */
}

/* The refusal of a slot, whose code goes on for so many slots. */
static uint32_t slot_refusal(const uint8_t *slot, size_t left) {
	if (!is_opcode(slot[0])) return 3;
	if ((slot[1] & 15) > 10 || slot[1] >> 4 > 10) return 4;
	if (!has_plain_fields(slot)) return 5;
	return is_wide(slot) && (left < 2 || slot[8] || slot[9] || slot[10] || slot[11]) ? 6 : 0;
}

static int has_letters(struct slice name) {
	for (size_t i = 0; i < name.len; i++)
		if (!name.at[i] || !strchr("abcdefghijklmnopqrstuvwxyz0123456789_", name.at[i])) return 0;
	return 1;
}

int order(struct slice a, struct slice b) {
	size_t least = a.len < b.len ? a.len : b.len;
	int by = least ? memcmp(a.at, b.at, least) : 0;
	return by ? by : (a.len > b.len) - (a.len < b.len);
}

/* Reads a number of n bytes that is in a range: 0; or 1, or the refusal of another number. */
static uint32_t read_number(struct slice *rest, int n, unsigned low, unsigned high, uint32_t refusal, unsigned *to) {
	const uint8_t *at = cut(rest, (size_t)n);
	if (!at) return 1;
	*to = (unsigned)number_at(at, n);
	return *to < low || *to > high ? refusal : 0;
}

static int begins(const struct method *m, unsigned slot) {
	unsigned i = 0;
	while (i < slot && i < m->slots) i += is_wide(m->code + 8 * i) ? 2 : 1;
	return i == slot && i < m->slots;
}

/* Reads a place of a head, whose number is at least so great. */
static uint32_t read_place(struct slice *rest, unsigned *least) {
	const uint8_t *at = cut(rest, 2), *bounds;
	if (!at) return 1;
	if (at[0] < *least || at[0] > 74 || at[0] == 10 || at[1] > 6) return 13;
	*least = at[0] + 1u;
	if (at[1] < 2) return 0;
	if (!(bounds = cut(rest, 16))) return 1;
	size_t a = number_at(bounds, 8), b = number_at(bounds + 8, 8);
	return (at[1] == 3 ? (int64_t)a <= (int64_t)b : a <= b) ? 0 : 13;
}

/* Reads the loops behind a method's code. */
static uint32_t read_loops(struct slice *rest, struct method *m, int64_t *slot) {
	unsigned heads = 0, at = 0, places = 0;
	uint32_t why = read_number(rest, 2, 0, 64, 10, &heads);
	if (!why && heads) why = read_number(rest, 4, 1, BUDGET, 10, &m->budget);
	for (unsigned least = 0; !why && heads; heads--) {
		if ((why = read_number(rest, 2, least, 65535, 13, &at)) == 0 && !begins(m, at)) why = 13;
		least = at + 1;
		if (!why) m->is_head[at] = 1, why = read_number(rest, 1, 0, 255, 1, &places);
		for (unsigned number = 0; !why && places; places--) why = read_place(rest, &number);
		if (why == 13) *slot = at;
	}
	return why;
}

static uint32_t read_method(struct slice *rest, unsigned rules, const struct method *before, struct method *to, int64_t *slot) {
	unsigned length = 0, capacity = rules == 3 ? CAPACITY : 4096;
	uint32_t why = read_number(rest, 1, 1, NAME, 7, &length);
	if (why) return why;
	to->name.len = length;
	if (!(to->name.at = cut(rest, length))) return 1;
	if (!has_letters(to->name)) return 7;
	if (before && order(before->name, to->name) >= 0) return 8;
	if ((why = read_number(rest, 1, 1, 3, 9, &to->flags)) || (why = read_number(rest, 2, 0, capacity, 10, &to->in_cap))) return why;
	if ((why = read_number(rest, 2, 0, capacity, 10, &to->out_cap)) || (why = read_number(rest, 2, 1, 4096, 10, &to->slots))) return why;
	if (!(to->code = cut(rest, 8 * (size_t)to->slots))) return 1;
	for (unsigned i = 0; i < to->slots; i += is_wide(to->code + 8 * i) ? 2 : 1) {
		*slot = i;
		if ((why = slot_refusal(to->code + 8 * i, to->slots - i))) return why;
	}
	*slot = -1;
	to->budget = 0, memset(to->is_head, 0, sizeof to->is_head);
	size_t behind = rest->len;
	why = rules == 3 ? read_loops(rest, to, slot) : 0;
	to->loops = behind - rest->len;
	return why;
}

struct where read_class(struct slice image, struct class_of *to) {
	struct where why = { 0, 0, -1 };
	const uint8_t *magic = cut(&image, 4);
	unsigned count = 0, zero = 0;
	to->count = 0;
	if (!magic) why.number = 1;
	else if (memcmp(magic, "RCL", 3) || magic[3] < '1' || magic[3] > '3') why.number = 2;
	else to->rules = magic[3] - '0';
	if (why.number || (why.number = read_number(&image, 2, 1, METHODS, 10, &count)) || (why.number = read_number(&image, 2, 0, 0, 2, &zero)))
		return why;
	while (to->count < count) {
		struct method *next = &to->methods[to->count];
		if ((why.number = read_method(&image, to->rules, to->count ? next - 1 : NULL, next, &why.slot))) return why;
		why.method = ++to->count;
	}
	why.number = image.len ? 11 : 0;
	return why;
}

const struct method *method_named(const struct class_of *c, struct slice name) {
	for (unsigned i = 0; i < c->count; i++)
		if (same(c->methods[i].name, name)) return &c->methods[i];
	return NULL;
}

unsigned instructions(const struct method *m) {
	unsigned n = 0;
	for (unsigned i = 0; i < m->slots; i += is_wide(m->code + 8 * i) ? 2 : 1) n++;
	return n;
}

/* The helpers that the code calls, a bit each. */
static unsigned helpers_in(const struct method *m) {
	unsigned all = 0;
	for (unsigned i = 0; i < m->slots; i += is_wide(m->code + 8 * i) ? 2 : 1) {
		const uint8_t *slot = m->code + 8 * i;
		size_t id = number_at(slot + 4, 4);
		if (slot[0] == 0x85 && !slot[1] && id < 19) all |= 1u << id;
	}
	return all;
}

int needs_of(const struct method *m) {
	unsigned all = helpers_in(m), empties = all & 1 << 5 && all & (1 << 3 | 1 << 7 | 1 << 10 | 1 << 14);
	return empties ? 7 : (all & 0x1e ? 1 : 0) + (all & 0x401c0 ? 2 : 0) + (all & 0x1e00 ? 4 : 0);
}

int64_t target_of(const uint8_t *slot, int64_t at) {
	if (slot[0] == 0x06) return at + 1 + (int32_t)number_at(slot + 4, 4);
	return slot[0] == 0x05 || is_comparison(slot[0]) ? at + 1 + (int16_t)number_at(slot + 2, 2) : at;
}

int goes_to_head(const struct method *m, int64_t at) {
	const uint8_t *slot = m->code + 8 * at;
	int64_t to = target_of(slot, at);
	return (slot[0] == 0x05 || slot[0] == 0x06 || is_comparison(slot[0])) && to >= 0 && to <= at && m->is_head[to];
}

static uint32_t plain_rule(const struct method *m, unsigned i, int by_loops) {
	const uint8_t *slot = m->code + 8 * i;
	int64_t to = target_of(slot, i);
	if (to <= i && slot[0] != 0x85 && (slot[0] == 0x05 || slot[0] == 0x06 || is_comparison(slot[0])))
		if (!by_loops || !goes_to_head(m, i)) return 1;
	if (to >= m->slots) return 2;
	/* a slot is a second half if it has no opcode */
	if (!m->code[8 * to]) return 2;
	if (i + (is_wide(slot) ? 2 : 1) >= m->slots && slot[0] != 0x95 && slot[0] != 0x05 && slot[0] != 0x06) return 3;
	return slot[0] == 0x85 && slot[1] ? 4 : 0;
}

struct where plain_rules(const struct class_of *c, int by_loops) {
	struct where why = { 0, 0, 0 };
	for (; why.method < c->count; why.method++) {
		const struct method *m = &c->methods[why.method];
		for (why.slot = 0; why.slot < m->slots; why.slot += is_wide(m->code + 8 * why.slot) ? 2 : 1)
			if ((why.number = plain_rule(m, (unsigned)why.slot, by_loops))) return why;
	}
	return why;
}

/* ---- objects (the header) */

struct entry *find_entry(struct part *p, struct slice name, int *is_there) {
	size_t low = 0, high = p->count;
	while (low < high) {
		size_t middle = (low + high) / 2;
		if (order(p->at[middle].name, name) < 0) low = middle + 1; else high = middle;
	}
	*is_there = low < p->count && same(p->at[low].name, name);
	return &p->at[low];
}

int set_entry(struct part *p, size_t most, struct entry with) {
	int is_there;
	struct entry *at = find_entry(p, with.name, &is_there);
	if (!is_there) {
		if (p->count >= most) return 0;
		memmove(at + 1, at, (size_t)(p->at + p->count++ - at) * sizeof *at);
	}
	*at = with;
	return 1;
}

int unset_entry(struct part *p, struct slice name) {
	int is_there;
	struct entry *at = find_entry(p, name, &is_there);
	if (is_there) memmove(at, at + 1, (size_t)(p->at + --p->count - at) * sizeof *at);
	return is_there;
}

void resize_data(struct object *o, size_t len) {
	if (len > o->len) memset(o->data + o->len, 0, len - o->len);
	o->len = len;
}

void clear_object(struct object *o, int is_there) { o->is_there = is_there, o->len = o->parts[0].count = o->parts[1].count = 0; }

/* A field of so many bytes of length, and its bytes. */
static int read_field(struct slice *rest, int n, size_t least, size_t most, struct slice *to) {
	const uint8_t *at = cut(rest, (size_t)n);
	if (!at) return 0;
	to->len = number_at(at, n);
	return to->len >= least && to->len <= most && (to->at = cut(rest, to->len)) != NULL;
}

int read_flat(struct slice form, struct object *to) {
	const uint8_t *at = cut(&form, 1);
	struct slice data = { NULL, 0 };
	if (!at || *at > 1) return 0;
	clear_object(to, *at);
	if (!*at) return !form.len;
	if (!read_field(&form, 4, 0, DATA, &data)) return 0;
	if (data.len) memcpy(to->data, data.at, data.len);
	to->len = data.len;
	for (int i = 0; i < 2; i++) {
		struct part *p = &to->parts[i];
		if (!(at = cut(&form, 2)) || number_at(at, 2) > (i ? KEYS : XATTRS)) return 0;
		for (size_t left = number_at(at, 2); left; left--, p->count++) {
			struct entry *e = &p->at[p->count];
			if (!read_field(&form, 1, 1, NAME, &e->name) || !read_field(&form, 2, 0, VALUE, &e->value)) return 0;
			if (p->count && order(e[-1].name, e->name) >= 0) return 0;
		}
	}
	return !form.len;
}

static uint8_t *put(uint8_t *to, size_t length, int n, struct slice bytes) {
	for (; n; n--, length >>= 8) *to++ = (uint8_t)length;
	if (bytes.len) memcpy(to, bytes.at, bytes.len);
	return to + bytes.len;
}

size_t write_flat(const struct object *o, int needs, uint8_t *to) {
	struct slice data = { o->data, needs & 1 ? o->len : 0 }, none = { NULL, 0 };
	uint8_t *p = to;
	*p++ = (uint8_t)o->is_there;
	if (!o->is_there) return 1;
	p = put(p, data.len, 4, data);
	for (int i = 0; i < 2; i++) {
		size_t count = needs & 2 << i ? o->parts[i].count : 0;
		p = put(p, count, 2, none);
		for (const struct entry *e = o->parts[i].at; count; count--, e++)
			p = put(p, e->name.len, 1, e->name), p = put(p, e->value.len, 2, e->value);
	}
	return (size_t)(p - to);
}

void copy_object(struct object *to, const struct object *from) {
	to->is_there = from->is_there, to->len = from->len;
	memcpy(to->data, from->data, from->len);
	for (int i = 0; i < 2; i++) {
		to->parts[i].count = from->parts[i].count;
		memcpy(to->parts[i].at, from->parts[i].at, from->parts[i].count * sizeof(struct entry));
	}
}

int same_object(const struct object *a, const struct object *b) {
	if (a->is_there != b->is_there || a->len != b->len || memcmp(a->data, b->data, a->len)) return 0;
	for (int i = 0; i < 2; i++) {
		if (a->parts[i].count != b->parts[i].count) return 0;
		for (size_t j = 0; j < a->parts[i].count; j++)
			if (!same(a->parts[i].at[j].name, b->parts[i].at[j].name) || !same(a->parts[i].at[j].value, b->parts[i].at[j].value)) return 0;
	}
	return 1;
}

static int make_edit(struct object *o, unsigned kind, struct slice *rest) {
	struct entry e = { { NULL, 0 }, { NULL, 0 } };
	int which = kind >= 5;
	if (kind == 1 || kind == 2) return o->is_there == (kind == 2) ? clear_object(o, kind == 1), 1 : 0;
	if (!o->is_there) return 0;
	if (kind == 7 || kind == 8) {
		const uint8_t *at = cut(rest, 8);
		if (!at) return 0;
		size_t place = number_at(at, 8);
		if (kind == 7) return place <= DATA ? resize_data(o, place), 1 : 0;
		if (!read_field(rest, 4, 1, DATA, &e.value) || place > DATA || e.value.len > DATA - place) return 0;
		if (place + e.value.len > o->len) resize_data(o, place + e.value.len);
		memcpy(o->data + place, e.value.at, e.value.len);
		return 1;
	}
	if (kind < 3 || kind > 8 || !read_field(rest, 2, 1, NAME, &e.name)) return 0;
	if (kind % 2 == 0) return unset_entry(&o->parts[which], e.name);
	return read_field(rest, 2, 0, VALUE, &e.value) && set_entry(&o->parts[which], which ? KEYS : XATTRS, e);
}

int make_edits(struct object *o, struct slice edits) {
	for (const uint8_t *kind; edits.len;)
		if (!(kind = cut(&edits, 1)) || !make_edit(o, *kind, &edits)) return 0;
	return 1;
}
