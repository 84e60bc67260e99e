/* How libFuzzer changes a call: one field at a time, of an image an instruction, a number that a method declares or what lies
 * between, so that most of the images that are made are images, and many of the classes are accepted. */
#include "fuzz.h"
#include <string.h>

size_t LLVMFuzzerMutate(uint8_t *data, size_t len, size_t most);
size_t LLVMFuzzerCustomMutator(uint8_t *data, size_t len, size_t most, unsigned seed);

enum { LONGEST = 1 << 17 };
static uint8_t fields[FIELDS][LONGEST];
static size_t lengths[FIELDS];
static uint32_t state;

/* A number below n. */
static unsigned chance(unsigned n) {
	state ^= state << 13, state ^= state >> 17, state ^= state << 5;
	return state % n;
}

/* ---- code */

struct code { uint8_t at[8 * 192]; unsigned slots; };

static void add(struct code *c, unsigned opcode, unsigned dst, unsigned src, int offset, int32_t imm) {
	uint8_t *p = c->at + 8 * c->slots++;
	p[0] = (uint8_t)opcode, p[1] = (uint8_t)(dst | src << 4), p[2] = (uint8_t)offset, p[3] = (uint8_t)(offset >> 8);
	for (int i = 0; i < 4; i++) p[4 + i] = (uint8_t)((uint32_t)imm >> (8 * i));
}

static int32_t some_number(void) {
	static const int32_t numbers[] = { 0, 1, 2, 7, 8, 63, 64, 65, 255, 256, 511, 512, 4095, 4096, 4097, 65535, 65536, 65537, 1 << 30,
		0x7fffffff, -1, -8, -22, -4096, (int32_t)0x80000000 };
	return chance(3) ? numbers[chance(sizeof numbers / sizeof *numbers)] : (int32_t)(state ^ state << 16);
}

/* Registers 6 to 8 keep the input, its length and the output, where `add_beginning` stands in front. */
static void add_beginning(struct code *c) {
	for (unsigned i = 1; i < 4; i++) add(c, 0xbf, i + 5, i, 0, 0);
	add(c, 0xb7, 9, 0, 0, some_number()), add(c, 0xb7, 0, 0, 0, 0);
}

static const uint8_t ARITHMETIC[] = { 0x00, 0x10, 0x20, 0x30, 0x40, 0x50, 0x60, 0x70, 0x90, 0xa0, 0xb0, 0xc0 };
static const uint8_t COMPARISONS[] = { 0x10, 0x20, 0x30, 0x40, 0x50, 0x60, 0x70, 0xa0, 0xb0, 0xc0, 0xd0 };

static void add_arithmetic(struct code *c, unsigned dst, unsigned src) {
	unsigned op = ARITHMETIC[chance(sizeof ARITHMETIC)], width = chance(2) ? 7 : 4, is_register = chance(2), offset = 0;
	if (op == 0x30 || op == 0x90) offset = chance(2);
	if (op == 0xb0 && is_register) offset = 8 * (1u << chance(width == 7 ? 3 : 2)) * chance(2);
	switch (chance(12)) {
	case 0: add(c, 0x80 | width, dst, 0, 0, 0); break;
	case 1: add(c, "\xd4\xdc\xd7"[chance(3)] & 255, dst, 0, 0, 16 << chance(3)); break;
	case 2: add(c, 0x18, dst, 0, 0, some_number()), add(c, 0, 0, 0, 0, some_number()); break;
	default: add(c, op | width | is_register << 3, dst, is_register ? src : 0, (int)offset, is_register ? 0 : some_number());
	}
}

/* A load from, or a store into, the stack, the input or the output. */
static void add_access(struct code *c) {
	static const uint8_t opcodes[] = { 0x61, 0x69, 0x71, 0x79, 0x81, 0x89, 0x91, 0x62, 0x6a, 0x72, 0x7a, 0x63, 0x6b, 0x73, 0x7b };
	unsigned opcode = opcodes[chance(sizeof opcodes)], kind = opcode & 7, base = chance(3) ? 10 : kind == 1 && chance(2) ? 6 : 8;
	int offset = base == 10 ? -8 * (int)(1 + chance(64)) + (int)chance(2) * (int)chance(8) : (int)chance(16);
	if (kind == 1) add(c, opcode, chance(2) ? 0 : 9, base, offset, 0);
	else add(c, opcode, base, kind == 3 ? chance(4) ? 9 : 8 : 0, offset, kind == 2 ? some_number() : 0);
}

/* A helper's arguments: n a number, p and w a range that is read and one that may be written, l its length. */
static const char *const ARGUMENTS[] = { "", "", "nwl", "npl", "n", "", "plwl", "plpl", "pl", "plwl", "plpl", "pl", "plwl", "n", "n", "", "plpl", "wlpl", "plwl" };

static void add_call(struct code *c) {
	unsigned id = 1 + chance(18), room = 0;
	for (unsigned i = 0; ARGUMENTS[id][i]; i++) {
		char kind = ARGUMENTS[id][i];
		unsigned from = chance(8);
		if (kind == 'n') {
			if (chance(3)) add(c, 0xb7, i + 1, 0, 0, id == 13 ? (int32_t)chance(9) : some_number() & (chance(2) ? 0x3ff : 0x1ffff));
			else add(c, 0xbf, i + 1, chance(2) ? 9 : 7, 0, 0);
		} else if (kind == 'l') add(c, 0xb7, i + 1, 0, 0, (int32_t)(chance(4) ? room : chance(room + 1)));
		else if (from < 2 && kind == 'p') room = 1 + chance(8), add(c, 0xbf, i + 1, 6, 0, 0);
		else if (from < 2) room = 1 + chance(8), add(c, 0xbf, i + 1, 8, 0, 0);
		else room = chance(3) ? 1u << chance(7) : 1 + chance(512), add(c, 0xbf, i + 1, 10, 0, 0), add(c, 0x07, i + 1, 0, 0, -(int32_t)room);
	}
	add(c, 0x85, 0, 0, 0, (int32_t)id);
	if (!chance(3)) add(c, 0xbf, 9, 0, 0, 0);
}

static void add_comparison(struct code *c) {
	unsigned opcode = COMPARISONS[chance(sizeof COMPARISONS)] | (chance(2) ? 5 : 6), is_register = chance(2);
	add(c, opcode | is_register << 3, chance(2) ? 0 : 9, is_register ? chance(2) ? 7 : 9 : 0, (int)chance(4), is_register ? 0 : some_number());
}

static void add_some(struct code *c) {
	switch (chance(6)) {
	case 0: case 1: add_call(c); break;
	case 2: add_access(c); break;
	case 3: case 4: add_comparison(c); break;
	default: add_arithmetic(c, chance(2) ? 0 : 9, chance(2) ? 7 : 9);
	}
}

/* A method's code, of which much is likely to be accepted. */
static void make_code(struct code *c) {
	c->slots = 0;
	add_beginning(c);
	for (unsigned left = 1 + chance(6); left && c->slots < 64; left--) add_some(c);
	if (chance(3)) add(c, 0xb7, 1, 0, 0, (int32_t)chance(16)), add(c, 0x85, 0, 0, 0, 13), add(c, 0xbf, 0, 9, 0, 0);
	/* (so that it isn't always an error, which changes nothing) */
	if (chance(3)) add(c, 0x57, 0, 0, 0, 0x7fffffff);
	add(c, 0x95, 0, 0, 0, 0);
}

/* ---- images */

/* Puts slots in place of some of a method, whose first slot stands at a place of the image. */
static void put_slots(uint8_t *code, unsigned slots, unsigned at, unsigned cut, const struct code *by) {
	uint8_t *image = fields[IMAGE], *end = image + lengths[IMAGE], *from = code + 8 * at;
	if (slots - cut + by->slots > 4096 || lengths[IMAGE] + 8 * by->slots > LONGEST) return;
	memmove(from + 8 * by->slots, from + 8 * cut, (size_t)(end - from) - 8 * cut);
	memcpy(from, by->at, 8 * by->slots);
	slots += by->slots - cut;
	code[-2] = (uint8_t)slots, code[-1] = (uint8_t)(slots >> 8);
	lengths[IMAGE] += 8 * (size_t)by->slots - 8 * (size_t)cut;
}

static void change_slot(uint8_t *slot) {
	struct code one = { { 0 }, 0 };
	switch (chance(7)) {
	case 0: slot[1] = (uint8_t)(chance(11) | (slot[1] & 0xf0)); break;
	case 1: slot[1] = (uint8_t)((slot[1] & 15) | chance(11) << 4); break;
	case 2: slot[2] = (uint8_t)chance(12), slot[3] = 0; break;
	case 3: slot[2] = (uint8_t)(slot[2] + 1 - 2 * chance(2)); break;
	case 4: slot[4] = (uint8_t)(slot[4] + 1 - 2 * chance(2)); break;
	case 5: add(&one, slot[0], slot[1], 0, slot[2], some_number()), memcpy(slot + 4, one.at + 4, 4); break;
	default: slot[0] ^= (uint8_t)(1 << chance(8));
	}
}

/* Numbers that a method declares stand before its code: flags, and the most bytes of input and output. */
static void change_declaration(uint8_t *code) {
	int32_t capacity = chance(2) ? (int32_t)chance(65) : some_number();
	if (!chance(3)) code[-7] = (uint8_t)(1 + chance(3));
	else if (chance(2)) code[-6] = (uint8_t)capacity, code[-5] = (uint8_t)(capacity >> 8 & (chance(4) ? 31 : 255));
	else code[-4] = (uint8_t)capacity, code[-3] = (uint8_t)(capacity >> 8 & (chance(4) ? 31 : 255));
}

/* Gives an image another rule set. In set 3 a method's loops stand behind its code: their number, 0, where it has none. */
static void change_rules(const struct class_of *class) {
	unsigned rules = 1 + (class->rules + chance(2)) % 3;
	uint8_t *image = fields[IMAGE];
	for (unsigned i = class->count; i && (rules == 3) != (class->rules == 3); i--) {
		const struct method *m = &class->methods[i - 1];
		uint8_t *behind = image + (m->code - image) + 8 * m->slots, *end = image + lengths[IMAGE];
		if (rules == 3) {
			if (lengths[IMAGE] + 2 > LONGEST) return;
			memmove(behind + 2, behind, (size_t)(end - behind));
			behind[0] = behind[1] = 0, lengths[IMAGE] += 2;
		} else {
			memmove(behind, behind + m->loops, (size_t)(end - behind) - m->loops);
			lengths[IMAGE] -= m->loops;
		}
	}
	image[3] = (uint8_t)('0' + rules);
}

static void put_number(uint8_t **to, size_t n, int bytes) {
	for (; bytes; bytes--, n >>= 8) *(*to)++ = (uint8_t)n;
}

/* Gives a method of rule set 3 other loops: none, or one head or two with a place or two. */
static void change_loops(const struct method *m) {
	static const unsigned budgets[] = { 1, 64, 1000, 1048576, 0, 1048577 };
	uint8_t loops[96], *to = loops, *behind = fields[IMAGE] + (m->code - fields[IMAGE]) + 8 * m->slots, *end = fields[IMAGE] + lengths[IMAGE];
	unsigned heads = chance(3), slot = chance(m->slots + 1);
	put_number(&to, heads, 2);
	if (heads) put_number(&to, budgets[chance(chance(4) ? 4 : 6)], 4);
	for (; heads; heads--, slot += chance(3)) {
		unsigned places = chance(3), number = chance(12);
		put_number(&to, slot, 2), put_number(&to, places, 1);
		for (; places; places--, number += chance(70)) {
			unsigned kind = chance(chance(8) ? 7 : 8);
			put_number(&to, number, 1), put_number(&to, kind, 1);
			if (kind > 1 && kind < 7) put_number(&to, chance(20), 8), put_number(&to, (size_t)0 - chance(2) + chance(20), 8);
		}
	}
	size_t len = (size_t)(to - loops);
	if (lengths[IMAGE] - m->loops + len > LONGEST) return;
	memmove(behind + len, behind + m->loops, (size_t)(end - behind) - m->loops);
	memcpy(behind, loops, len);
	lengths[IMAGE] = lengths[IMAGE] - m->loops + len;
}

/* Some code that is made again and again, as often as a number in the first slot of the stack says. Where it goes back to. */
static unsigned add_loop(struct code *c) {
	add(c, 0x7a, 10, 0, -512, 0);
	unsigned head = c->slots;
	for (unsigned left = 1 + chance(3); left && c->slots < 64; left--) add_some(c);
	/* (a comparison may go on up to three slots further) */
	for (unsigned i = 0; i < 3; i++) add(c, 0xb7, 5, 0, 0, 0);
	add(c, 0x79, 5, 10, -512, 0), add(c, 0x07, 5, 0, 0, 1), add(c, 0x7b, 10, 5, -512, 0);
	if (chance(8)) add(c, 0xa5, 5, 0, (int)head - (int)c->slots - 1, (int32_t)(1 + chance(chance(4) ? 5 : 300)));
	else add(c, 0x05, 0, 0, (int)head - (int)c->slots - 1, 0), add(c, 0xb7, 0, 0, 0, 0);
	return head;
}

/* A class of one method with a loop or two, at whose heads all is declared that they may change. */
static void new_loops(void) {
	static const unsigned budgets[] = { 64, 300, 1000, 5000, 20000 };
	struct code c = { { 0 }, 0 };
	unsigned heads[2], count = 1 + chance(2);
	uint8_t *p = fields[IMAGE];
	add_beginning(&c);
	for (unsigned i = 0; i < count; i++) heads[i] = add_loop(&c);
	if (chance(3)) add(&c, 0xb7, 1, 0, 0, (int32_t)chance(16)), add(&c, 0x85, 0, 0, 0, 13), add(&c, 0xbf, 0, 9, 0, 0);
	if (chance(3)) add(&c, 0x57, 0, 0, 0, 0x7fffffff);
	add(&c, 0x95, 0, 0, 0, 0);
	memcpy(p, "RCL3\1\0\0\0\1f\3\x10\0\x10\0\0\0", 17), p[15] = (uint8_t)c.slots, p += 17;
	memcpy(p, c.at, 8 * c.slots), p += 8 * c.slots;
	put_number(&p, count, 2), put_number(&p, budgets[chance(5)], 4);
	for (unsigned i = 0; i < count; i++) {
		/* registers 0 and 9 and the stack are numbers, 1 to 5 may be unset */
		put_number(&p, heads[i], 2), put_number(&p, 7 + 64, 1);
		for (unsigned n = 0; n < 75; n++)
			if (n <= 5 || n == 9 || n > 10) put_number(&p, n, 1), put_number(&p, n == 0 || n == 9 || n > 10, 1);
	}
	lengths[IMAGE] = (size_t)(p - fields[IMAGE]);
	fields[METHOD][0] = 'f', lengths[METHOD] = 1;
}

static void new_image(void) {
	struct code c;
	uint8_t *p = fields[IMAGE];
	if (!chance(3)) return new_loops();
	make_code(&c);
	memcpy(p, "RCL1\1\0\0\0\1f\3\x10\0\x10\0\0\0", 17);
	p[3] = (uint8_t)('1' + chance(3)), p[15] = (uint8_t)c.slots;
	memcpy(p + 17, c.at, 8 * c.slots);
	memset(p + 17 + 8 * c.slots, 0, 2);
	lengths[IMAGE] = 17 + 8 * c.slots + (p[3] == '3' ? 2 : 0);
	fields[METHOD][0] = 'f', lengths[METHOD] = 1;
}

static void change_image(void) {
	static struct class_of class;
	struct slice image = { fields[IMAGE], lengths[IMAGE] };
	struct code c = { { 0 }, 0 };
	read_class(image, &class);
	if (!class.count || !chance(16)) {
		if (chance(2)) lengths[IMAGE] = LLVMFuzzerMutate(fields[IMAGE], lengths[IMAGE], LONGEST); else new_image();
		return;
	}
	const struct method *m = &class.methods[chance(class.count)];
	uint8_t *code = fields[IMAGE] + (m->code - fields[IMAGE]);
	unsigned at = chance(m->slots), cut = 1 + chance(m->slots - at < 4 ? m->slots - at : 4);
	/* the method that is called is mostly the one that is changed */
	if (chance(4)) memcpy(fields[METHOD], m->name.at, m->name.len), lengths[METHOD] = m->name.len;
	switch (chance(10)) {
	case 0: add_some(&c), put_slots(code, m->slots, at, 0, &c); break;
	case 1: add_some(&c), put_slots(code, m->slots, at, cut, &c); break;
	case 2: add_arithmetic(&c, chance(11), chance(11)), put_slots(code, m->slots, at, chance(2), &c); break;
	case 3: if (cut < m->slots) put_slots(code, m->slots, at, cut, &c); break;
	case 4: make_code(&c), put_slots(code, m->slots, 0, m->slots, &c); break;
	case 5: change_declaration(code); break;
	case 6: change_rules(&class); break;
	case 7: if (class.rules == 3) change_loops(m); break;
	default: change_slot(code + 8 * at);
	}
}

/* ---- objects */

static void some_bytes(uint8_t **p, int n, unsigned count) {
	for (unsigned x = count; n; n--, x >>= 8) *(*p)++ = (uint8_t)x;
	for (; count; count--) *(*p)++ = (uint8_t)(chance(2) ? chance(256) : 0);
}

static void new_object(void) {
	static const unsigned lengths_of_data[] = { 0, 1, 8, 63, 500, 4096, 65535, 65536, 65537 };
	static const unsigned lengths_of_values[] = { 0, 1, 7, 8, 9, 64, 400 };
	uint8_t *p = fields[OBJECT];
	*p++ = 1;
	some_bytes(&p, 4, lengths_of_data[chance(chance(8) ? 5 : 9)]);
	for (int i = 0; i < 2; i++) {
		unsigned count = chance(8) ? chance(4) : i ? chance(64) : 30 + chance(4);
		*p++ = (uint8_t)count, *p++ = 0;
		/* names of one byte, as many as there are of such as rise, or of four */
		for (unsigned n = 0; n < count; n++) {
			if (count < 4) *p++ = 1, *p++ = (uint8_t)("\0ab"[n]); else *p++ = 4, *p++ = 0, *p++ = 0, *p++ = 0, *p++ = (uint8_t)n;
			some_bytes(&p, 2, lengths_of_values[chance(sizeof lengths_of_values / sizeof *lengths_of_values)]);
		}
	}
	lengths[OBJECT] = (size_t)(p - fields[OBJECT]);
}

/* A part, of a few blocks and names. */
static void new_part(void) {
	static const unsigned lengths_of_data[] = { 0, 1, 500, 4095, 4096, 4097, 9000 };
	unsigned size = lengths_of_data[chance(7)], blocks = 0;
	uint8_t *p = fields[OBJECT], *count;
	*p++ = 1;
	for (int i = 0; i < 8; i++) *p++ = (uint8_t)(i < 4 ? size >> (8 * i) : 0);
	count = p, memset(p, 0, 4), p += 4;
	for (unsigned b = 0; b * 4096 < size; b++) {
		unsigned length = size - b * 4096 < 4096 ? size - b * 4096 : 4096;
		if (chance(2)) continue;
		*p++ = (uint8_t)b, memset(p, 0, 7), p += 7, memset(p, (int)chance(256), length), p += length, blocks++;
	}
	*count = (uint8_t)blocks;
	for (int i = 0; i < 2; i++) {
		/* all names, none, or those from one letter to below another, some of which are entries */
		unsigned kind = chance(3), entries = kind ? chance(3) : 0;
		*p++ = kind != 0, *p++ = 0;
		if (kind == 1) memset(p, 0, 4), p += 4;
		if (kind == 2) *p++ = 1, *p++ = 0, *p++ = 'a', *p++ = 1, *p++ = 0, *p++ = (uint8_t)('b' + chance(8));
		*p++ = (uint8_t)entries, *p++ = 0;
		for (unsigned n = 0; n < entries; n++) *p++ = 1, *p++ = 0, *p++ = (uint8_t)('a' + n), some_bytes(&p, 2, chance(9));
	}
	lengths[OBJECT] = (size_t)(p - fields[OBJECT]);
}

static void change_object(void) {
	if (chance(2)) new_object();
	else if (chance(2)) new_part();
	else if (chance(4)) lengths[OBJECT] = LLVMFuzzerMutate(fields[OBJECT], lengths[OBJECT], LONGEST);
	else fields[OBJECT][0] = 0, lengths[OBJECT] = 1;
}

static void change_choices(void) {
	static const uint8_t limits[24] = { 0, 0, 0, 128, 0, 0, 0, 0, 255, 255, 255, 255, 255, 255, 255, 255, 64, 0, 0, 0, 64 };
	if (lengths[CHOICES] < 31) memcpy(fields[CHOICES] + 7, limits, 24);
	if (chance(2)) fields[CHOICES][7 + chance(24)] = (uint8_t)(chance(2) ? chance(70) : chance(256));
	lengths[CHOICES] = 31;
	for (int i = 0; i < 7; i++) if (chance(2)) fields[CHOICES][i] = (uint8_t)(i == 2 || i == 5 ? chance(2) : chance(256));
}

static size_t join(uint8_t *to, size_t most) {
	size_t len = 0;
	for (int i = 0; i < FIELDS; i++) len += lengths[i] + (i < CHOICES ? 4 : 0);
	if (len > most) return 0;
	for (int i = 0; i < FIELDS; i++) {
		for (int j = 0; i < CHOICES && j < 4; j++) *to++ = (uint8_t)(lengths[i] >> (8 * j));
		memcpy(to, fields[i], lengths[i]);
		to += lengths[i];
	}
	return len;
}

size_t LLVMFuzzerCustomMutator(uint8_t *data, size_t len, size_t most, unsigned seed) {
	struct slice whole = { data, len };
	struct cut_input cut = cut_input(whole);
	state = seed * 2654435761u | 1;
	if (len > LONGEST / 2 || !chance(32)) return LLVMFuzzerMutate(data, len, most);
	for (int i = 0; i < FIELDS; i++) {
		lengths[i] = cut.fields[i].len;
		if (lengths[i]) memcpy(fields[i], cut.fields[i].at, lengths[i]);
	}
	for (unsigned left = 1 + chance(3); left; left--)
		switch (chance(16)) {
		case 0: case 1: change_object(); break;
		case 2: lengths[INPUT] = LLVMFuzzerMutate(fields[INPUT], lengths[INPUT], 4200); break;
		case 3: change_choices(); break;
		case 4: lengths[METHOD] = LLVMFuzzerMutate(fields[METHOD], lengths[METHOD], 70); break;
		case 5: lengths[CALLER] = 4, fields[CALLER][chance(4)] ^= (uint8_t)chance(256); break;
		default: change_image();
		}
	size_t made = join(data, most);
	return made ? made : LLVMFuzzerMutate(data, len, most);
}
