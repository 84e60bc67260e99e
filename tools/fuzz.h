/* Of the files of the fuzzer: fuzz.c makes calls, fuzz_change.c changes them, fuzz_model.c, fuzz_machine.c and fuzz_parts.c say what
 * the pages say of them, in plain C after docs/IMAGE.md, docs/MACHINE.md, docs/ASSEMBLY.md, docs/LOOPS.md and the header, with
 * nothing of the library's. Of the verifier they have rules 1 to 4 alone. */
#include <stddef.h>
#include <stdint.h>

enum { METHODS = 32, DATA = 65536, XATTRS = 32, KEYS = 1024, NAME = 64, VALUE = 4096, CAPACITY = 65535, STACK = 512, LAYOUTS = 12, LISTED = 1 << 22,
	INTERVALS = 1025, SLOTS = 4096, BUDGET = 1048576, HELPER = 64 };

struct slice { const uint8_t *at; size_t len; };

/* An input is a call as tools/embed.py writes it, each field four bytes of length and its bytes, and what a host chooses beside
 * it. What an input lacks is zero. */
enum { IMAGE, METHOD, OBJECT, CALLER, INPUT, CHOICES, FIELDS };
struct cut_input { struct slice fields[FIELDS]; };
struct cut_input cut_input(struct slice from);

/* In rule set 3 what it declares of its loops has so many bytes behind its code: a budget, 0 if it declares none, and heads. */
struct method {
	struct slice name;
	unsigned flags, in_cap, out_cap, slots, budget;
	const uint8_t *code;
	size_t loops;
	uint8_t is_head[SLOTS];
};
struct class_of { unsigned rules, count; struct method methods[METHODS]; };
struct entry { struct slice name, value; };
struct part { size_t count; struct entry at[KEYS]; };
struct object { int is_there; size_t len; uint8_t data[DATA]; struct part parts[2]; }; /* xattrs, keys */
/* its edits as they are written, if they are not too many for the model; how many helpers it called, and names it removed */
struct outcome {
	int64_t code;
	uint64_t steps;
	size_t len;
	uint8_t output[CAPACITY];
	int is_listed;
	struct slice edits;
	unsigned calls, removals;
};
/* a refusal as the library tells it; number 0 is none */
struct where { uint32_t number; uint64_t method; int64_t slot; };

int same(struct slice a, struct slice b);
/* By their bytes, and then by their lengths: below 0, 0 or above. */
int order(struct slice a, struct slice b);
size_t number_at(const uint8_t *p, int n);

/* Tells libFuzzer from now on which code of the library is run (fuzz_blocks.c). */
void find_blocks(void);

/* Reads an image, as far as it is one: why it is none. */
struct where read_class(struct slice image, struct class_of *to);
const struct method *method_named(const struct class_of *c, struct slice name);
/* How many instructions a method has. */
unsigned instructions(const struct method *m);
/* The parts that its code needs, by the helpers in it. */
int needs_of(const struct method *m);
/* The first of a class that one of the rules 1 to 4 refuses; by the verdict on loops a jump back to a head is none of these. */
struct where plain_rules(const struct class_of *c, int by_loops);
/* Whether a slot is a jump back to a head. */
int goes_to_head(const struct method *m, int64_t at);
int is_wide(const uint8_t *slot);
int is_arithmetic(unsigned opcode);
int is_comparison(unsigned opcode);
/* Where a jump goes to, in slots from the method's first; the slot itself where it is none. */
int64_t target_of(const uint8_t *slot, int64_t at);

/* Reads a flat form: whether it is one. Names and values lie in it. */
int read_flat(struct slice form, struct object *to);
/* Writes it without the parts that aren't needed, and gives its length. */
size_t write_flat(const struct object *o, int needs, uint8_t *to);
void copy_object(struct object *to, const struct object *from);
int same_object(const struct object *a, const struct object *b);
/* An entry of that name, or the place where it would stand. */
struct entry *find_entry(struct part *p, struct slice name, int *is_there);
/* Sets an entry, if there are fewer than most, or one of that name; removes one. Whether it did. */
int set_entry(struct part *p, size_t most, struct entry with);
int unset_entry(struct part *p, struct slice name);
void resize_data(struct object *o, size_t len);
void clear_object(struct object *o, int is_there);
/* Makes edits: whether they are edits, and each can be made. Names and values lie in them. */
int make_edits(struct object *o, struct slice edits);

/* Runs a method on an object, in one of so many layouts, by a budget if that isn't 0. NULL; or why the run is stuck, so that the
 * method isn't safe. */
const char *run_method(const struct method *m, struct object *o, uint32_t caller, struct slice input, unsigned budget, unsigned layout,
	struct outcome *to);

/* Whether bytes are a part; which has all xattrs if `counted` has 1, and all keys if it has 2. */
int is_part(struct slice bytes, int counted);
/* What a host knows of an object: blocks, and intervals of xattrs and keys, in order and apart; `high` of length 0 is the end. */
struct interval { uint8_t low[NAME + 2], high[NAME + 2]; size_t low_len, high_len; };
struct known { uint8_t blocks[256]; size_t count[2]; struct interval intervals[2][INTERVALS]; };
void learn_names(struct known *k, int kind, struct slice low, struct slice high);
/* Fetches what a need names: whether it is a need, of what the object has and wasn't known. */
int learn(struct known *k, const struct object *o, struct slice need);
/* Writes the part that says what is known, and gives its length. */
size_t write_part(const struct object *o, const struct known *k, uint8_t *to);
