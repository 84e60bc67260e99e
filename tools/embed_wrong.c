/* The library with a mistake, the one that WRONG says: tools/embed.sh links it with tools/embed_large.c, which has to fail of
 * each. The calls below go through here (-Wl,--wrap). */
#include "sillarnica.h"
#include <string.h>

enum { FORMS = 1, EDITS, IMAGES, OPENS, CLOSED, BUDGETS, SPENT };

int32_t __real_sillarnica_verify(const uint8_t *, size_t, struct sillarnica_refusal *);
int32_t __wrap_sillarnica_verify(const uint8_t *, size_t, struct sillarnica_refusal *);
int32_t __real_sillarnica_call(const uint8_t *, size_t, const uint8_t *, size_t, const uint8_t *, size_t, uint64_t, const uint8_t *, size_t,
	struct sillarnica_refusal *, struct sillarnica_answer *, uint8_t *, size_t);
int32_t __wrap_sillarnica_call(const uint8_t *, size_t, const uint8_t *, size_t, const uint8_t *, size_t, uint64_t, const uint8_t *, size_t,
	struct sillarnica_refusal *, struct sillarnica_answer *, uint8_t *, size_t);
int32_t __real_sillarnica_verified_open(const uint8_t *, size_t, struct sillarnica_refusal *, struct sillarnica_verified *);
int32_t __wrap_sillarnica_verified_open(const uint8_t *, size_t, struct sillarnica_refusal *, struct sillarnica_verified *);
int32_t __real_sillarnica_loops_open(const uint8_t *, size_t, uint32_t, struct sillarnica_refusal *, struct sillarnica_verified *);
int32_t __wrap_sillarnica_loops_open(const uint8_t *, size_t, uint32_t, struct sillarnica_refusal *, struct sillarnica_verified *);
int32_t __real_sillarnica_verified_call(struct sillarnica_verified *, const uint8_t *, size_t, const uint8_t *, size_t, uint64_t, const uint8_t *,
	size_t, struct sillarnica_answer *, uint8_t *, size_t);
int32_t __wrap_sillarnica_verified_call(struct sillarnica_verified *, const uint8_t *, size_t, const uint8_t *, size_t, uint64_t, const uint8_t *,
	size_t, struct sillarnica_answer *, uint8_t *, size_t);
void __real_sillarnica_verified_close(struct sillarnica_verified *);
void __wrap_sillarnica_verified_close(struct sillarnica_verified *);

/* Images over 66,000 bytes are refused. */
static int is_long(size_t image_len, struct sillarnica_refusal *why) {
	if (WRONG != IMAGES || image_len <= 66000) return 0;
	why->kind = 1, why->number = 10, why->method = 0, why->slot = -1;
	return 1;
}

/* Edits over 80,000 bytes are refused. */
static int has_many(int32_t result, const struct sillarnica_answer *said) {
	return WRONG == EDITS && (result == 0 || result == -34) && said->edits_len > 80000;
}

/* A handle is open unless its number is 0. */
static void spoil(struct sillarnica_verified *verified) {
	if (WRONG == CLOSED && verified->is_open) verified->is_open = 1;
}

int32_t __wrap_sillarnica_verify(const uint8_t *image, size_t image_len, struct sillarnica_refusal *why) {
	return is_long(image_len, why) ? 1 : __real_sillarnica_verify(image, image_len, why);
}

int32_t __wrap_sillarnica_call(const uint8_t *image, size_t image_len, const uint8_t *method, size_t method_len,
	const uint8_t *object, size_t object_len, uint64_t caller, const uint8_t *input, size_t input_len,
	struct sillarnica_refusal *why, struct sillarnica_answer *said, uint8_t *out, size_t out_len) {
	struct sillarnica_answer found;
	if (is_long(image_len, why)) return 1;
	if (WRONG == FORMS && object_len > 100000) return -22;
	int32_t result = __real_sillarnica_call(image, image_len, method, method_len, object, object_len, caller, input, input_len, why, &found, out, 0);
	if (has_many(result, &found)) return -12;
	return __real_sillarnica_call(image, image_len, method, method_len, object, object_len, caller, input, input_len, why, said, out, out_len);
}

int32_t __wrap_sillarnica_verified_open(const uint8_t *image, size_t image_len, struct sillarnica_refusal *why,
	struct sillarnica_verified *verified) {
	/* what the memory held is closed first */
	if (WRONG == OPENS && verified->is_open == 1) __real_sillarnica_verified_close(verified);
	if (is_long(image_len, why)) return verified->held = NULL, verified->is_open = 0, 1;
	return __real_sillarnica_verified_open(image, image_len, why, verified);
}

/* A class is opened whatever budget the host gives. */
int32_t __wrap_sillarnica_loops_open(const uint8_t *image, size_t image_len, uint32_t budget, struct sillarnica_refusal *why,
	struct sillarnica_verified *verified) {
	if (WRONG == BUDGETS) budget = SILLARNICA_BUDGET_LIMIT;
	return __real_sillarnica_loops_open(image, image_len, budget, why, verified);
}

int32_t __wrap_sillarnica_verified_call(struct sillarnica_verified *verified, const uint8_t *method, size_t method_len,
	const uint8_t *object, size_t object_len, uint64_t caller, const uint8_t *input, size_t input_len,
	struct sillarnica_answer *said, uint8_t *out, size_t out_len) {
	struct sillarnica_answer found;
	spoil(verified);
	if (WRONG == FORMS && object_len > 100000) return -22;
	int32_t result = __real_sillarnica_verified_call(verified, method, method_len, object, object_len, caller, input, input_len, &found, out, 0);
	if (has_many(result, &found)) return -12;
	result = __real_sillarnica_verified_call(verified, method, method_len, object, object_len, caller, input, input_len, said, out, out_len);
	/* a spent call leaves an edit */
	if (WRONG == SPENT && result == 0 && said->code == -62 && out_len) out[0] = 1, said->edits_len = 1;
	return result;
}

void __wrap_sillarnica_verified_close(struct sillarnica_verified *verified) {
	spoil(verified);
	__real_sillarnica_verified_close(verified);
}
