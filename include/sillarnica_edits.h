/*
 * The loop over the edits of an answer, for hosts to copy. Include <sillarnica.h> first or not; nothing is needed of it.
 *
 *     struct sillarnica_edit edit;
 *     const uint8_t *at = out + answer.output_len, *end = at + answer.edits_len;
 *     while (sillarnica_next_edit(&at, end, &edit))
 *         switch (edit.kind) { .. }
 */
#ifndef SILLARNICA_EDITS_H
#define SILLARNICA_EDITS_H

#include <stddef.h>
#include <stdint.h>

enum sillarnica_edit_kind {
	SILLARNICA_CREATE = 1,
	SILLARNICA_REMOVE = 2,
	SILLARNICA_SET_XATTR = 3,
	SILLARNICA_RM_XATTR = 4,
	SILLARNICA_SET_KEY = 5,
	SILLARNICA_RM_KEY = 6,
	SILLARNICA_LENGTH = 7,
	SILLARNICA_WRITE = 8
};

/* name: of 3 to 6. text: the value of 3 and 5, the bytes of 8. number: the length of 7, the place of 8. */
struct sillarnica_edit {
	int kind;
	const uint8_t *name, *text;
	size_t name_len, text_len;
	uint64_t number;
};

static inline uint64_t sillarnica_number(const uint8_t *at, int width)
{
	uint64_t number = 0;
	while (width--)
		number = number << 8 | at[width];
	return number;
}

/* The bytes after their count of `width` bytes, or 0 if they pass the end. */
static inline int sillarnica_text(const uint8_t **at, const uint8_t *end, int width, const uint8_t **text, size_t *len)
{
	if (end - *at < width)
		return 0;
	*len = (size_t)sillarnica_number(*at, width);
	*text = *at + width;
	if ((size_t)(end - *text) < *len)
		return 0;
	*at = *text + *len;
	return 1;
}

/* The next edit, after which `at` stands behind it; 0 at the end, or at what isn't one (the library writes none). */
static inline int sillarnica_next_edit(const uint8_t **at, const uint8_t *end, struct sillarnica_edit *edit)
{
	edit->name = edit->text = NULL;
	edit->name_len = edit->text_len = 0;
	edit->number = 0;
	if (*at == end)
		return 0;
	edit->kind = *(*at)++;
	switch (edit->kind) {
	case SILLARNICA_CREATE:
	case SILLARNICA_REMOVE:
		return 1;
	case SILLARNICA_SET_XATTR:
	case SILLARNICA_SET_KEY:
		return sillarnica_text(at, end, 2, &edit->name, &edit->name_len) && sillarnica_text(at, end, 2, &edit->text, &edit->text_len);
	case SILLARNICA_RM_XATTR:
	case SILLARNICA_RM_KEY:
		return sillarnica_text(at, end, 2, &edit->name, &edit->name_len);
	case SILLARNICA_LENGTH:
	case SILLARNICA_WRITE:
		if (end - *at < 8)
			return 0;
		edit->number = sillarnica_number(*at, 8);
		*at += 8;
		return edit->kind == SILLARNICA_LENGTH || sillarnica_text(at, end, 4, &edit->text, &edit->text_len);
	default:
		return 0;
	}
}

#endif
