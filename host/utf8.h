/*
 * utf8.h: from text to labels and back, for the host programs. A query has four bytes for each label, the highest byte first.
 */
#ifndef UTF8_H
#define UTF8_H

#include <stddef.h>
#include <stdint.h>
#include <stdio.h>

static inline void put_label(uint8_t *at, uint32_t label)
{
	at[0] = (uint8_t)(label >> 24);
	at[1] = (uint8_t)(label >> 16);
	at[2] = (uint8_t)(label >> 8);
	at[3] = (uint8_t)label;
}

static inline uint32_t label_at(const uint8_t *at)
{
	return (uint32_t)at[0] << 24 | (uint32_t)at[1] << 16 | (uint32_t)at[2] << 8 | at[3];
}

/* Reads one UTF-8 character into *label. Returns its length in bytes, or 0 if it is not well formed. */
static inline size_t read_character(const char *text, uint32_t *label)
{
	static const uint32_t least[] = { 0, 0, 0x80, 0x800, 0x10000 };
	const unsigned char *s = (const unsigned char *)text;
	size_t length = s[0] < 0x80 ? 1 : s[0] < 0xC0 ? 0 : s[0] < 0xE0 ? 2 : s[0] < 0xF0 ? 3 : s[0] < 0xF8 ? 4 : 0;

	if (length == 0)
		return 0;
	*label = length == 1 ? s[0] : s[0] & (0x7Fu >> length);
	for (size_t i = 1; i < length; i++) {
		if ((s[i] & 0xC0) != 0x80)
			return 0;
		*label = *label << 6 | (s[i] & 0x3F);
	}
	if (*label < least[length] || *label > 0x10FFFF || (*label >= 0xD800 && *label <= 0xDFFF))
		return 0;
	return length;
}

/* Writes a scalar value as UTF-8. */
static inline void write_character(uint32_t label, FILE *file)
{
	static const uint32_t first[] = { 0, 0xC0, 0xE0, 0xF0 };
	int more = label < 0x80 ? 0 : label < 0x800 ? 1 : label < 0x10000 ? 2 : 3;

	putc((int)(first[more] | label >> 6 * more), file);
	while (more-- > 0)
		putc((int)(0x80 | (label >> 6 * more & 0x3F)), file);
}

#endif
