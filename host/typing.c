/*
 * typing: a small host program of a terminal with a Latin keyboard. It builds the image of a romaji table, types a text byte by
 * byte, as keys are pressed, and finishes. After each byte it shows what went out and what waits.
 *
 *     typing TEXT
 */
#include "lxtr.h"
#include "utf8.h"

/* The romaji as a key list, in ascending order. */
static const uint8_t keys[] = {
	1, 0, 0, 0, 6,
	1, 0, 0, 0, 'a',
	2, 0, 0, 0, 'k', 0, 0, 0, 'a',
	3, 0, 0, 0, 'k', 0, 0, 0, 'k', 0, 0, 0, 'a',
	3, 0, 0, 0, 'k', 0, 0, 0, 'y', 0, 0, 0, 'a',
	1, 0, 0, 0, 'n',
	2, 0, 0, 0, 'n', 0, 0, 0, 'a',
};

/* The kana of each key, in the same order. */
static const uint8_t kana[] = {
	1, 0, 0, 0x30, 0x42,
	1, 0, 0, 0x30, 0x4B,
	2, 0, 0, 0x30, 0x63, 0, 0, 0x30, 0x4B,
	2, 0, 0, 0x30, 0x4D, 0, 0, 0x30, 0x83,
	1, 0, 0, 0x30, 0x93,
	1, 0, 0, 0x30, 0x6A,
};

/* A first guess is 2 * (2 + 6 keys + 12 labels) words of work. An image built with them lists 4 labels: a, k, n and y. */
enum { WORK_WORDS = 2 * (2 + 6 + 12), IMAGE_BYTES = 25 + 8 * WORK_WORDS + 4 * 4 };

static uint32_t work[WORK_WORDS];
static uint8_t image[IMAGE_BYTES];

/* Nothing waits at first. No text of the table has more than two labels, so there is room for all that waits and one byte more. */
static uint8_t state[LXTR_ROMAJI_STATE_BYTES];
static uint8_t room[4 * 2 * LXTR_ROMAJI_STATE_BYTES];

static int refused(const char *what, uint64_t answer)
{
	printf("%s: refused %u\n", what, lxtr_refusal(answer));
	return 1;
}

/* Shows the labels that went out, and what waits. */
static void show(uint32_t labels)
{
	if (labels > 0)
		printf(" out ");
	for (uint32_t i = 0; i < labels; i++)
		write_character(label_at(room + 4 * i), stdout);
	if (state[0] > 0)
		printf("%s waits %.*s", labels > 0 ? "," : "", state[0], (const char *)state + 1);
	if (labels == 0 && state[0] == 0)
		printf(" nothing");
	printf("\n");
}

int main(int argc, char **argv)
{
	if (argc != 2) {
		fprintf(stderr, "usage: typing TEXT\n");
		return 2;
	}
	uint64_t built = lxtr_build(keys, sizeof keys, work, WORK_WORDS, image, sizeof image);
	if (lxtr_refusal(built) != 0)
		return refused("keys", built);
	size_t length = lxtr_number(built);

	for (const char *at = argv[1]; *at != '\0'; at++) {
		uint8_t byte = (uint8_t)*at;
		uint64_t out = lxtr_romaji_type(image, length, kana, sizeof kana, state, sizeof state, &byte, 1, room, sizeof room);
		if (lxtr_refusal(out) != 0)
			return refused("typing", out);
		write_character(byte, stdout);
		printf(":");
		show(lxtr_number(out));
	}
	uint64_t out = lxtr_romaji_finish(image, length, kana, sizeof kana, state, sizeof state, room, sizeof room);
	if (lxtr_refusal(out) != 0)
		return refused("finishing", out);
	printf("finish:");
	show(lxtr_number(out));
	return 0;
}
