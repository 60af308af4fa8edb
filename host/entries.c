/*
 * entries: calls each function of lxtr.h on a dictionary of two words, n (value 0) and na (value 1), and then on the same image
 * with one child changed in the children lists. Every lookup still succeeds. Only lxtr_check, lxtr_fault, lxtr_highest,
 * lxtr_complete, lxtr_romaji_type and lxtr_romaji_finish notice the fault.
 *
 *     entries
 */
#include <inttypes.h>
#include <stdio.h>
#include <string.h>

#include "lxtr.h"

static const uint8_t keys[] = { 1, 0, 0, 0, 2, 1, 0, 0, 0, 'n', 2, 0, 0, 0, 'n', 0, 0, 0, 'a' };
static const uint8_t text[] = { 0, 0, 0, 'n', 0, 0, 0, 'a', 0, 0, 0, 'n' };

/* n and then a label that the image does not list; and a text of one label more than a key may have. */
static const uint8_t text_x[] = { 0, 0, 0, 'n', 0, 0, 0, 'x' };
static const uint8_t long_text[4 * (LXTR_MAX_LABELS + 1)];

/* The kana table: one label for n, one for na. */
static const uint8_t kana[] = { 1, 0, 0, 0x30, 0x93, 1, 0, 0, 0x30, 0x6A };
static const uint8_t typed[] = { 'n', 'a', 'n' };

/* The lengths in bytes of the front parts n and na of the text. */
enum { N = 4, NA = 8 };

/* 7 slots, 4 children, a code map of 13 bytes. Before child 2 are 24 bytes of header, 7 slots, 8 offsets and two children. */
enum { IMAGE_BYTES = 141, CHILD_2 = 24 + 8 * 7 + 4 * 8 + 4 * 2 };

static void show(const char *what, uint64_t answer)
{
	printf("%-16s refusal %u, more %d, value %d, number %" PRIu32 "\n", what, lxtr_refusal(answer), lxtr_more(answer),
	       lxtr_has_value(answer), lxtr_number(answer));
}

static void show_fault(uint64_t answer)
{
	printf("%-16s refusal %u, kind %u, number %" PRIu32 "\n", "fault", lxtr_refusal(answer), lxtr_fault_kind(answer),
	       lxtr_number(answer));
}

static void show_why(const char *what, uint64_t answer)
{
	printf("%-16s refusal %u, reason %u, place %" PRIu32 "\n", what, lxtr_refusal(answer), lxtr_why_reason(answer),
	       lxtr_number(answer));
}

static void show_bytes(const uint8_t *bytes, size_t length)
{
	for (size_t i = 0; i < length; i++)
		printf(" %02X", bytes[i]);
	printf("\n");
}

static void show_typing(const uint8_t *image, size_t length)
{
	uint8_t state[LXTR_ROMAJI_STATE_BYTES] = { 0 };
	uint8_t room[8];

	memset(room, 0xEE, sizeof room);
	show("type nan", lxtr_romaji_type(image, length, kana, sizeof kana, state, sizeof state, typed, sizeof typed, room, 8));
	printf("room            ");
	show_bytes(room, sizeof room);
	printf("state           ");
	show_bytes(state, 4);
	show("type nan in 7", lxtr_romaji_type(image, length, kana, sizeof kana, state, sizeof state, typed, sizeof typed, room, 7));
	show("type, kana cut", lxtr_romaji_type(image, length, kana, sizeof kana - 1, state, sizeof state, typed, 1, room, 8));
	show("finish", lxtr_romaji_finish(image, length, kana, sizeof kana, state, sizeof state, room, sizeof room));
	printf("room            ");
	show_bytes(room, sizeof room);
	printf("state           ");
	show_bytes(state, 4);
}

static void show_reasons(const uint8_t *image, size_t length)
{
	show_why("why na", lxtr_why(image, length, text, NA));
	show_why("why nx", lxtr_why(image, length, text_x, sizeof text_x));
	show_why("why nan", lxtr_why(image, length, text, sizeof text));
	show_why("why (empty)", lxtr_why(image, length, NULL, 0));
	show_why("why, too long", lxtr_why(image, length, long_text, sizeof long_text));
	show_why("why, cut", lxtr_why(image, length, text, sizeof text - 1));
}

/* Key presses: < takes the last label back. */
static void show_positions(const uint8_t *image, size_t length)
{
	char what[] = "press .";
	uint64_t position = lxtr_position_fresh();

	for (const char *key = "nax<<<<"; *key != '\0'; key++) {
		if (*key == '<')
			position = lxtr_position_back(image, length, position);
		else
			position = lxtr_position_push(image, length, position, (uint32_t)*key);
		what[sizeof what - 2] = *key;
		show(what, lxtr_position_probe(image, length, position));
	}
}

static void show_answers(const uint8_t *image, size_t length)
{
	uint32_t places[5] = { 7, 7, 7, 7, 7 };
	uint8_t room[29];

	show("check", lxtr_check(image, length));
	show_fault(lxtr_fault(image, length));
	show("highest", lxtr_highest(image, length));
	show("exact na", lxtr_exact(image, length, text, NA));
	show("exact (empty)", lxtr_exact(image, length, NULL, 0));
	show("probe n", lxtr_probe(image, length, text, N));
	show("probe na", lxtr_probe(image, length, text, NA));
	show("probe (empty)", lxtr_probe(image, length, NULL, 0));
	show("probe nan", lxtr_probe(image, length, text, sizeof text));
	show_reasons(image, length);
	show_positions(image, length);
	show("longest nan", lxtr_longest(image, length, text, sizeof text));
	show("longest, cut", lxtr_longest(image, length, text, sizeof text - 1));
	show("prefixes nan", lxtr_prefixes(image, length, text, sizeof text, places, 5));
	printf("places           %" PRIu32 " %" PRIu32 " %" PRIu32 " %" PRIu32 " %" PRIu32 "\n", places[0], places[1], places[2],
	       places[3], places[4]);
	memset(room, 0xEE, sizeof room);
	show("complete", lxtr_complete(image, length, NULL, 0, room, sizeof room));
	printf("room            ");
	show_bytes(room, sizeof room);
	show("complete in 20", lxtr_complete(image, length, NULL, 0, room, 20));
	show("complete in 4", lxtr_complete(image, length, text, N, room, 4));
	show_typing(image, length);
}

int main(void)
{
	uint32_t work[14];
	uint8_t image[IMAGE_BYTES];

	show("build, work 12", lxtr_build(keys, sizeof keys, work, 12, image, sizeof image));
	show("build, out 140", lxtr_build(keys, sizeof keys, work, 14, image, sizeof image - 1));
	show("build", lxtr_build(keys, sizeof keys, work, 14, image, sizeof image));
	show_answers(image, sizeof image);
	printf("\nchild 2 is slot %d, now 4\n", image[CHILD_2]);
	image[CHILD_2] = 4;
	show_answers(image, sizeof image);
	printf("\n");
	show("check, no bytes", lxtr_check(NULL, 0));
	show("build, nothing", lxtr_build(NULL, 0, NULL, 0, NULL, 0));
	return 0;
}
