/*
 * terminal: a small host program of a terminal. It loads an image, types a text label by label, and shows what is known after each
 * key press. At the end it shows why the text is not a key, unless it is one or nothing was typed, and the completions. In the text,
 * < takes the last label back.
 *
 *     terminal IMAGE TEXT
 */
#include <errno.h>
#include <inttypes.h>
#include <string.h>

#include "files.h"
#include "lxtr.h"
#include "utf8.h"

/* One byte more than the largest image: a longer file then has a wrong length and is refused. */
static uint8_t image[LXTR_MAX_IMAGE_BYTES + 1];
static uint8_t room[65536];

static int refused(const char *what, uint64_t answer)
{
	printf("%s: refused %u\n", what, lxtr_refusal(answer));
	return 1;
}

static void write_labels(const uint8_t *query, size_t labels)
{
	for (size_t i = 0; i < labels; i++)
		write_character(label_at(query + 4 * i), stdout);
}

/* The labels typed so far: as a position, which answers each key press, and as a query, for what is shown at the end. */
struct typed {
	uint64_t position;
	uint8_t query[4 * LXTR_MAX_TYPED_LABELS];
	size_t length;
};

/* One key press. */
static void press(struct typed *typed, size_t image_length, uint32_t label)
{
	if (label == '<') {
		typed->position = lxtr_position_back(image, image_length, typed->position);
		if (typed->length > 0)
			typed->length -= 4;
		return;
	}
	/* A position counts no more labels than the query has room for, so both have the same labels. */
	typed->position = lxtr_position_push(image, image_length, typed->position, label);
	if (typed->length < sizeof typed->query) {
		put_label(typed->query + typed->length, label);
		typed->length += 4;
	}
}

/* Shows what is known about the labels typed so far. */
static void show_probe(const struct typed *typed, uint64_t answer)
{
	write_labels(typed->query, typed->length / 4);
	printf(": ");
	if (lxtr_has_value(answer))
		printf("value %" PRIu32 ", ", lxtr_number(answer));
	else
		printf("no key, ");
	printf("%s\n", lxtr_more(answer) ? "longer keys" : "no longer keys");
}

/* Shows why the labels typed are not a key; nothing if they are. */
static void show_why(const struct typed *typed, uint64_t answer)
{
	size_t place = lxtr_number(answer);

	switch (lxtr_why_reason(answer)) {
	case LXTR_WHY_LABEL_NOT_LISTED:
		printf("not found: no key has ");
		write_labels(typed->query + 4 * place, 1);
		break;
	case LXTR_WHY_NO_STEP:
		printf("not found: no key begins with ");
		write_labels(typed->query, place + 1);
		break;
	case LXTR_WHY_NO_KEY_ENDS:
		printf("not found: only longer keys begin with it");
		break;
	case LXTR_WHY_TOO_LONG:
		printf("not found: no key has more than %d labels", LXTR_MAX_LABELS);
		break;
	default:
		return;
	}
	printf("\n");
}

/* Shows the records that follow the first five bytes of the room. */
static void show_records(uint32_t count)
{
	const uint8_t *at = room + 5;
	while (count-- > 0) {
		size_t labels = *at++;
		printf("  ");
		write_labels(at, labels);
		at += 4 * labels;
		printf(" %" PRIu32 "\n", label_at(at));
		at += 4;
	}
}

int main(int argc, char **argv)
{
	if (argc != 3) {
		fprintf(stderr, "usage: terminal IMAGE TEXT\n");
		return 2;
	}
	long length = read_file(argv[1], image, sizeof image);
	if (length < 0) {
		fprintf(stderr, "terminal: %s: %s\n", argv[1], strerror(errno));
		return 2;
	}
	uint64_t checked = lxtr_check(image, (size_t)length);
	if (lxtr_refusal(checked) != 0)
		return refused("image", checked);
	printf("image: %" PRIu32 " keys\n", lxtr_number(checked));

	struct typed typed = { .position = lxtr_position_fresh() };
	for (const char *at = argv[2]; *at != '\0';) {
		uint32_t label;
		size_t bytes = read_character(at, &label);
		if (bytes == 0) {
			fprintf(stderr, "terminal: the text is not well-formed UTF-8\n");
			return 2;
		}
		at += bytes;
		press(&typed, (size_t)length, label);
		show_probe(&typed, lxtr_position_probe(image, (size_t)length, typed.position));
	}

	/* Nothing is refused here: the image was checked, and the query has whole labels. */
	if (typed.length > 0)
		show_why(&typed, lxtr_why(image, (size_t)length, typed.query, typed.length));
	uint64_t listed = lxtr_complete(image, (size_t)length, typed.query, typed.length, room, sizeof room);
	if (lxtr_refusal(listed) != 0)
		return refused("completions", listed);
	printf("completions: %" PRIu32 "%s\n", lxtr_number(listed), lxtr_more(listed) ? ", and more" : "");
	show_records(lxtr_number(listed));
	return 0;
}
