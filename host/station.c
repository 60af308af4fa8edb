/*
 * station: a small programming station. It builds the image of a key list, checks it, and writes it to a file.
 *
 *     station KEYS IMAGE
 *
 * The file is written only if nothing is refused.
 */
#include <errno.h>
#include <inttypes.h>
#include <string.h>

#include "files.h"
#include "lxtr.h"

/* The longest key list has 32,768 keys of 64 labels. With room for one byte more, a longer file is refused. */
static uint8_t keys[5 + LXTR_MAX_KEYS * (1 + 4 * LXTR_MAX_LABELS) + 1];
static uint32_t work[LXTR_MAX_WORK_WORDS];
static uint8_t image[LXTR_MAX_IMAGE_BYTES];

static int failed(const char *name)
{
	fprintf(stderr, "station: %s: %s\n", name, strerror(errno));
	return 2;
}

int main(int argc, char **argv)
{
	if (argc != 3) {
		fprintf(stderr, "usage: station KEYS IMAGE\n");
		return 2;
	}
	long length = read_file(argv[1], keys, sizeof keys);
	if (length < 0)
		return failed(argv[1]);
	uint64_t built = lxtr_build(keys, (size_t)length, work, LXTR_MAX_WORK_WORDS, image, sizeof image);
	if (lxtr_refusal(built) != 0) {
		printf("keys: refused %u\n", lxtr_refusal(built));
		return 1;
	}
	uint64_t checked = lxtr_check(image, lxtr_number(built));
	if (lxtr_refusal(checked) != 0) {
		printf("image: refused %u\n", lxtr_refusal(checked));
		return 1;
	}
	if (write_file(argv[2], image, lxtr_number(built)) != 0)
		return failed(argv[2]);
	printf("image: %" PRIu32 " keys, %" PRIu32 " bytes\n", lxtr_number(checked), lxtr_number(built));
	return 0;
}
