/*
 * lxtr.h: LXTR images, version 3, for programs in C (C99 or later) and C++.
 *
 * An LXTR image is one block of bytes that holds a dictionary: a set of keys, each with a value number. It is a double-array
 * trie. lxtr_build makes it, and the other functions read it in place. Link with liblxtr_c.a, which is for x86-64 Linux and
 * needs only memcpy and memset.
 *
 * TERMS
 *
 * label      a Unicode scalar value: 0 to 0x10FFFF without 0xD800 to 0xDFFF. Keys of bytes use the labels 0 to 255.
 * key        0 to 64 labels. The empty key is a key.
 * value      a number below 2^31 that belongs to a key. lxtr_build numbers the keys from 0 in the order of the key list; an
 *            image from another builder may have other values.
 * query      labels as bytes, four to a label, the highest byte first: U+306A is 00 00 30 6A. Its length counts bytes. A number
 *            that the image does not list as a label matches nothing.
 * code       an image lists the labels of its keys; the code of a label is its place in that list, counted from 1. lxtr_build
 *            sorts the labels by how often each occurs in all keys, the most frequent first, and labels that occur equally
 *            often by their number, smallest first. A label that occurs twice in a key counts twice. An image from another
 *            builder may list its labels in another order.
 * code order compares keys label by label, by the codes; a key comes before longer keys that begin with it. It is not
 *            dictionary order.
 *
 * GUARANTEES OF EVERY FUNCTION
 *
 * - It takes any bytes: a damaged image, a query that is cut short, an empty key list, no room. It never reads or writes outside
 *   the memory that it is passed. It always returns. The same input always gives the same answer.
 * - Memory is passed as a pointer and a length: bytes for uint8_t, words for uint32_t. A pointer may be null if its length is 0.
 *   Bytes need no alignment.
 * - Lent memory is memory that a function writes: places, first, room, state, work, out. It must not overlap anything else that is
 *   passed in the same call. Memory that is only read may overlap.
 * - It keeps no pointer after it returns, allocates nothing and has no state of its own, so any number of threads may call it.
 * - Stack, measured on x86-64: at most about 500 KB for lxtr_build, 33 KB for lxtr_fault, 22 KB for lxtr_romaji_type and
 *   lxtr_romaji_finish, 17 KB for lxtr_check, lxtr_highest, lxtr_complete and lxtr_entries_check, 1 KB for the others.
 *
 * WHAT AN ANSWER MEANS
 *
 * Each function answers one number:
 *
 *     refusal * 2^40  +  2^33 if there is more  +  2^32 if there is a value  +  a value, a count or a length
 *
 * Take it apart with lxtr_refusal, lxtr_more, lxtr_has_value and lxtr_number below. A part that a function does not use is 0. If
 * the refusal is 0, nothing was refused. If not, it is a value of enum lxtr_reason, all other parts are 0, and lent memory is
 * unchanged (but lxtr_build clears its work: see there). If several refusals hold, the answer is the first of them, in the order
 * given at the function. Two functions have another part. lxtr_fault gives a kind and a number along with a refusal, and answers 0
 * for an image that lxtr_check refuses with 1 to 8. lxtr_why, if nothing is refused, gives a value of enum lxtr_query_reason, and a
 * place as the number. lxtr_position_fresh, lxtr_position_push and lxtr_position_back answer a typing position instead, which is
 * not taken apart.
 *
 * LAYOUT OF AN IMAGE; only needed to understand a refusal
 *
 * Header, 24 bytes: "LXTR", a version byte 3, three zeros, N, E and M in four bytes each, four zeros. Then N slots of two words,
 * base and check; N + 1 offsets; E children; M bytes of code map. The code map is a version byte 1, the number L of labels in
 * four bytes, and L labels of four bytes each. Numbers have their lowest byte first, but in the code map their highest.
 *
 * Slot 1 stands for the empty prefix, every other used slot for a longer prefix of a key or for the end of a key. The check word
 * of a slot holds its parent, the slot one step shorter; the top bit of check says whether a key ends there. The base word holds a
 * number: base XOR a label's code is the child's slot, and base XOR 0 is the slot of the end. The base word of an end holds the
 * value, with the top bit set. A slot from 2 up whose parent is 0 is unused. The children of slot p are the entries from offset p
 * up to, but not including, offset p + 1, by ascending code.
 */
#ifndef LXTR_H
#define LXTR_H

#include <stddef.h>
#include <stdint.h>

#ifdef __cplusplus
extern "C" {
#endif

/*
 * The largest number of labels in a key, of keys in a key list (no more than 32,767 can fit in an image), and of labels that an
 * image lists.
 */
#define LXTR_MAX_LABELS 64
#define LXTR_MAX_KEYS 32768
#define LXTR_MAX_LISTED_LABELS 4095

/* The largest number of labels that a typing position counts. */
#define LXTR_MAX_TYPED_LABELS 255

/* The number of words that lxtr_prefixes writes: a length and a value for each possible length from 0 to 64. */
#define LXTR_PREFIX_WORDS (2 * (LXTR_MAX_LABELS + 1))

/* The least room for lxtr_complete, the least work for lxtr_build, and the work that allows all 65,536 slots. */
#define LXTR_MIN_ROOM_BYTES 5
#define LXTR_MIN_WORK_WORDS 4
#define LXTR_MAX_WORK_WORDS 131072

/* The size of the state of romaji typing: a byte with the number of bytes kept, and as many as can be kept. */
#define LXTR_ROMAJI_STATE_BYTES LXTR_MAX_LABELS

/* The size of an entry of an entry table. */
#define LXTR_ENTRY_BYTES 8

/* The size of the largest image. */
#define LXTR_MAX_IMAGE_BYTES 1064981

/* Why something is refused. N, E, M and L are those of the layout above. */
enum lxtr_reason {
	LXTR_NOT_REFUSED = 0,

	/* of an image, in this order, by every function that takes one except lxtr_fault, lxtr_position_push and lxtr_position_back */
	LXTR_IMAGE_TOO_SHORT = 1,      /* fewer than 24 bytes */
	LXTR_NOT_LXTR = 2,             /* the first four bytes are not "LXTR" */
	LXTR_WRONG_VERSION = 3,        /* the version is not 3 */
	LXTR_RESERVED_SET = 4,         /* one of the header's seven zeros is not 0 */
	LXTR_WRONG_SIZES = 5,          /* N is outside 2 to 65,536, or E is above N - 2 */
	LXTR_WRONG_IMAGE_LENGTH = 6,   /* the image is not exactly 24 + 8 N + 4 (N + 1) + 4 E + M bytes long */
	LXTR_WRONG_MAP = 7,            /* M is below 5, the version of the code map is not 1, L is above 4,095, or M is not 5 + 4 L */
	LXTR_WRONG_OFFSET_ENDS = 8,    /* the first offset is not 0, or the last is not E */

	/*
	 * of an image, in this order, by every function that takes one except lxtr_exact, lxtr_probe, lxtr_why, lxtr_longest,
	 * lxtr_prefixes, lxtr_entries and those for typing positions
	 */
	LXTR_WRONG_LABELS = 9,         /* a listed label is not a scalar value, or is listed twice */
	LXTR_WRONG_SLOTS = 10,         /* a slot does not fit its parent or its end, or is unused and not zero; all searches read slots */
	LXTR_WRONG_LISTS = 11,         /* a children list does not fit the slots; lxtr_complete reads lists, the two probes their lengths */
	LXTR_UNREACHABLE = 12,         /* a used slot does not reach slot 1 in 65 or fewer steps to the parent */

	/* of a query, and of the room of lxtr_complete */
	LXTR_WRONG_QUERY_LENGTH = 13,  /* the length of the query is not a multiple of four */
	LXTR_ROOM_TOO_SMALL = 14,      /* the room has fewer than 5 bytes */

	/* of lxtr_build */
	LXTR_LIST_MALFORMED = 15,      /* the key list is cut short, has bytes left over, or its version is not 1 */
	LXTR_TOO_MANY_KEYS = 16,       /* the key list says that it has more than 32,768 keys */
	LXTR_KEY_TOO_LONG = 17,        /* a key has more than 64 labels */
	LXTR_NOT_SCALAR = 18,          /* a label is not a Unicode scalar value */
	LXTR_KEYS_NOT_ASCENDING = 19,  /* a key is not above the key before it */
	LXTR_TOO_MANY_LABELS = 20,     /* more than 4,095 different labels */
	LXTR_WORK_TOO_SMALL = 21,      /* fewer than 4 words of work */
	LXTR_TOO_FEW_SLOTS = 22,       /* no base fits some slot: lend more work; more than LXTR_MAX_WORK_WORDS does not help */
	LXTR_OUT_TOO_SMALL = 23,       /* the image is longer than out */

	/* of lxtr_romaji_type and lxtr_romaji_finish, after those of an image, in this order */
	LXTR_TABLE_TOO_SHORT = 24,     /* the kana table ends before the text of some value of the image is whole */
	LXTR_EMPTY_KEY = 25,           /* the image has the empty key */
	LXTR_NO_ROOM = 29,             /* the room is too small for what goes out */

	/* of lxtr_entries_check and lxtr_entries, after those of image and query; the functions say what is tested, and in which order */
	LXTR_TABLE_MALFORMED = 26,     /* version, length or offsets of the entry table are wrong */
	LXTR_VALUE_BEYOND = 27         /* a value is not below the number of values that the entry table has lists for */
};

/* The kinds of fault of refusal 11, LXTR_WRONG_LISTS, that lxtr_fault tells apart. */
enum lxtr_list_fault {
	LXTR_OFFSET_FALLS = 1,         /* the list of this slot ends before it begins */
	LXTR_WRONG_ENTRY = 2,          /* this entry is not a child of the slot whose list it is in, or its code does not rise */
	LXTR_UNLISTED_SLOT = 3,        /* this used slot is in no list */
	LXTR_CHILDLESS_SLOT = 4,       /* this used slot is not the end of a key, and has no child */
	LXTR_ROOT_BASE = 5             /* slot 1 has no child, and its base is not 0 */
};

/* Why a query is or is not a key, as lxtr_why tells it. */
enum lxtr_query_reason {
	LXTR_WHY_FOUND = 1,            /* lxtr_exact answers a value */
	LXTR_WHY_LABEL_NOT_LISTED = 2, /* the image does not list the query's label at this place */
	LXTR_WHY_NO_STEP = 3,          /* the image lists the query's label at this place, but the lookup has no step by it */
	LXTR_WHY_NO_KEY_ENDS = 4,      /* the lookup has a step by each label, but no key ends after the last */
	LXTR_WHY_TOO_LONG = 5          /* the query has more than LXTR_MAX_LABELS labels */
};

/* The parts of an answer: the refusal, or 0 for none; whether there is more; whether there is a value; the number. */
static inline unsigned lxtr_refusal(uint64_t answer)
{
	return (unsigned)(answer >> 40);
}

static inline int lxtr_more(uint64_t answer)
{
	return (int)(answer >> 33 & 1);
}

static inline int lxtr_has_value(uint64_t answer)
{
	return (int)(answer >> 32 & 1);
}

static inline uint32_t lxtr_number(uint64_t answer)
{
	return (uint32_t)answer;
}

/* For an answer of lxtr_fault: a value of enum lxtr_list_fault, or 0. */
static inline unsigned lxtr_fault_kind(uint64_t answer)
{
	return (unsigned)(answer >> 34 & 7);
}

/* For an answer of lxtr_why: a value of enum lxtr_query_reason, or 0 after a refusal. */
static inline unsigned lxtr_why_reason(uint64_t answer)
{
	return (unsigned)(answer >> 34 & 7);
}

/*
 * Checks an image. The number is how many keys it has. Refusals: 1 to 12, in this order.
 *
 * Nothing is refused exactly when the bytes are an image of a set of keys and values. There is then exactly one such set, and
 * the other functions answer according to it. lxtr_exact, lxtr_probe, lxtr_why, lxtr_longest, lxtr_prefixes, lxtr_entries and the
 * functions for typing positions do not test 9 to 12. On an image with such a fault they still answer, but the answer may be wrong.
 * So check an image once before you trust its answers. That a word was found says nothing about the rest of the image.
 */
uint64_t lxtr_check(const uint8_t *image, size_t image_length);

/*
 * Tells where the fault lies in an image that lxtr_check refuses with 9 to 12: the first place at which that rule is broken.
 * Refusals: 9 to 12, in this order. The answer is 0 if lxtr_check refuses nothing, and also if it refuses with 1 to 8.
 *
 *     refusal * 2^40  +  kind * 2^34  +  number
 *
 * The number is counted from 0. For 9 it is the place of a label in the code map, for 10 and 12 a slot. For 11 it is a slot, but
 * for LXTR_WRONG_ENTRY a place among the E children. lxtr_fault_kind gives the kind. The kinds of 11 are tested in the order of
 * the enum, each only if no earlier one is found.
 */
uint64_t lxtr_fault(const uint8_t *image, size_t image_length);

/*
 * Finds the highest value of an image's keys: whether there is one, and the value as the number. Only an image without keys has
 * none. A table that the host keeps beside the image, with an entry for each value from 0 (such as a kana table), is long enough
 * for every key if it has an entry for this value. An image from another builder may have values far above its number of keys.
 * Refusals: 1 to 12, in this order. Each call checks the whole image.
 */
uint64_t lxtr_highest(const uint8_t *image, size_t image_length);

/*
 * Looks up a key: whether it has a value, and the value as the number. A query of more than 64 labels has no value.
 * Refusals: 1 to 8, then 13.
 */
uint64_t lxtr_exact(const uint8_t *image, size_t image_length, const uint8_t *query, size_t query_length);

/*
 * Looks up a key as lxtr_exact does. "More" says whether longer keys begin with the query. Refusals: 1 to 8, then 13.
 *
 *     value   more   the query is
 *     no      no     neither a key nor the beginning of one, or refused
 *     no      yes    no key, but longer keys begin with it
 *     yes     no     a key, and no longer key begins with it
 *     yes     yes    a key, and longer keys begin with it
 */
uint64_t lxtr_probe(const uint8_t *image, size_t image_length, const uint8_t *query, size_t query_length);

/*
 * Tells why a query is not a key, so that a host can show more than that it was not found. Refusals: 1 to 8, then 13.
 *
 *     refusal * 2^40  +  reason * 2^34  +  place
 *
 * lxtr_why_reason gives the reason, and lxtr_number the place. LXTR_WHY_LABEL_NOT_LISTED and LXTR_WHY_NO_STEP have a place: that of
 * the first label at which the lookup stops, counted in labels from 0, so the label is at query + 4 * place. With the other reasons
 * the place is 0. After a refusal both are 0.
 *
 * The reason is LXTR_WHY_FOUND exactly when lxtr_exact answers a value. If nothing is refused, it is LXTR_WHY_TOO_LONG exactly when
 * the query has more than LXTR_MAX_LABELS labels. In an image that lxtr_check does not refuse, the other reasons mean:
 * - LXTR_WHY_LABEL_NOT_LISTED, LXTR_WHY_NO_STEP: some key begins with the labels before the place, if there are any, but none with
 *   these and the label at the place. If this label is not listed, no key has it anywhere.
 * - LXTR_WHY_NO_KEY_ENDS: the query is empty, or longer keys begin with it, but it is not a key.
 */
uint64_t lxtr_why(const uint8_t *image, size_t image_length, const uint8_t *query, size_t query_length);

/*
 * A typing position stands for the labels that were typed and not taken back. A terminal keeps it from one key press to the next, so
 * that it need not pass the whole text again: a push costs one step of a lookup, however long the text is.
 *
 * lxtr_position_fresh answers the position without labels. lxtr_position_push answers the position after one more label, passed as
 * a number such as 0x306A. Any number may be passed; one that the image does not list matches nothing. lxtr_position_back answers
 * the position after the last label is taken back; if there is no label, it answers the position that it was passed.
 * lxtr_position_probe answers what lxtr_probe answers for the labels of the position. Refusals: 1 to 8, in this order.
 *
 *     uint64_t position = lxtr_position_fresh();                                  // before the first key press
 *
 *     position = lxtr_position_push(image, image_length, position, label);        // when a label is typed
 *     position = lxtr_position_back(image, image_length, position);               // when the last label is taken back
 *     uint64_t answer = lxtr_position_probe(image, image_length, position);       // after either
 *
 * If no key begins with the labels typed, lxtr_position_probe answers neither a value nor "more". All labels count nevertheless:
 * taking the last one back always leads to the position before it. At most LXTR_MAX_TYPED_LABELS labels count. A push beyond that
 * changes nothing, so do not take its label back.
 *
 * What the bits of a position mean is not specified, but the same labels over the same image give the same position. If the image
 * is refused, lxtr_position_push and lxtr_position_back answer the position that they were passed, and lxtr_position_probe answers
 * the refusal; this holds for any number as a position. A fresh position can be used with every image, any other only with the
 * image over which it was made. With another image, or for a number that no call answered, the functions return and stay within
 * their memory, but what they answer is not specified.
 */
uint64_t lxtr_position_fresh(void);

uint64_t lxtr_position_push(const uint8_t *image, size_t image_length, uint64_t position, uint32_t label);

uint64_t lxtr_position_back(const uint8_t *image, size_t image_length, uint64_t position);

uint64_t lxtr_position_probe(const uint8_t *image, size_t image_length, uint64_t position);

/*
 * Finds the longest key with which the query begins. The number is its length in labels, so the key is the first 4 * number
 * bytes of the query. It is 0 if there is no such key, or only the empty key; lxtr_exact with an empty query tells these apart.
 * Only the query's first 64 labels count. Refusals: 1 to 8, then 13.
 */
uint64_t lxtr_longest(const uint8_t *image, size_t image_length, const uint8_t *query, size_t query_length);

/*
 * Finds all keys with which the query begins. The number is how many there are, at most 65. Only the query's first 64 labels
 * count. Refusals: 1 to 8, then 13.
 *
 * Afterwards places holds, for each key found, its length in labels and then its value, shortest key first, followed by zeros up
 * to LXTR_PREFIX_WORDS words. Words past those are unchanged. If places has fewer words, as many are written as it has; the
 * number is the same. places_length counts words.
 */
uint64_t lxtr_prefixes(const uint8_t *image, size_t image_length, const uint8_t *query, size_t query_length,
                       uint32_t *places, size_t places_length);

/*
 * Lists the keys that begin with a prefix, including the prefix itself if it is a key, in code order. The number is how many
 * records are in the room. "More" says that the listing stopped before a record for which there was no room; call again with more
 * room to get all of them. A prefix with which no key begins, or of more than 64 labels, has no records. Refusals: 1 to 8, 13, 9
 * to 12, 14, in this order. Each call checks the whole image, which takes up to a few milliseconds for the largest.
 *
 * Afterwards the room holds a version byte 1, the number of records in four bytes, and the records one after the other. A
 * record is a byte with the number of labels of the key, all labels of the key (those of the prefix too) in four bytes each, and
 * the value in four bytes. Numbers have their highest byte first. Bytes past the last record are unchanged.
 * A whole set needs 5 bytes of room, and for each key 5 bytes more plus 4 for each of its labels.
 */
uint64_t lxtr_complete(const uint8_t *image, size_t image_length, const uint8_t *prefix, size_t prefix_length,
                       uint8_t *room, size_t room_length);

/*
 * Checks an entry table together with the image that it belongs to. The number is how many entries the table has.
 *
 * An entry table holds a list of entries for each value of an image: for a reading, say, the goods that have it. An entry is eight
 * bytes, whose meaning is the host's. Numbers have their highest byte first. The table is, without gaps:
 *
 *     1 byte                a version byte 1
 *     4 bytes               V, the number of lists: one for each value from 0 to V - 1
 *     4 * (V + 1) bytes     offsets, numbered from 0
 *     8 bytes for each      entries, numbered from 0, up to the end of the table
 *
 * The list of value i is the entries from offset i up to, but not including, offset i + 1. Offsets count entries, not bytes. Offset
 * 0 is 0, no offset is below the one before it, and offset V is the number of entries. So the lists follow one another in the order
 * of their values. A list may be empty. A value that no key has, has a list too. With 2 entries for value 0, none for value 1 and 1
 * for value 2, the offsets are 0, 2, 2, 3.
 *
 * Refusals: 1 to 12, 26, 27, in this order. 26 if the table is too short for version and V or for its offsets, if its version is
 * not 1, if the bytes behind the offsets are not a whole number of entries, or if the offsets are not as above. 27 if some value of
 * the image is not below V. Each call checks the whole image, and reads the table once.
 *
 * Nothing is refused exactly when lxtr_check refuses nothing, the table has the form above, and it has a list for each value of the
 * image. Check a table once before you trust what lxtr_entries answers from it.
 */
uint64_t lxtr_entries_check(const uint8_t *image, size_t image_length, const uint8_t *table, size_t table_length);

/*
 * Looks up a key and finds the entries of its value: whether the query has a value, and as the number how many entries that value
 * has. A query without a value has no entries. lxtr_has_value tells it from one whose value has an empty list. The value itself is
 * not told; lxtr_exact answers it.
 *
 * Afterwards word 0 of first is the place of the first of these entries among all entries of the table, counted from 0; it is 0 if
 * there are none. The others follow it. Other words of first are unchanged, and a refusal leaves word 0 unchanged too. If first has
 * no word, the number is the same. first_length counts words. lxtr_entry_position below gives where an entry lies in the table:
 *
 *     uint32_t first;
 *     uint64_t found = lxtr_entries(image, image_length, query, query_length, table, table_length, &first, 1);
 *     if (lxtr_refusal(found) == 0)
 *         for (uint32_t i = 0; i < lxtr_number(found); i++)
 *             show(table + lxtr_entry_position(table, first + i));    // eight bytes
 *
 * Refusals, in this order: 1 to 8; 13; 26 if the table is too short for version and V or for its offsets, if its version is not 1,
 * or if the bytes behind the offsets are not a whole number of entries; 27 if the query has a value that is not below V; 26 if the
 * offsets of this value fall, or pass the number of entries. No other offset is tested, and for a query without a value none is. So
 * the entries found always lie in the table, but in a table that lxtr_entries_check refuses they may be the wrong ones.
 */
uint64_t lxtr_entries(const uint8_t *image, size_t image_length, const uint8_t *query, size_t query_length,
                      const uint8_t *table, size_t table_length, uint32_t *first, size_t first_length);

/*
 * The position in bytes at which an entry table has the entry of this place, counted from 0. The eight bytes of the entry are those
 * from table + position on. Only for a place that lxtr_entries told, or below the number of lxtr_entries_check: the table is not
 * tested here, and has to have its first five bytes.
 */
static inline size_t lxtr_entry_position(const uint8_t *table, uint32_t place)
{
	size_t values = (size_t)table[1] << 24 | (size_t)table[2] << 16 | (size_t)table[3] << 8 | table[4];

	return 5 + 4 * (values + 1) + LXTR_ENTRY_BYTES * (size_t)place;
}

/*
 * Turns romaji (Japanese typed in Latin letters) into kana, one key press or many bytes in a call. The keys of the image are the
 * romaji, such as ka, and each typed byte is the label of its number. The labels that go out are written to the room; the number
 * is how many they are, modulo 2^32. Refusals: 1 to 12, 24, 25, 29, in this order. Each call checks the whole image.
 *
 * The text is what the call before kept, followed by typed. From its front on, at each place:
 * - if all that is left of the text is the beginning of a longer key, it is kept, and nothing more goes out;
 * - if not, the longest key with which the rest of the text begins is taken, and the text that the kana table has for its value
 *   goes out;
 * - if there is no such key, one byte goes out, as the label of its number.
 * With n for U+3093 and na for U+306A, n is kept. If a comes next, U+306A goes out; if n comes next, U+3093 goes out, and the
 * second n is kept. A text may be typed in any number of calls: the same goes out, and the same is kept. A key with a label above
 * 255 cannot be typed, but its beginning is kept like any other.
 *
 * kana is the kana table of the image. It has a text for each value number from 0 to the highest of the image: a byte with the
 * number of labels, and the labels in four bytes each, the highest byte first. A number that no key has as its value has a text
 * too, which may be a single 0. An image without keys needs no table. The numbers in a text need not be scalar values, and bytes
 * past the last text are not read.
 *
 * state holds what is kept, in LXTR_ROMAJI_STATE_BYTES bytes: the number of kept bytes, below LXTR_ROMAJI_STATE_BYTES, then these
 * bytes, then zeros. Before the first call all are zeros; after that, pass what the call before left. A host may show what is
 * kept: the state[0] bytes at state + 1. The state may come from a call with another image. A refusal leaves it unchanged, so
 * after 29 the same bytes can be typed again with more room. A state of another length, or with bytes that no call leaves, is not
 * refused: the call returns and stays within its memory, but what it answers is not specified.
 *
 * Afterwards the labels that go out are at the front of the room, in four bytes each, the highest byte first. Bytes past them are
 * unchanged. What is kept needs no room. Room is enough if it has, for each byte of the text, four bytes for each label of the
 * longest text of the table, and at least four. To type one byte, `uint8_t byte`, with a table whose texts have at most two
 * labels:
 *
 *     uint8_t state[LXTR_ROMAJI_STATE_BYTES] = { 0 };  // before the first key press
 *     uint8_t room[4 * 2 * LXTR_ROMAJI_STATE_BYTES];   // for all that can be kept, and one byte more
 *
 *     uint64_t out = lxtr_romaji_type(image, image_length, kana, kana_length, state, sizeof state, &byte, 1, room, sizeof room);
 *     if (lxtr_refusal(out) == 0)
 *         show(room, lxtr_number(out), state + 1, state[0]);
 */
uint64_t lxtr_romaji_type(const uint8_t *image, size_t image_length, const uint8_t *kana, size_t kana_length,
                          uint8_t *state, size_t state_length, const uint8_t *typed, size_t typed_length,
                          uint8_t *room, size_t room_length);

/*
 * Ends a text: call it when nothing more will be typed. What is kept goes out by the same rules, but nothing is kept any more.
 * After n, U+3093 goes out. Afterwards the state is all zeros. Table, state, room, number and refusals are those of
 * lxtr_romaji_type.
 */
uint64_t lxtr_romaji_finish(const uint8_t *image, size_t image_length, const uint8_t *kana, size_t kana_length,
                            uint8_t *state, size_t state_length, uint8_t *room, size_t room_length);

/*
 * Builds the image of a key list. The number is the length of the image in bytes. The first key gets value 0, the next 1, and so
 * on. The largest lists take seconds.
 *
 * A key list is a version byte 1, the number of keys in four bytes, and for each key a byte with its number of labels and the
 * labels in four bytes each. Numbers have their highest byte first. Keys ascend, compared label by label by the labels' numbers
 * (not by codes), a key before longer keys that begin with it, and no two are equal.
 *
 * work is scratch memory. W words allow W / 2 slots, at most 65,536. Each key needs one slot for its end, and each distinct prefix
 * of the keys needs one. So 2 * (2 + keys + labels of all keys) words are a first guess; after refusal 22, lend twice as many. An
 * image built with W words that lists L labels has at most 25 + 8 W + 4 L bytes. The choice of slots can depend on W: to get the
 * same bytes, lend the same number of words. What work holds before the call does not matter. work_length counts words.
 *
 * Refusals, in this order: 21; 15 for a list of fewer than 5 bytes or another version; 16; then for each key 15 if its length
 * byte is missing, 17, 15 if its labels are cut short, 18, 19; 15 for bytes left over; 20; 22; 23.
 *
 * Afterwards the image is at the front of out, and the other bytes of out are unchanged; a refusal leaves all of out unchanged.
 * All words of work are 0, even after a refusal, except after 21, which leaves them unchanged.
 */
uint64_t lxtr_build(const uint8_t *keys, size_t keys_length, uint32_t *work, size_t work_length,
                    uint8_t *out, size_t out_length);

#ifdef __cplusplus
}
#endif

#endif
