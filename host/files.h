/*
 * files.h: whole files in memory, for the host programs.
 */
#ifndef FILES_H
#define FILES_H

#include <stddef.h>
#include <stdint.h>
#include <stdio.h>

/*
 * Reads as much of the file as the room holds, and returns the number of bytes read, or -1 on error. If the room is one byte
 * longer than the longest valid file, the caller can tell that a file is too long.
 */
static inline long read_file(const char *name, uint8_t *room, size_t room_length)
{
	FILE *file = fopen(name, "rb");
	if (file == NULL)
		return -1;
	size_t length = fread(room, 1, room_length, file);
	long read = ferror(file) ? -1 : (long)length;
	fclose(file);
	return read;
}

/* Writes the bytes to the file. Returns 0, or -1 on error; the file may then hold only some of them. */
static inline int write_file(const char *name, const uint8_t *bytes, size_t length)
{
	FILE *file = fopen(name, "wb");
	if (file == NULL)
		return -1;
	size_t written = fwrite(bytes, 1, length, file);
	return fclose(file) != 0 || written != length ? -1 : 0;
}

#endif
