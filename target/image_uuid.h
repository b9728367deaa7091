/* The UUID of an image, by which hosts know it. */
#ifndef IMAGE_UUID_H
#define IMAGE_UUID_H

#include <stdbool.h>

#define IMAGE_UUID_BYTES 16

/* Reads a UUID from the file at `path`, which has its text, 8-4-4-4-12 hexadecimal digits and a newline. Where there is no such file, it
   makes a random UUID (RFC 9562, version 4), and the file. False where that fails: errno says why, EINVAL that it is no ordinary file with
   a UUID. */
bool image_uuid_take(const char *path, unsigned char uuid[IMAGE_UUID_BYTES]);

#endif
