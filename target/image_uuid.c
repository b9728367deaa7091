#define _GNU_SOURCE
#include "image_uuid.h"
#include "image_file.h"

#include <ctype.h>
#include <errno.h>
#include <stdio.h>
#include <sys/random.h>
#include <unistd.h>

#define TEXT 37 /* the characters of its text, with the newline */

/* Does a hyphen stand in front of this byte? */
static bool begins_group(size_t byte)
{
    return byte == 4 || byte == 6 || byte == 8 || byte == 10;
}

static int digit_of(unsigned char character)
{
    if (!isxdigit(character))
        return -1;
    return isdigit(character) ? character - '0' : tolower(character) - 'a' + 10;
}

/* The UUID that a text spells. */
static bool parse(const unsigned char text[TEXT], unsigned char uuid[IMAGE_UUID_BYTES])
{
    for (size_t byte = 0; byte < IMAGE_UUID_BYTES; byte++) {
        if (begins_group(byte) && *text++ != '-')
            return false;
        int high = digit_of(text[0]);
        int low = high < 0 ? -1 : digit_of(text[1]);
        if (low < 0)
            return false;
        uuid[byte] = (unsigned char)(high * 16 + low);
        text += 2;
    }
    return *text == '\n';
}

/* The text that spells a UUID. */
static void spell(const unsigned char uuid[IMAGE_UUID_BYTES], unsigned char text[TEXT])
{
    static const char digits[] = "0123456789abcdef";
    for (size_t byte = 0; byte < IMAGE_UUID_BYTES; byte++) {
        if (begins_group(byte))
            *text++ = '-';
        *text++ = (unsigned char)digits[uuid[byte] / 16];
        *text++ = (unsigned char)digits[uuid[byte] % 16];
    }
    *text = '\n';
}

/* Reads a file's UUID. */
static bool read_text(int file, unsigned char uuid[IMAGE_UUID_BYTES])
{
    unsigned char text[TEXT + 1];
    size_t count = 0;
    ssize_t more;
    while (count < sizeof text && (more = read(file, text + count, sizeof text - count)) != 0) {
        if (more > 0)
            count += (size_t)more;
        else if (errno != EINTR)
            return false;
    }
    errno = EINVAL;
    return count == TEXT && parse(text, uuid);
}

/* Makes a random UUID, and the file at `path`. */
static bool make(const char *path, unsigned char uuid[IMAGE_UUID_BYTES])
{
    unsigned char text[TEXT];
    if (getrandom(uuid, IMAGE_UUID_BYTES, 0) != IMAGE_UUID_BYTES)
        return false;
    uuid[6] = (uuid[6] & 0x0F) | 0x40;
    uuid[8] = (uuid[8] & 0x3F) | 0x80;
    spell(uuid, text);
    return image_file_replace(path, text, TEXT);
}

bool image_uuid_take(const char *path, unsigned char uuid[IMAGE_UUID_BYTES])
{
    int file = image_file_open_ordinary(path, 0);
    if (file < 0)
        return errno == ENOENT && make(path, uuid);
    bool taken = read_text(file, uuid);
    int cause = errno;
    close(file);
    errno = cause;
    return taken;
}
