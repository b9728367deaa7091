/* A file that is replaced as a whole. */
#ifndef IMAGE_FILE_H
#define IMAGE_FILE_H

#include <stdbool.h>
#include <stddef.h>
#include <sys/stat.h>

enum image_file_result {
    IMAGE_FILE_REPLACED,
    IMAGE_FILE_AS_IT_WAS,
    IMAGE_FILE_NOT_SYNCED, /* the new file is in place, but the sync of the folder failed */
};

/* Puts a file of these bytes in the place of the one at `path`, or where none is: NAME.unfinished, beside the file NAME to which the path
   leads, is written with the permissions of that file, and its owner where the system lets it, brought to the disk, and given its name,
   which is brought to the disk too. A NAME.unfinished that a program left which was killed is removed first; while another program writes
   it, errno is EBUSY, and where it is no ordinary file EEXIST. Where it fails, errno tells why. */
enum image_file_result image_file_put(const char *path, const unsigned char *bytes, size_t count);

/* The same: is the new file in place, and on the disk? */
bool image_file_replace(const char *path, const unsigned char *bytes, size_t count);

/* Opens an ordinary file to be read, with more flags of open, and waits for nobody. Of what is there and isn't one, as a FIFO, errno is
   EINVAL. -1 where it fails. */
int image_file_open_ordinary(const char *path, int flags);

/* A new file that is to take another's place, which is locked from the first on. One of its name was left by a program that was killed, if
   nobody has locked it, and is removed; else errno is EBUSY. What is no ordinary file stays, and errno is EEXIST. -1 where it fails. */
int image_file_create(const char *name, mode_t mode);

/* Gives a new file the permissions of the one whose place it takes, and its owner where the system lets it. */
bool image_file_take_after(int file, const struct stat *before);

#endif
