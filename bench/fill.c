// Fills fresh memory of so many bytes with zeros, as an image does that takes the room of its blocks. Where a file is named, it then reads
// as many bytes of it into that memory, as loading an image does.
#include <stdio.h>
#include <stdlib.h>
#include <string.h>

int main(int count, char **words)
{
    size_t bytes = count >= 2 ? strtoul(words[1], NULL, 10) : 0;
    // read at run time, so that the compiler can't take memory that the kernel has cleared
    volatile int zero = 0;
    unsigned char *room = malloc(bytes);
    if (room == NULL)
        return 1;
    memset(room, zero, bytes);
    if (count == 3) {
        FILE *file = fopen(words[2], "rb");
        if (file == NULL || setvbuf(file, NULL, _IONBF, 0) != 0 || fread(room, 1, bytes, file) != bytes)
            return 1;
        fclose(file);
    }
    printf("%d\n", room[bytes / 2]);
    return 0;
}
