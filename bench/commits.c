/* commits FILE COUNT BYTES [all]: so often, writes BYTES bytes behind a place of the file, syncs its data, writes one byte at the place,
   and syncs it again, as a commit does that has a record of BYTES bytes; the place goes on by them, and starts again after 131,072. With
   `all` each sync is one of the inode's times too (fsync, and not fdatasync). */

#include <fcntl.h>
#include <stdio.h>
#include <stdlib.h>
#include <string.h>
#include <unistd.h>

int main(int argc, char **argv) {
    if (argc != 4 && (argc != 5 || strcmp(argv[4], "all") != 0))
        return 1;
    int (*sync_file)(int) = argc == 5 ? fsync : fdatasync;
    int file = open(argv[1], O_RDWR);
    long count = atol(argv[2]);
    size_t bytes = (size_t) atol(argv[3]);
    char *body = calloc(1, bytes);
    char gate = (char) 0xa5;
    off_t place = 264;
    if (file < 0 || body == NULL)
        return 1;
    for (long i = 0; i < count; i++) {
        if (pwrite(file, body, bytes, place + 1) != (ssize_t) bytes || sync_file(file) != 0 || pwrite(file, &gate, 1, place) != 1 || sync_file(file) != 0)
            return 1;
        place += (off_t) bytes;
        if (place + (off_t) bytes + 1 > 264 + 131072)
            place = 264;
    }
    return 0;
}
