// The raw limit of the disk: the same writes and the same two syncs for each append, and nothing else.
// limit PATH BYTES TIMES: prints the times, the bytes and the nanoseconds.
#include <fcntl.h>
#include <stdint.h>
#include <stdio.h>
#include <stdlib.h>
#include <string.h>
#include <time.h>
#include <unistd.h>

int main(int argc, char **argv)
{
    if (argc != 4)
        return 2;
    size_t bytes = strtoull(argv[2], NULL, 10);
    uint64_t times = strtoull(argv[3], NULL, 10);
    unsigned char *frame = calloc(bytes + 1, 1);
    int file = open(argv[1], O_RDWR | O_CREAT | O_TRUNC, 0644);
    if (!frame || file < 0)
        return 1;
    memset(frame, 'x', bytes - 1);
    if (pwrite(file, "PUBSUBJ2", 9, 0) != 9 || fdatasync(file))
        return 1;
    off_t gate = 8;
    struct timespec start, end;
    clock_gettime(CLOCK_MONOTONIC, &start);
    for (uint64_t i = 0; i < times; i++) {
        // The rest of the frame and the next closed gate, and then the gate.
        if (pwrite(file, frame, bytes, gate + 1) != (ssize_t)bytes || fdatasync(file))
            return 1;
        if (pwrite(file, "\1", 1, gate) != 1 || fdatasync(file))
            return 1;
        gate += (off_t)bytes;
    }
    clock_gettime(CLOCK_MONOTONIC, &end);
    uint64_t took = (uint64_t)(end.tv_sec - start.tv_sec) * 1000000000u + (uint64_t)end.tv_nsec - (uint64_t)start.tv_nsec;
    printf("%llu %zu %llu\n", (unsigned long long)times, bytes, (unsigned long long)took);
    return 0;
}
