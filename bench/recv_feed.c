// Sends the datagrams of a capture, each at its time, to each of these ports of 127.0.0.1. It prints how many microseconds that
// took. Words: the capture, then ports.
#include <arpa/inet.h>
#include <fcntl.h>
#include <stdint.h>
#include <stdio.h>
#include <stdlib.h>
#include <sys/mman.h>
#include <sys/stat.h>
#include <time.h>

static int64_t now(void) {
    struct timespec t;
    clock_gettime(CLOCK_MONOTONIC, &t);
    return t.tv_sec * 1000000LL + t.tv_nsec / 1000;
}

int main(int count, char **words) {
    struct stat size;
    int capture = count > 2 ? open(words[1], O_RDONLY) : -1, out[count];
    if (capture < 0 || fstat(capture, &size)) return 3;
    for (int i = 2; i < count; i++) {
        struct sockaddr_in to = {.sin_family = AF_INET, .sin_port = htons(atoi(words[i]))};
        to.sin_addr.s_addr = htonl(INADDR_LOOPBACK);
        out[i] = socket(AF_INET, SOCK_DGRAM, 0);
        if (connect(out[i], (struct sockaddr *)&to, sizeof to)) return 3;
    }
    const unsigned char *octets = mmap(0, size.st_size, PROT_READ, MAP_PRIVATE | MAP_POPULATE, capture, 0);
    if (octets == MAP_FAILED) return 3;
    int64_t start = now();
    for (off_t at = 8; at + 12 <= size.st_size;) {
        int length = octets[at + 2] << 8 | octets[at + 3];
        int64_t due = 0;
        for (int i = 4; i < 12; i++) due = due << 8 | octets[at + i];
        for (int64_t rest; (rest = start + due - now()) > 0;)
            if (rest > 200) nanosleep(&(struct timespec){.tv_nsec = 100000}, 0);
        for (int i = 2; i < count; i++) send(out[i], octets + at + 12, length, 0);
        at += 12 + length;
    }
    printf("%lld\n", (long long)(now() - start));
    return 0;
}
