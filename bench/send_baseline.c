// Sends the standard input to a port of 127.0.0.1, 1,316 octets behind 12 octets of an RTP header in each datagram, and each so
// many microseconds after the one before. Words: the port, the microseconds.
#include <arpa/inet.h>
#include <stdlib.h>
#include <time.h>
#include <unistd.h>

static long long now(void) {
    struct timespec t;
    clock_gettime(CLOCK_MONOTONIC, &t);
    return t.tv_sec * 1000000LL + t.tv_nsec / 1000;
}

int main(int count, char **words) {
    unsigned char block[12 + 1316] = {0x80, 33};
    struct sockaddr_in to = {.sin_family = AF_INET};
    if (count != 3) return 2;
    to.sin_port = htons(atoi(words[1]));
    inet_pton(AF_INET, "127.0.0.1", &to.sin_addr);
    int out = socket(AF_INET, SOCK_DGRAM, 0);
    long long start = now(), gap = atoll(words[2]), sent = 0;
    for (ssize_t got; (got = read(0, block + 12, 1316)) > 0; sent++) {
        while (now() < start + gap * sent)
            nanosleep(&(struct timespec){.tv_nsec = 1000000}, 0);
        sendto(out, block, 12 + got, 0, (struct sockaddr *)&to, sizeof to);
    }
    return 0;
}
