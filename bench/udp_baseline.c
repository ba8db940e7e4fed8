// Datagrams over ports of 127.0.0.1, with one system call for each that comes and one for each that goes. Words:
//   feed PORT GAP COUNT     sends so many datagrams of 1,316 octets, each so many microseconds after the one before
//   carry PORT TO HEADER    sends on what comes, behind so many octets of a header; where HEADER is below 0, without so many
//   take PORT               prints how many datagrams came
// The last two end once nothing came for a second after the first datagram.
#include <arpa/inet.h>
#include <stdio.h>
#include <stdlib.h>
#include <string.h>
#include <sys/time.h>
#include <time.h>

static struct sockaddr_in at(const char *port) {
    struct sockaddr_in it = {.sin_family = AF_INET, .sin_port = htons(atoi(port))};
    it.sin_addr.s_addr = htonl(INADDR_LOOPBACK);
    return it;
}

static long long now(void) {
    struct timespec t;
    clock_gettime(CLOCK_MONOTONIC, &t);
    return t.tv_sec * 1000000LL + t.tv_nsec / 1000;
}

static int bound(const char *port) {
    int room = 4 << 20, in = socket(AF_INET, SOCK_DGRAM, 0);
    struct sockaddr_in it = at(port);
    setsockopt(in, SOL_SOCKET, SO_RCVBUF, &room, sizeof room);
    if (bind(in, (struct sockaddr *)&it, sizeof it)) exit(3);
    return in;
}

int main(int count, char **words) {
    static unsigned char block[64 + 2048] = {[52] = 0x80, [53] = 33};
    int out = socket(AF_INET, SOCK_DGRAM, 0);
    if (count == 5 && !strcmp(words[1], "feed")) {
        struct sockaddr_in to = at(words[2]);
        long long start = now(), gap = atoll(words[3]), all = atoll(words[4]);
        for (long long sent = 0; sent < all; sent++) {
            while (now() < start + gap * sent)
                nanosleep(&(struct timespec){.tv_nsec = 100000}, 0);
            memcpy(block + 64, &sent, sizeof sent);
            sendto(out, block + 64, 1316, 0, (struct sockaddr *)&to, sizeof to);
        }
        return 0;
    }
    int carries = count == 5 && !strcmp(words[1], "carry");
    if (!carries && !(count == 3 && !strcmp(words[1], "take"))) return 2;
    int in = bound(words[2]), header = carries ? atoi(words[4]) : 0;
    struct sockaddr_in to = at(words[carries ? 3 : 2]);
    struct timeval second = {1, 0};
    long long came = 0;
    for (ssize_t got; (got = recv(in, block + 64, 2048, 0)) >= 0; came++) {
        if (!came) setsockopt(in, SOL_SOCKET, SO_RCVTIMEO, &second, sizeof second);
        if (carries) sendto(out, block + 64 - header, got + header, 0, (struct sockaddr *)&to, sizeof to);
    }
    if (!carries) printf("%lld\n", came);
    return 0;
}
