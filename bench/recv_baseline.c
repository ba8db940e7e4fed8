// Writes to standard output what comes to a port of 127.0.0.1, without the first 12 octets of each datagram. It ends once
// nothing came for half a second after the first datagram. Words: the port.
#include <arpa/inet.h>
#include <stdlib.h>
#include <sys/time.h>
#include <unistd.h>

int main(int count, char **words) {
    unsigned char block[2048];
    struct sockaddr_in at = {.sin_family = AF_INET};
    struct timeval none = {0, 0}, half = {0, 500000};
    int room = 4 << 20, in = socket(AF_INET, SOCK_DGRAM, 0);
    if (count != 2) return 2;
    at.sin_port = htons(atoi(words[1]));
    inet_pton(AF_INET, "127.0.0.1", &at.sin_addr);
    setsockopt(in, SOL_SOCKET, SO_RCVBUF, &room, sizeof room);
    setsockopt(in, SOL_SOCKET, SO_RCVTIMEO, &none, sizeof none);
    if (bind(in, (struct sockaddr *)&at, sizeof at)) return 3;
    for (int first = 1;; first = 0) {
        ssize_t got = recv(in, block, sizeof block, 0);
        if (got < 0) return 0;
        if (first) setsockopt(in, SOL_SOCKET, SO_RCVTIMEO, &half, sizeof half);
        if (got > 12 && write(1, block + 12, got - 12) != got - 12) return 5;
    }
}
