// Writes a capture of a sender whose clock drifts to standard output: so many hours, a packet each 900 us of four octets with its
// place, timestamps of a clock that runs so many parts in a million fast (below 0: slow), and each packet up to 20 ms late, by
// draws of a fixed seed. Records stand in the order of their times. Words: hours, parts in a million.
#include <stdint.h>
#include <stdio.h>
#include <stdlib.h>
#include <string.h>

#define GAP 900
#define JITTER 20000
#define WAITING 64

struct packet {
    uint64_t us;
    uint64_t place;
};

static void put(uint64_t value, int octets) {
    for (int k = octets - 1; k >= 0; k--) putchar_unlocked((int)(value >> (8 * k)) & 0xff);
}

static void write_record(const struct packet *packet) {
    put(0, 2);
    put(16, 2);
    put(packet->us, 8);
    put(0x8021, 2);
    put(packet->place, 2);
    put(packet->place * (GAP * 9 / 100), 4);
    put(0x10203040, 4);
    put(packet->place, 4);
}

int main(int count, char **words) {
    if (count != 3) return 2;
    uint64_t packets = (uint64_t)(atof(words[1]) * 3600e6 / GAP), draw = 1;
    double rate = 1 + atof(words[2]) / 1e6;
    struct packet waiting[WAITING];
    int held = 0;
    fputs("RISTCAP1", stdout);
    for (uint64_t place = 0; place <= packets; place++) {
        uint64_t sent = (uint64_t)((double)place * GAP / rate);
        // What comes before this one is sent can't be overtaken any more.
        int gone = 0;
        while (gone < held && (place == packets || waiting[gone].us <= sent)) write_record(&waiting[gone++]);
        memmove(waiting, waiting + gone, (size_t)(held - gone) * sizeof *waiting);
        held -= gone;
        if (place == packets) break;
        draw = draw * 6364136223846793005u + 1442695040888963407u;
        struct packet packet = {sent + (draw >> 33) % JITTER, place};
        if (held == WAITING) return 1;
        int at = held++;
        for (; at > 0 && waiting[at - 1].us > packet.us; at--) waiting[at] = waiting[at - 1];
        waiting[at] = packet;
    }
    return fflush(stdout) != 0;
}
