/* Reads a little-endian pcap file of Ethernet frames and writes the payload of each media packet to UDP port 5000 with one write, with
 * no order, no clock and no test but the port: the least that a replay can do. */
#include <fcntl.h>
#include <stdint.h>
#include <string.h>
#include <unistd.h>

static unsigned char block[1 << 16];
static size_t from, to;

static int take(int in, unsigned char *out, size_t size)
{
    while (size > 0) {
        if (from == to) {
            ssize_t got = read(in, block, sizeof block);
            if (got <= 0)
                return 0;
            from = 0;
            to = (size_t)got;
        }
        size_t part = to - from < size ? to - from : size;
        memcpy(out, block + from, part);
        from += part;
        out += part;
        size -= part;
    }
    return 1;
}

int main(int argc, char **argv)
{
    /* The 14 octets of Ethernet, the 20 of IPv4, the 8 of UDP and the 12 of RTP. */
    enum { PORT_AT = 36, PAYLOAD_AT = 54 };
    unsigned char head[24], frame[4096];
    if (argc != 3)
        return 2;
    int in = open(argv[1], O_RDONLY);
    int out = open(argv[2], O_WRONLY | O_CREAT | O_TRUNC, 0644);
    if (in < 0 || out < 0 || !take(in, head, 24))
        return 3;
    while (take(in, head, 16)) {
        uint32_t kept;
        memcpy(&kept, head + 8, 4);
        if (kept > sizeof frame || !take(in, frame, kept))
            return 7;
        if (kept < PAYLOAD_AT || (frame[PORT_AT] << 8 | frame[PORT_AT + 1]) != 5000)
            continue;
        if (write(out, frame + PAYLOAD_AT, kept - PAYLOAD_AT) < 0)
            return 5;
    }
    return 0;
}
