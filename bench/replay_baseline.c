/* Reads a capture and writes each payload with one write, with no order, no clock and no test: the least that a replay can do. */
#include <fcntl.h>
#include <stdio.h>
#include <stdlib.h>
#include <string.h>
#include <unistd.h>

static unsigned char block[1 << 16];
static size_t from, to;

static int take(int in, unsigned char *out, size_t size)
{
    while (size > 0) {
        if (from == to) {
            ssize_t got = read(in, block, sizeof block);
            if (got <= 0)
                return 0;
            from = 0;
            to = (size_t)got;
        }
        size_t part = to - from < size ? to - from : size;
        memcpy(out, block + from, part);
        from += part;
        out += part;
        size -= part;
    }
    return 1;
}

int main(int argc, char **argv)
{
    unsigned char head[12], octets[2048];
    if (argc != 3)
        return 2;
    int in = open(argv[1], O_RDONLY);
    int out = open(argv[2], O_WRONLY | O_CREAT | O_TRUNC, 0644);
    if (in < 0 || out < 0 || !take(in, octets, 8))
        return 3;
    while (take(in, head, sizeof head)) {
        size_t length = (size_t)head[2] << 8 | head[3];
        if (length > sizeof octets || !take(in, octets, length))
            return 7;
        if (length > 12 && write(out, octets + 12, length - 12) < 0)
            return 5;
    }
    return 0;
}
