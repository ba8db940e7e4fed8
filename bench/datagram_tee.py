#!/usr/bin/env python3
"""Hands datagrams on, and keeps what they carry.

    datagram_tee.py FILE PORT TO [rtp] [tail=COUNT] [bye]

What comes to PORT of 127.0.0.1 is written to FILE and goes to port TO; with `rtp` the file has the payloads of RTP packets (RFC 3550,
5.1), and what is none, or another payload type than 33, ends it with status 1. On SIGTERM it hands on what has come, sends COUNT more
datagrams of seven null packets, 2 ms apart, with `bye` an RTCP BYE to the port above TO (RFC 3550, 6.6), and prints how many datagrams came, of how many octets the shortest and the longest were, and
with `rtp` how often a number didn't follow the one before. The first line of output is `ready`.
"""
import signal
import socket
import struct
import sys
import time

NULL = (bytes([0x47, 0x1F, 0xFF, 0x10]) + bytes([0xFF]) * 184) * 7


def payload_of(datagram):
    """The payload of an RTP packet: without sources, extension and padding."""
    if len(datagram) < 12 or datagram[0] >> 6 != 2 or datagram[1] & 0x7F != 33:
        sys.exit(f'no RTP packet of a transport stream: {datagram[:12].hex()}')
    at = 12 + 4 * (datagram[0] & 15)
    if datagram[0] & 0x10:
        at += 4 + 4 * int.from_bytes(datagram[at + 2:at + 4], 'big')
    return datagram[at:len(datagram) - (datagram[-1] if datagram[0] & 0x20 else 0)]


class Tee:
    def __init__(self, words):
        self.name, self.to = words[0], ('127.0.0.1', int(words[2]))
        self.is_rtp, self.says_bye = ('rtp' in words[3:]), ('bye' in words[3:])
        self.tail = sum(int(word[5:]) for word in words[3:] if word.startswith('tail='))
        self.end = socket.socket(socket.AF_INET, socket.SOCK_DGRAM)
        self.end.setsockopt(socket.SOL_SOCKET, socket.SO_RCVBUF, 8 << 20)
        self.end.bind(('127.0.0.1', int(words[1])))
        self.end.settimeout(0.1)
        self.lengths = []
        self.breaks = 0
        self.last = None
        self.is_over = False

    def hand_on(self, datagram, out):
        self.end.sendto(datagram, self.to)
        payload = datagram
        if self.is_rtp:
            payload = payload_of(datagram)
            number = int.from_bytes(datagram[2:4], 'big')
            self.breaks += self.last is not None and number != (int.from_bytes(self.last[2:4], 'big') + 1) & 0xFFFF
            self.last = datagram
        self.lengths.append(len(payload))
        out.write(payload)

    def run(self):
        with open(self.name, 'wb') as out:
            while True:
                try:
                    self.hand_on(self.end.recv(65536), out)
                except TimeoutError:
                    if self.is_over:
                        break
        for k in range(self.tail):
            head = b''
            if self.is_rtp and self.last:
                number, stamp = struct.unpack('>HI', self.last[2:8])
                head = bytes([0x80, 33]) + struct.pack('>HI', number + k + 1 & 0xFFFF, stamp) + self.last[8:12]
            time.sleep(0.002)
            self.end.sendto(head + NULL, self.to)
        if self.says_bye and self.last:
            self.end.sendto(bytes([0x81, 203, 0, 2]) + self.last[8:12] + b'\3end', (self.to[0], self.to[1] + 1))

    def tell(self):
        some = f', of {min(self.lengths)} to {max(self.lengths)} octets' if self.lengths else ''
        print(f'{len(self.lengths)} datagrams{some}' + (f', {self.breaks} breaks of the numbers' if self.is_rtp else ''), flush=True)


def stop(tee):
    tee.is_over = True


def main():
    tee = Tee(sys.argv[1:])
    signal.signal(signal.SIGTERM, lambda *_: stop(tee))
    print('ready', flush=True)
    tee.run()
    tee.tell()


main()
