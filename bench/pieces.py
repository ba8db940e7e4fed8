#!/usr/bin/env python3
"""Makes a stream of numbered pieces, gives it out as datagrams, and counts which pieces came.

    pieces.py make FILE COUNT [nulls]          writes COUNT pieces of 1,316 octets; piece k begins with 47 and k. With `nulls` each
                                               is seven transport packets, of which the fourth of every piece and the last of
                                               every other one are null packets
    pieces.py feed FILE PORT GAP [FORM]        sends them to a port of 127.0.0.1, GAP microseconds apart: each in a datagram; with
                                               `rtp` in an RTP packet, of which every third has two sources, an extension and
                                               padding; with `mixed` the octets of all in datagrams of 1 to 1,500, with an empty one
                                               and one of 1,501 behind each eighth, and with `mixed-rtp` the same in RTP packets
    pieces.py take FILE PORT [FORM]            writes what comes to a port of 127.0.0.1, until it is stopped; with `rtp` the payloads
                                               of RTP packets: it says what is none, which numbers are missing, and whether a
                                               timestamp fell, and ends there with status 1; with `mixed` and `mixed-rtp` each datagram,
                                               or each payload, behind two octets with its length
    pieces.py alike FILE CAME END              what came by `take` in a mixed form are the datagrams that `feed` cuts FILE into, each as it is,
                                               in order, but for the empty ones and those of 1,501 octets; at most END may be missing
                                               after the last that came: its status is 1 where that doesn't hold
    pieces.py compare FILE CAME FRONT END      compares octets. At most FRONT pieces may be missing before the first that
                                               came and END after the last, none between, and none may come twice or out of
                                               its place; its status is 1 where that doesn't hold
    pieces.py restarted FILE CAME CUT NEXT END  the same of two streams, the second of which begins with piece CUT: at most NEXT
                                               pieces may be missing before the first that came of each, and END after its
                                               last
    pieces.py held FILE PCAP CAME              the pieces of FILE that end a frame of PCAP, in their order, are the pieces that
                                               came: its status is 1 where they aren't
    pieces.py cut FILE CUT FIRST SECOND        writes the pieces before CUT to FIRST, and the others to SECOND
"""
import random
import socket
import struct
import sys
import time

LENGTH = 1316


NULL = bytes([0x47, 0x1F, 0xFF, 0x10]) + bytes([0xFF]) * 184


def make(name, count, nulls=''):
    draws = random.Random(1)
    with open(name, 'wb') as out:
        for k in range(int(count)):
            piece = bytes([0x47]) + k.to_bytes(4, 'big') + draws.randbytes(LENGTH - 5)
            if nulls:
                packets = [bytes([0x47, 0, 0x20]) + piece[at + 3:at + 188] for at in range(0, LENGTH, 188)]
                packets[0] = piece[:188]
                packets[3] = NULL
                packets[6] = NULL if k % 2 else packets[6]
                piece = b''.join(packets)
            out.write(piece)


def pieces_of(name):
    with open(name, 'rb') as octets:
        while piece := octets.read(LENGTH):
            yield piece


def rtp_packet(k, piece):
    """An RTP packet by RFC 3550, section 5.1."""
    rich = k % 3 == 2
    head = bytes([0xB2 if rich else 0x80, 33]) + struct.pack('>HII', k & 0xFFFF, k * 90 & 0xFFFFFFFF, 0x10203040)
    more = b'abcdefgh' + struct.pack('>HH', 0xBEDE, 1) + b'word' if rich else b''
    return head + more + piece + (b'\0\0\0\4' if rich else b'')


def datagrams_of(k, piece, form):
    if form == 'rtp':
        return [rtp_packet(k, piece)]
    if form.startswith('mixed'):
        strange = [b'', bytes([0xFF]) * 1501] if k % len(LENGTHS) == 0 else []
        return [rtp_packet(k, payload) if form == 'mixed-rtp' else payload for payload in [piece, *strange]]
    return [piece]


# One transport packet, seven, these and half a second header, the longest payload and one octet less, an octet, two and four packets.
LENGTHS = [188, 1316, 1328, 1500, 1, 376, 1499, 752]


def mixed_of(name):
    """The octets of a file in pieces of these lengths, in turn."""
    with open(name, 'rb') as octets:
        k = 0
        while piece := octets.read(LENGTHS[k % len(LENGTHS)]):
            yield piece
            k += 1


def feed(name, port, gap, form=''):
    end = socket.socket(socket.AF_INET, socket.SOCK_DGRAM)
    start = time.monotonic()
    for k, piece in enumerate(mixed_of(name) if form.startswith('mixed') else pieces_of(name)):
        rest = start + k * int(gap) / 1e6 - time.monotonic()
        if rest > 0:
            time.sleep(rest)
        for datagram in datagrams_of(k, piece, form):
            end.sendto(datagram, ('127.0.0.1', int(port)))


def payload_of(datagram, before):
    """The payload of an RTP packet without sources, extension and padding that comes behind another one, and what is seen of its header."""
    if len(datagram) < 12 or datagram[:2] != bytes([0x80, 33]):
        sys.exit(f'no such RTP packet: {datagram[:12].hex()}')
    number, stamp, ssrc = struct.unpack('>HII', datagram[2:12])
    if before:
        if number != (before[0] + 1) & 0xFFFF or ssrc != before[2]:
            sys.exit(f'number {number} of source {ssrc} behind {before[0]} of {before[2]}')
        if (stamp - before[1]) & 0x80000000:
            sys.exit(f'timestamp {stamp} behind {before[1]}')
    return datagram[12:], (number, stamp, ssrc)


def take(name, port, form=''):
    end = socket.socket(socket.AF_INET, socket.SOCK_DGRAM)
    end.setsockopt(socket.SOL_SOCKET, socket.SO_RCVBUF, 8 << 20)
    end.bind(('127.0.0.1', int(port)))
    before = None
    with open(name, 'wb', buffering=0) as out:
        while True:
            datagram = end.recv(65536)
            if form in ('rtp', 'mixed-rtp'):
                datagram, before = payload_of(datagram, before)
            out.write((len(datagram).to_bytes(2, 'big') if form.startswith('mixed') else b'') + datagram)


def taken_of(name):
    """What `take` wrote in a mixed form."""
    with open(name, 'rb') as octets:
        while length := octets.read(2):
            yield octets.read(int.from_bytes(length, 'big'))


def alike(name, came, end):
    sent, got = list(mixed_of(name)), list(taken_of(came))
    other = next((k for k, (one, another) in enumerate(zip(sent, got)) if one != another), min(len(sent), len(got)))
    is_good = other == len(got) and len(sent) - len(got) <= int(end)
    print(f'{len(got)} datagrams came of {len(sent)}, of which the first {other} are as they were sent: ' + ('good' if is_good else 'NOT GOOD'))
    return 0 if is_good else 1


class Came:
    """What came of the pieces from one place on up to another."""

    def __init__(self, start, stop):
        self.start, self.stop = start, stop
        self.seen = set()

    def judge(self, front, end):
        """Says how many are missing where, and whether these are few enough."""
        first, last = min(self.seen, default=self.stop), max(self.seen, default=self.start - 1)
        missing = [k for k in range(first, last + 1) if k not in self.seen]
        before, after = first - self.start, self.stop - 1 - last
        print(f'{len(self.seen)} of {self.stop - self.start} pieces came; missing: {before} before the first, '
              f'{len(missing)} between, {after} after the last')
        if missing:
            print('missing between:', missing[:20])
        return bool(self.seen) and not missing and before <= int(front) and after <= int(end)


def compare(name, came, front, end):
    return judge(name, came, [], front, end)


def restarted(name, came, cut, front, end):
    return judge(name, came, [int(cut)], front, end)


def judge(name, came, cuts, front, end):
    sent = list(pieces_of(name))
    places = [0, *cuts, len(sent)]
    parts = [Came(start, stop) for start, stop in zip(places, places[1:])]
    last, strange, twice, misplaced = -1, 0, 0, 0
    for piece in pieces_of(came):
        k = int.from_bytes(piece[1:5], 'big')
        if k >= len(sent) or piece != sent[k]:
            strange += 1
            continue
        part = next(part for part in parts if k < part.stop)
        twice += k in part.seen
        misplaced += k < last
        part.seen.add(k)
        last = max(last, k)
    is_good = all([part.judge(front, end) for part in parts]) and not strange and not twice and not misplaced
    print(f'{twice} twice, {misplaced} out of order, {strange} that were not sent: ' + ('good' if is_good else 'NOT GOOD'))
    return 0 if is_good else 1


def frames_of(name):
    with open(name, 'rb') as octets:
        octets.read(24)
        while head := octets.read(16):
            yield octets.read(int.from_bytes(head[8:12], 'little'))


def held(name, pcap, came):
    sent = list(pieces_of(name))
    places = {piece: k for k, piece in enumerate(sent)}
    ends = {places[frame[-LENGTH:]] for frame in frames_of(pcap) if frame[-LENGTH:] in places}
    is_good = list(pieces_of(came)) == [sent[k] for k in sorted(ends)]
    print(f'{len(ends)} of {len(sent)} pieces are in the capture; what came is these in order: ' + ('good' if is_good else 'NOT GOOD'))
    return 0 if is_good else 1


def cut(name, at, first, second):
    with open(first, 'wb') as before, open(second, 'wb') as after:
        for k, piece in enumerate(pieces_of(name)):
            (before if k < int(at) else after).write(piece)


sys.exit({'make': make, 'feed': feed, 'take': take, 'alike': alike, 'compare': compare, 'restarted': restarted,
          'held': held, 'cut': cut}[sys.argv[1]](*sys.argv[2:]))
