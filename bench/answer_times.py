#!/usr/bin/env python3
"""Carries a session of the Simple Profile between a sender and a receiver, drops one media datagram of so many, and says how long after a
request for it the sender's answer came.

    answer_times.py IN OUT EVERY [MOST]

What comes to the ports IN and IN + 1 of 127.0.0.1 goes to OUT and OUT + 1, and what the receiver answers goes back; of the media that
aren't sent again each EVERYth is dropped, and nothing else. A request is looked for in what goes back: a range (VSF TR-06-1, 5.3.2.2,
an APP packet `RIST` of subtype 0) or a bit mask (RFC 4585, 6.2.1). The time of an answer runs from the moment before the request that
first names the number is handed to the system, to the moment at which the system received the retransmission (SSRC with its last bit
set). A request is one in a silence where no media came for 20 ms before it. The first line of output is `ready`; on SIGTERM, or after
MOST seconds (120), it prints a line of JSON: how many were dropped, and of all and of those in a silence how many were asked for and
answered, and of these times in ms the median, the one that nine of ten don't exceed, and the longest.
"""
import json
import select
import signal
import socket
import struct
import sys
import time

SO_TIMESTAMPNS = 35
SILENCE = 20_000_000


def open_socket(port):
    end = socket.socket(socket.AF_INET, socket.SOCK_DGRAM)
    end.setsockopt(socket.SOL_SOCKET, socket.SO_RCVBUF, 8 << 20)
    end.setsockopt(socket.SOL_SOCKET, SO_TIMESTAMPNS, 1)
    end.setblocking(False)
    end.bind(('127.0.0.1', port))
    return end


def received(end):
    """A datagram, where it came from, and when the system received it; None where there is none."""
    try:
        octets, ancillary, _, peer = end.recvmsg(2049, 128)
    except BlockingIOError:
        return None
    stamps = [struct.unpack('=qq', it) for level, kind, it in ancillary if (level, kind) == (socket.SOL_SOCKET, SO_TIMESTAMPNS)]
    at = stamps[0][0] * 1_000_000_000 + stamps[0][1] if stamps else time.clock_gettime_ns(time.CLOCK_REALTIME)
    return octets, peer, at


def asked_numbers(octets):
    """The numbers that an RTCP compound asks for."""
    numbers, at = [], 0
    while at + 4 <= len(octets):
        first, kind, length = struct.unpack('>BBH', octets[at:at + 4])
        end = at + 4 * (length + 1)
        is_range = kind == 204 and first & 31 == 0 and octets[at + 8:at + 12] == b'RIST'
        if is_range or (kind == 205 and first & 31 == 1):
            for word in range(at + 12, end - 3, 4):
                number, more = struct.unpack('>HH', octets[word:word + 4])
                rest = range(1, more + 1) if is_range else (k + 1 for k in range(16) if more >> k & 1)
                numbers += [number] + [(number + k) & 0xFFFF for k in rest]
        at = end
    return numbers


class Relay:
    def __init__(self, into, out, every):
        self.every = every
        self.fronts = [open_socket(into + k) for k in range(2)]
        self.backs = [open_socket(0) for _ in range(2)]
        self.outs = [('127.0.0.1', out + k) for k in range(2)]
        self.peers = [None, None]
        self.media = self.last = 0
        self.dropped = set()
        self.waiting = {}  # by number: when it was first asked for, and whether in a silence
        self.asked = []
        self.times = []

    def forward(self, channel, octets, peer, at):
        self.peers[channel] = peer
        if channel == 0 and len(octets) >= 12:
            number, again = int.from_bytes(octets[2:4], 'big'), octets[11] & 1
            if again:
                if number in self.waiting:
                    start, silent = self.waiting.pop(number)
                    self.times.append(((at - start) / 1e6, silent))
            else:
                self.media += 1
                self.last = at
                if self.media % self.every == 0:
                    self.dropped.add(number)
                    return
        self.backs[channel].sendto(octets, self.outs[channel])

    def back(self, channel, octets):
        if self.peers[channel] is None:
            return
        fresh = [it for it in asked_numbers(octets) if it in self.dropped]
        self.dropped.difference_update(fresh)
        now = time.clock_gettime_ns(time.CLOCK_REALTIME)
        silent = now - self.last > SILENCE
        self.asked += [silent] * len(fresh)
        self.waiting.update((it, (now, silent)) for it in fresh)
        self.fronts[channel].sendto(octets, self.peers[channel])

    def run(self, until):
        ends = self.fronts + self.backs
        while time.monotonic() < until:
            ready, _, _ = select.select(ends, [], [], 0.1)
            for end in ready:
                place = ends.index(end)
                while came := received(end):
                    if place < 2:
                        self.forward(place, *came)
                    else:
                        self.back(place - 2, came[0])

    def tell(self):
        def shown(asked, times):
            times = sorted(times)
            told = {'asked': asked, 'answered': len(times)}
            if times:
                told.update(median=round(times[len(times) // 2], 2), ninety=round(times[len(times) * 9 // 10], 2), longest=round(times[-1], 2))
            return told

        print(json.dumps({'media': self.media, 'dropped': self.media // self.every,
                          'all': shown(len(self.asked), [it for it, _ in self.times]),
                          'silent': shown(sum(self.asked), [it for it, silent in self.times if silent])}), flush=True)


def stop(*_):
    signal.signal(signal.SIGTERM, signal.SIG_IGN)
    sys.exit(0)


def main():
    into, out, every = (int(word) for word in sys.argv[1:4])
    relay = Relay(into, out, every)
    signal.signal(signal.SIGTERM, stop)
    print('ready', flush=True)
    try:
        relay.run(time.monotonic() + float(sys.argv[4] if len(sys.argv) > 4 else 120))
    finally:
        relay.tell()


main()
