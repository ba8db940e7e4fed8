#!/usr/bin/env python3
"""Carries datagrams between a sender and a receiver over loopback, and loses, delays and doubles some of them.

    relay.py [OPTION..] IN:OUT..

What comes to port IN of 127.0.0.1 goes to port OUT; so do the two ports above, IN + 1 and OUT + 1, unless --one-port is given. It
does as a NAT: each address that sends to a port has a socket of its own towards the receiver, and what the receiver answers there
goes back to that address. Above 64 addresses a port the one that was silent for longest loses its socket. Each IN:OUT is a link. Its
first line of output is `ready`; at its end it prints what became of the datagrams of each link each way. It ends once nothing came
for --quiet seconds after the first datagram, at the latest after --most seconds, or on SIGTERM.
"""
import argparse
import heapq
import random
import selectors
import signal
import socket
import sys
import time

WAYS = ('forward', 'back')
MOST_PEERS = 64


def read_options():
    options = argparse.ArgumentParser(description='Loses, delays and doubles datagrams between two ports of loopback.')
    options.add_argument('links', nargs='+', metavar='IN:OUT', help='two ports of 127.0.0.1, each a link')
    options.add_argument('--lose', type=float, default=0, metavar='PERCENT', help='lost of the datagrams forward')
    options.add_argument('--lose-back', type=float, default=0, metavar='PERCENT', help='lost of those back')
    options.add_argument('--double', type=float, default=0, metavar='PERCENT', help='carried twice, each way')
    options.add_argument('--delay', type=float, default=0, metavar='MS', help='time that each datagram takes')
    options.add_argument('--late', type=float, default=0, metavar='PERCENT', help='that take longer, each way')
    options.add_argument('--later', type=float, default=8, metavar='MS', help='by up to so much')
    options.add_argument('--seed', type=int, default=1, help='of the draws; each link and way has draws of its own')
    options.add_argument('--whole', type=int, default=0, metavar='COUNT', help='none of the first datagrams of a way is lost')
    options.add_argument('--cut', default='', metavar='LINK@COUNT',
                         help='after so many datagrams forward to its IN port nothing passes on this link, from 0')
    options.add_argument('--forget', type=int, default=0, metavar='COUNT',
                         help='after each so many datagrams forward all senders have new sockets towards the receiver')
    options.add_argument('--one-port', action='store_true', help='media and control share a port')
    options.add_argument('--quiet', type=float, default=5, metavar='S')
    options.add_argument('--most', type=float, default=60, metavar='S')
    return options.parse_args()


def open_socket(port):
    end = socket.socket(socket.AF_INET, socket.SOCK_DGRAM)
    for buffer in (socket.SO_RCVBUF, socket.SO_SNDBUF):
        end.setsockopt(socket.SOL_SOCKET, buffer, 8 << 20)
    end.setblocking(False)
    end.bind(('127.0.0.1', port))
    return end


class Way:
    """One direction of a link: its draws and its counts, of both ports."""

    def __init__(self, options, link, way):
        self.random = random.Random(f'{options.seed} {link} {way}')
        self.lose = options.lose if way == 'forward' else options.lose_back
        self.came = self.lost = self.doubled = self.cut = 0


class Channel:
    """A port of a link: the socket that senders send to, and for each of their addresses the one towards the receiver."""

    def __init__(self, link, into, out):
        self.link = link
        self.front = open_socket(into)
        self.out = ('127.0.0.1', out)
        self.backs = {}  # by address, the one that was silent for longest first


class Link:
    def __init__(self, options, place, ports):
        into, out = (int(port) for port in ports.split(':'))
        self.place = place
        self.ways = {way: Way(options, place, way) for way in WAYS}
        self.is_cut = False
        self.media = 0
        count = 1 if options.one_port else 2
        self.channels = [Channel(self, into + i, out + i) for i in range(count)]


class Relay:
    def __init__(self, options):
        self.options = options
        self.links = [Link(options, place, ports) for place, ports in enumerate(options.links)]
        cut, _, after = options.cut.partition('@')
        self.cut = (int(cut), int(after)) if options.cut else None
        self.waiting = []
        self.order = self.came = 0
        self.ready = selectors.DefaultSelector()
        for link in self.links:
            for channel in link.channels:
                self.ready.register(channel.front, selectors.EVENT_READ, (channel, None))

    def close_first(self, channel):
        """Closes the socket of the address that was silent for longest."""
        idle = channel.backs.pop(next(iter(channel.backs)))
        self.ready.unregister(idle)
        idle.close()

    def back_of(self, channel, peer):
        """The socket of this address towards the receiver."""
        self.came += 1
        if self.options.forget and self.came % self.options.forget == 0:
            for it in (it for link in self.links for it in link.channels):
                while it.backs:
                    self.close_first(it)
        back = channel.backs.pop(peer, None)
        if back is None:
            if len(channel.backs) == MOST_PEERS:
                self.close_first(channel)
            back = open_socket(0)
            self.ready.register(back, selectors.EVENT_READ, (channel, peer))
        channel.backs[peer] = back
        return back

    def put(self, now, channel, way, end, to, octets):
        """Draws what becomes of a datagram that is to leave by the socket `end`, and queues what is left of it."""
        options, link = self.options, channel.link
        draws = link.ways[way]
        draws.came += 1
        if way == 'forward' and channel is link.channels[0]:
            link.media += 1
            if self.cut == (link.place, link.media - 1):
                link.is_cut = True
        lost, doubled, late, by = (draws.random.random() for _ in range(4))
        if link.is_cut:
            draws.cut += 1
            return
        if 100 * lost < draws.lose and draws.came > options.whole:
            draws.lost += 1
            return
        due = now + options.delay / 1000
        if 100 * late < options.late:
            due += by * options.later / 1000
        copies = 1
        if 100 * doubled < options.double:
            draws.doubled += 1
            copies = 2
        for _ in range(copies):
            self.order += 1
            heapq.heappush(self.waiting, (due, self.order, end, to, octets))

    def carry(self, now):
        """Sends what is due."""
        while self.waiting and self.waiting[0][0] <= now:
            _, _, end, to, octets = heapq.heappop(self.waiting)
            try:
                end.sendto(octets, to)
            except OSError:
                pass  # nobody listens there, there is no room, or the socket is gone: it is lost

    def take(self, now, end, channel, peer):
        """Reads all that a socket has: of a sender where `peer` is None, else of the receiver for that address."""
        some = False
        while end.fileno() >= 0:  # the socket of an address may be closed meanwhile
            try:
                octets, came_from = end.recvfrom(2049)
            except BlockingIOError:
                return some
            except ConnectionRefusedError:
                continue
            some = True
            if peer is None:
                self.put(now, channel, 'forward', self.back_of(channel, came_from), channel.out, octets)
            else:
                self.put(now, channel, 'back', channel.front, peer, octets)
            self.carry(time.monotonic())
        return some

    def run(self):
        start = time.monotonic()
        last = None
        while True:
            now = time.monotonic()
            if now - start > self.options.most or (last is not None and now - last > self.options.quiet):
                return
            wait = 0.1
            if self.waiting:
                wait = max(0, min(wait, self.waiting[0][0] - now))
            for key, _ in self.ready.select(wait):
                now = time.monotonic()
                if self.take(now, key.fileobj, *key.data):
                    last = now
            self.carry(time.monotonic())

    def tell(self):
        for link in self.links:
            for way in WAYS:
                draws = link.ways[way]
                print(f'relay: link {link.place} {way}: {draws.came} came, {draws.lost} lost, {draws.doubled} doubled, '
                      f'{draws.cut} after the cut')
        sys.stdout.flush()


def stop(*_):
    signal.signal(signal.SIGTERM, signal.SIG_IGN)
    sys.exit(0)


def main():
    relay = Relay(read_options())
    signal.signal(signal.SIGTERM, stop)
    print('ready', flush=True)
    try:
        relay.run()
    finally:
        relay.tell()


main()
