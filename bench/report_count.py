"""What a capture of the Simple Profile comes to, counted apart from `rist report`: prints the rows of each link, of jitter, of round
trips and of the buffer.

Words: the capture, and the delay in milliseconds. It knows one flow whose base stays, no span and no null packets that are deleted."""
import struct
import sys

MOST = 16383


def records(path):
    """Yields the link, the channel, the microseconds and the octets of each record."""
    with open(path, 'rb') as capture:
        assert capture.read(8) == b'RISTCAP1'
        while head := capture.read(12):
            link, channel, length, us = struct.unpack('>BBHQ', head)
            yield link, channel, us, capture.read(length)


def near(reference, word, cycle):
    """The number nearest to a reference that ends in a word."""
    return reference + (word - reference + cycle // 2) % cycle - cycle // 2


class Count:
    def __init__(self, delay):
        self.delay, self.time = 90 * delay, 0
        self.start = self.high = self.stamp = self.last = None
        # the deadline of each packet that was kept and still waits, and the numbers of all that were kept
        self.waiting, self.kept, self.floor = {}, set(), 0
        self.octets, self.first, self.recovered = [0] * 16, [0] * 16, [0] * 16
        self.jitter, self.trips = [], []
        # the greatest fill after a record, and the most of the delay that was used up before a packet that was kept, in ticks
        self.most = self.used = 0

    def play(self):
        due = [number for number, deadline in self.waiting.items() if deadline <= self.time]
        if due:
            self.floor = max(self.floor, max(due) + 1)
            self.waiting = {number: deadline for number, deadline in self.waiting.items() if number >= self.floor}

    def fill(self):
        """How far ahead the packet with the highest number is due, where it waits."""
        return max(self.waiting.get(self.high, 0) - self.time, 0)

    def media(self, link, tick, packet):
        _, kind, word, stamp, ssrc = struct.unpack('>BBHII', packet[:12])
        assert packet[0] == 0x80 and kind & 127 == 33
        self.octets[link] += len(packet) - 12
        if self.start is None:
            self.start = (self.time, stamp)
        number = word + (1 << 40) if self.high is None else near(self.high, word, 1 << 16)
        stamp_near = stamp if self.high is None else near(self.stamp, stamp, 1 << 32)
        deadline = self.start[0] + stamp_near - self.start[1] + self.delay
        if deadline <= self.time or number < self.floor or deadline > self.time + 2 * self.delay or number in self.kept:
            return
        self.kept.add(number)
        self.waiting[number] = deadline
        if self.high is None or number > self.high:
            self.high, self.stamp = number, stamp_near
        if ssrc & 1:
            self.recovered[link] += 1
            return
        self.first[link] += 1
        transit = (tick - stamp) % (1 << 32)
        if self.last is not None:
            apart = (transit - self.last) % (1 << 32)
            self.jitter.append(min(min(apart, (1 << 32) - apart) // 9, MOST))
        self.last = transit

    def control(self, us, compound):
        while len(compound) >= 4:
            end = 4 * (1 + int.from_bytes(compound[2:4], 'big'))
            if compound[1] == 204 and compound[0] & 31 == 3 and compound[8:12] == b'RIST' and end >= 24:
                stamp, delay = struct.unpack('>QI', compound[12:24])
                if 0 <= us - stamp <= 10_000_000:
                    self.trips.append(min(max(us - stamp - delay, 0) // 1000, MOST))
                return
            compound = compound[end:]


def ranked(values, above):
    """The least value that no more than so many lie above."""
    return sorted(values, reverse=True)[above] if values else 0


def main(path, delay):
    count = Count(int(delay))
    for link, channel, us, octets in records(path):
        tick = us * 9 // 100
        fill, before, begun, kept = count.fill(), count.time, count.start is not None, len(count.kept)
        count.time = max(count.time, tick)
        count.play()
        if channel == 0 and octets:
            count.media(link, tick, octets)
        elif channel == 1:
            count.control(us, octets)
        count.most = max(count.most, count.fill())
        if begun and len(count.kept) > kept:
            count.used = max(count.used, count.delay - max(fill - (count.time - before), 0))
    for link in range(16):
        if count.octets[link]:
            print('link', link, count.octets[link], count.first[link], count.recovered[link])
    many = len(count.jitter)
    for name, above in (('least', many - 1), ('median', many // 2), ('99%', many // 100)):
        tenths = ranked(count.jitter, above)
        print(f'Jitter, {name} {tenths // 10}.{tenths % 10}')
    many = len(count.trips)
    if many:
        print('Round trips', many)
        for name, above in (('least', many - 1), ('median', many // 2), ('most', 0)):
            print(f'Round trip, {name}', ranked(count.trips, above))
    print('Buffer, most', count.most // 90)
    print('Delay used, most', count.used // 90)


main(*sys.argv[1:])
