#!/usr/bin/env python3
"""Sends hostile datagrams to a receiver on loopback.

    hostile.py CAPTURE PORT COUNT BATCH SEED [OPTION..]     sends COUNT datagrams to a port of 127.0.0.1, BATCH each millisecond

    --control      every fourth goes to PORT + 1
    --nonces       each is enciphered in form, under a nonce that was not there before

CAPTURE has real datagrams of the same session under another SSRC. A datagram is one of these five, drawn by SEED: random octets; a
real one with some octets changed; a real one cut short; one of an extreme length, from none to 65,507 octets; a real one whose
numbers, timestamps and lengths are all ones, zeros or near a wrap.
"""
import argparse
import random
import socket
import time

NAME_LEN, HEAD_LEN = 8, 12
EXTREMES = (0, 1, 0x7F, 0x80, 0xFE, 0xFF)
LENGTHS = (0, 1, 2, 3, 4, 7, 8, 11, 12, 13, 16, 19, 20, 28, 1500, 1501, 2047, 2048, 2049, 9000, 65507)
# Datagrams are drawn from so many that were made before.
MADE = 20000


def read_options():
    options = argparse.ArgumentParser(description='Sends hostile datagrams to a receiver on loopback.')
    options.add_argument('capture')
    for name in ('port', 'count', 'batch', 'seed'):
        options.add_argument(name, type=int)
    options.add_argument('--control', action='store_true', help='every fourth goes to the port above')
    options.add_argument('--nonces', action='store_true', help='each is enciphered in form, under a nonce of its own')
    return options.parse_args()


def datagrams_of(name):
    with open(name, 'rb') as file:
        octets = file.read()
    at, found = NAME_LEN, []
    while at + HEAD_LEN <= len(octets):
        length = int.from_bytes(octets[at + 2:at + 4], 'big')
        found.append(octets[at + HEAD_LEN:at + HEAD_LEN + length])
        at += HEAD_LEN + length
    return found


def changed(draws, real):
    octets = bytearray(real)
    for _ in range(draws.randint(1, 8)):
        octets[draws.randrange(min(len(octets), draws.choice((4, 16, 40, len(octets)))))] = draws.randrange(256)
    return bytes(octets)


def extreme(draws, real):
    octets = bytearray(real)
    for at in range(draws.randrange(24), min(draws.randrange(48), len(octets))):
        octets[at] = draws.choice(EXTREMES)
    return bytes(octets)


def made(draws, reals):
    kind, real = draws.randrange(5), draws.choice(reals)
    if kind == 0:
        return draws.randbytes(draws.randrange(1, 1500))
    if kind == 1:
        return changed(draws, real)
    if kind == 2:
        return real[:draws.randrange(len(real))]
    if kind == 3:
        length = draws.choice(LENGTHS)
        return (real * (length // len(real) + 1))[:length]
    return extreme(draws, real)


def main():
    options = read_options()
    draws = random.Random(options.seed)
    reals = datagrams_of(options.capture)
    datagrams = [made(draws, reals) for _ in range(min(MADE, options.count))]
    end = socket.socket(socket.AF_INET, socket.SOCK_DGRAM)
    media, control = ('127.0.0.1', options.port), ('127.0.0.1', options.port + 1)
    start, refused = time.monotonic(), 0
    for k in range(options.count):
        if k % options.batch == 0:
            rest = start + k / options.batch / 1000 - time.monotonic()
            if rest > 0:
                time.sleep(rest)
        if options.nonces:
            # GRE with a key, the nonce, and a sequence number
            real = draws.choice(reals)
            octets = real[:4] + (k + 1).to_bytes(4, 'big') + real[8:]
        else:
            octets = datagrams[k % len(datagrams)] if k < len(datagrams) else draws.choice(datagrams)
        try:
            end.sendto(octets, control if options.control and k % 4 == 0 else media)
        except OSError:
            refused += 1
    took = time.monotonic() - start
    print(f'{options.count} hostile datagrams in {took:.1f} s, {refused} of which the kernel refused')


main()
