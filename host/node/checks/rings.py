"""Rings of 2, 3 and 8 stations with losses and noise: the lists are alike, and nothing is missing."""

import random
import socket
import struct
import threading

from .lines import deliveries
from .nodes import free_ports, ring
from .peer import message, token
from .tally import check, equal

QUICK = ["--resend", "4", "--linger", "700"]


def posts_of(own, count):
    return b"".join(b"%d %d reading %d\n" % (i % 5 == 0, own, i) for i in range(count))


def compare(stations, ids, count, what):
    equal([s.wait() for s in stations], [0] * len(ids), f"{what}: status")
    lists = [deliveries(s) for s in stations]
    equal([place for place, _ in lists], [b"%d" % i for i in range(len(ids))], f"{what}: places")
    for i, (_, lines) in zip(ids, lists):
        check(lines == lists[0][1], f"{what}: the lists of stations {ids[0]} and {i} differ")
    lines = lists[0][1]
    equal([int(l.split(b" ")[0]) for l in lines], list(range(1, len(ids) * count + 1)), f"{what}: numbers")
    for own in ids:
        mine = b"".join(l.split(b" ", 2)[2] + b"\n" for l in lines if l.split(b" ")[1] == b"%d" % own)
        check(mine == posts_of(own, count), f"{what}: the posts of station {own} in their order")


def lost_share(stations):
    words = " ".join(s.errors() for s in stations).split()
    lost = sum(int(words[i - 1]) for i, w in enumerate(words) if w == "lost")
    return lost / sum(int(words[i - 1]) for i, w in enumerate(words) if w == "frames")


def lossy(ids, percent, count, flags=()):
    what = f"{len(ids)} stations, {percent} % lost"
    stations = ring(ids, [posts_of(i, count) for i in ids],
                    QUICK + ["--drop", str(percent), "--seed", "17", "--refusals", *flags])
    compare(stations, ids, count, what)
    share = lost_share(stations)
    check(abs(share - percent / 100) < 0.06 and (percent > 0) == (share > 0), f"{what}: {share:.3f} lost")
    for s in stations:
        check("refusal 15, " not in s.errors(), f"{what}: a token went to another station")


def noise_datagram(chance):
    """Random bytes, damaged frames, frames of other rings, tokens of the past, strange lengths."""
    kind = chance.randrange(6)
    if kind == 0:
        return chance.randbytes(chance.randrange(0, 1600))
    if kind == 1:
        header = struct.pack("<HHIH", chance.randrange(100), chance.randrange(4), 4, 3)
        return header + chance.randbytes(chance.randrange(90))
    if kind == 2:
        return message(chance.randrange(2 ** 32), chance.randbytes(chance.randrange(100)), sender=77)
    if kind == 3:
        return token(1, addressee=chance.choice([3, 7, 9]))
    if kind == 4:
        return b"\x00\x00" * chance.randrange(1, 400)
    frame = bytearray(message(chance.randrange(1, 100)) + token(chance.randrange(1, 10 ** 6)))
    frame[chance.randrange(2, 10)] ^= 1 << chance.randrange(8)
    return bytes(frame)


def make_noise(ports, stop):
    chance = random.Random(20260411)
    with socket.socket(socket.AF_INET, socket.SOCK_DGRAM) as s:
        while not stop.wait(0.0005):
            for _ in range(4):
                s.sendto(noise_datagram(chance), ("127.0.0.1", chance.choice(ports)))


def noisy():
    """Frames that no station wrote reach all stations, as fast as this script can send them."""
    ids, count = [3, 7, 9], 1500
    ports, stop = free_ports(3), threading.Event()
    noise = threading.Thread(target=make_noise, args=(ports, stop))
    noise.start()
    flags = QUICK + ["--drop", "5", "--refusals"]
    stations = ring(ids, [posts_of(i, count) for i in ids], flags, ports)
    try:
        compare(stations, ids, count, "noise")
    finally:
        stop.set()
        noise.join()
    for number in (10, 11, 12, 13, 14, 15, 16):
        check(any(f"refusal {number}, " in s.errors() for s in stations), f"noise: no refusal {number}")


def run_all():
    lossy([3, 7], 0, 3000)
    lossy([3, 7], 35, 300)
    lossy([3, 7, 9], 40, 200)
    lossy([1, 65535, 2, 300, 7, 9, 4, 5], 10, 60)
    noisy()
