"""The specification's starred trials and those of the requests on the model, and random scripts for it: `tools/script`
runs them."""
import random
import struct

from bench_model import Bench
from model import LIMIT, Message, Refused, Station, Token, claim, packed, read, write


def message(number=1, content=b"x", sender=7, service=0, ring=4, rep=3):
    return packed(Message(ring, rep, sender, number, service, content))


def token(addressee=3, number=1, highest=0, aru=0, blocker=0, round=0, requests=(), ring=4, rep=3, backlog=0):
    return packed(Token(ring, rep, addressee, number, highest, aru, blocker, round, backlog, tuple(requests)))


def framed(body):
    return struct.pack("<H", len(body)) + body


def changed(frame, place, *values):
    return frame[:place] + bytes(values) + frame[place + len(values):]


FIRST = bytes.fromhex("1E000200040000000300030001000000") + bytes(16)


def refusal(call):
    try:
        call()
    except Refused as refused:
        return refused.number
    return 0


# The trials

def at_seven(level=0, last_aru=0, last_count=0, posts=0, held=(), own_part=0):
    """The trials' station: members 3, 7, 9, own id 7, otherwise fresh, with all up to the level held."""
    station = Station(4, (3, 7, 9), 7)
    for n in [*range(1, level + 1), *held]:
        station.hold(n, message(n, service=1))
    station.arus, station.last_count, station.own_part = (0, last_aru), last_count, own_part
    for _ in range(posts):
        station.post(0, b"up")
    station.check_whole()
    return station


def is_whole(**values):
    try:
        at_seven(**values)
    except AssertionError:
        return False
    return True


def left(station, **values):
    answer = station.arrive(token(7, **values))
    station.check_whole()
    return answer, read(answer.token)


def starred():
    claim(Station(4, (3, 7), 3).first_token() == FIRST, "the first token of ring 4")
    for members, number in (((3,), 3), ((3, 7), 0), ((7, 3), 4)):
        claim(refusal(lambda: Station(4, members, members[0])) == number, "founding by %r" % (members,))
    claim(refusal(lambda: Station(4, (3, 7), 9)) == 5, "founding for a stranger")
    station = at_seven()
    claim([station.arrive(message(n)).word for n in (32, 33, 32)] == ["kept", "ahead", "had"], "messages 32, 33, 32")
    for aru, blocker, level, leaves in ((10, 0, 7, (7, 7)), (5, 9, 7, (5, 9)), (5, 7, 10, (10, 0))):
        _, after = left(at_seven(level), highest=10, aru=aru, blocker=blocker)
        claim((after.aru, after.blocker) == leaves, "aru %d, blocker %d, level %d" % (aru, blocker, level))
    station = at_seven(10, last_aru=10)
    _, after = left(station, highest=10, aru=7, blocker=9)
    claim(after.aru == 7 and station.safe == 7, "forwarded 10, then 7: safe mark 7")
    answer, after = left(at_seven(3, 0, 10, 16), highest=3, aru=3, round=30, requests=(1, 2, 3))
    claim(len(answer.broadcasts) == 3 + 1 and after.round == 24, "round count 30, own last 10: one new, leaves 24")
    answer, after = left(at_seven(posts=16), round=24)
    claim(answer.broadcasts == [] and after.highest == 0, "round count 24, own last 0: no new message")
    claim([len(message(content=bytes(n))) for n in (0, 64)] == [22, 86], "frames of 22 and 86 bytes")
    claim(refusal(lambda: at_seven().post(0, bytes(65))) == 7, "content of 65 bytes: 7")
    claim(refusal(lambda: write(Message(4, 3, 7, 1, 0, bytes(65)))) == 12, "the writer and 65 bytes: 12")
    station = at_seven()
    claim(refusal(station.resend) == 19, "nothing to resend at first")
    answer, _ = left(station)
    claim(station.resend() == answer.token == station.resend(), "resending writes the remembered token")
    claim(refusal(lambda: station.arrive(message(sender=8))) == 14 and station.resend(), "a refused arrival leaves the leave")
    claim(station.arrive(message()).word == "kept" and refusal(station.resend) == 19, "a message ends the leave")


def shared():
    """Request 1: what waits here, the token's backlog, the own part; how many go out, and the backlog that is left."""
    for posts, backlog, own_part, new, leaves in (
            (16, 0, 0, 8, 8), (16, 80, 0, 4, 92), (16, 96, 16, 4, 92), (16, 81, 0, 3, 94), (16, 128, 0, 2, 128),
            (16, 8, 16, 8, 8), (1, 96, 0, 1, 96), (1, 23, 0, 1, 23), (1, 128, 0, 1, 128), (2, 46, 0, 1, 47), (3, 21, 0, 3, 21),
            (0, 128, 0, 0, 128), (0, 96, 16, 0, 80), (0, 0, 0, 0, 0)):
        what = "%d wait, backlog %d, own part %d" % (posts, backlog, own_part)
        station = at_seven(posts=posts, own_part=own_part)
        answer, after = left(station, backlog=backlog)
        claim((len(answer.broadcasts), after.backlog, station.own_part) == (new, leaves, posts - new), what)
    for posts, backlog, round, allowance in ((0, 128, 0, 8), (0, 128, 20, 4), (16, 80, 22, 2), (1, 96, 24, 0), (16, 80, 20, 4)):
        values = read(token(7, round=round, backlog=backlog))
        claim(at_seven(posts=posts).allowance(values) == allowance, "allowance %d" % allowance)
    answer, _ = left(at_seven(3, posts=16), highest=3, aru=3, backlog=80, requests=(1, 2, 3))
    claim(len(answer.broadcasts) == 3 + 1, "repeats are taken off the share: three and one new")
    answer, _ = left(at_seven(3), highest=3, aru=3, backlog=128, requests=(1, 2, 3))
    claim(len(answer.broadcasts) == 3, "the share does not limit repeats")
    for backlog, number in ((128, 0), (129, 12), (65_535, 12)):
        claim(refusal(lambda: at_seven().arrive(token(7, backlog=backlog))) == number, "backlog %d" % backlog)
    claim(is_whole(own_part=16) and not is_whole(own_part=17), "an own part of 16, and of 17")


def three_rounds(dice):
    """What everybody has received, everybody has delivered three rounds later, whatever is lost."""
    bench = dice.bench
    if bench.stations and bench.pure:
        common = min(station.level for station in bench.stations)
        for _ in range(3 * len(bench.stations)):
            lost = dice.place()
            bench.line(dice.one_post(dice.place()))
            bench.line(b"t" if lost == bench.addressee() else b"t %d" % lost)
        claim(all(station.delivered >= common for station in bench.stations), "delivered three rounds later")


# Random scripts

class Dice:
    def __init__(self, seed):
        self.rng = random.Random(seed)
        self.bench = Bench()
        self.lines, self.printed = [], []
        self.forging = False

    def script(self, count):
        while len(self.lines) < count:
            for text in self.some_lines():
                text = text.encode() if isinstance(text, str) else text
                self.printed.append(self.bench.line(text))
                self.lines.append(text)
        return b"\n".join(self.lines[:count]) + self.rng.choice((b"\n", b""))

    def some_lines(self):
        pick = self.rng.choices((self.ring, self.post, self.burst, self.tick, self.ticks, self.copy, self.forged, self.odd),
                                (1, 12, 2, 20, 3, 6, 6, 3))[0]
        if not self.bench.stations and self.rng.random() < 0.8:
            pick = self.ring
        if not self.bench.stations and pick not in (self.ring, self.odd):
            return [self.rng.choice(("t", "t 0", "p 0 0 early", "f 0", "f 0 " + FIRST.hex()))]
        return pick()

    def ring(self):
        rng = self.rng
        ids = rng.sample(range(1, rng.choice((10, 1000, 65_536))), rng.randint(2, 8))
        ids = [min(ids)] + [one for one in ids if one != min(ids)]
        if rng.random() < 0.15:
            ids = rng.choice((ids[:1], ids[::-1], ids + ids[:1], [0] + ids, ids + list(range(1, 9)), []))
        number = rng.choice((4, rng.randint(1, LIMIT), LIMIT))
        if rng.random() < 0.1:
            number = rng.choice((0, LIMIT + 1, 2 ** 32 + 4, 2 ** 64))
        self.forging = rng.random() < 0.4
        return [" ".join(map(str, ["r", number] + ids))]

    def place(self):
        return self.rng.randrange(len(self.bench.stations))

    def post(self):
        return [self.one_post(self.place())]

    def burst(self):
        place = self.place()
        return [self.one_post(place) for _ in range(self.rng.randint(2, 18))]

    def one_post(self, place):
        rng = self.rng
        size = rng.choice((0, 1, 2, 3, 5, 8, 63, 64)) if rng.random() < 0.97 else rng.choice((65, 66, 100, 5_000, 70_000))
        content = bytes(rng.choice(b"abc xyz 019\0\r\xff\x80") for _ in range(min(size, 200))).ljust(size, b".")
        service = rng.choice((0, 0, 1)) if rng.random() < 0.97 else rng.choice((2, 255, 65_536, 2 ** 32, 2 ** 64 + 1))
        return b"p %d %d " % (place, service) + content

    def tick(self):
        return ["t" if self.rng.random() < 0.6 else "t %d" % self.place()]

    def ticks(self):
        """A lossless run, or one in which only tokens reach a place."""
        starved, size, turn = self.place(), len(self.bench.stations), self.bench.addressee()
        if self.rng.random() < 0.5:
            starved = None
        return ["t" if starved in (None, (turn + n) % size) else "t %d" % starved
                for n in range(self.rng.randint(2, 4 * size))]

    def copy(self):
        frame = self.rng.choice(self.bench.cable[-40:] if self.rng.random() < 0.7 else self.bench.cable)
        return ["f %d %s" % (self.place(), frame.hex())]

    def forged(self):
        """Refused frames in every ring; others that pass the layout in some rings only, as they end the common order."""
        rng, place = self.rng, self.place()
        frame = rng.choice(self.bench.cable[-20:])
        frame = rng.choice((self.flipped, self.cut, self.other_token, self.other_message))(frame, place)
        if not self.forging and not refusal(lambda: self.bench.stations[place].passes(read(frame))):
            return []
        digits = frame.hex() if rng.random() < 0.8 else frame.hex().upper()
        return ["f %d %s" % (place, digits)]

    def flipped(self, frame, place):
        at = self.rng.randrange(len(frame))
        return changed(frame, at, self.rng.choice((0, 1, 2, 255, frame[at] ^ 1, self.rng.randrange(256))))

    def cut(self, frame, place):
        body = frame[2:] + bytes(self.rng.choice((0, 1, 4, 64, 100)))
        body = body[:self.rng.choice((0, 7, 8, 19, 20, 28, 29, 30, 34, 84, 85, 94, 95, 500))]
        return framed(body) if self.rng.random() < 0.7 else frame[:2] + body

    def other_token(self, frame, place):
        rng, here = self.rng, self.bench.stations[place]
        highest = rng.choice((here.level, max([here.level, *here.held]), here.safe + rng.randint(0, 40)))
        aru = rng.choice((highest, here.level, rng.randint(0, highest)))
        blocker = rng.choice(here.members) if aru != highest and rng.random() < 0.95 else 0
        requests = rng.sample(range(max(1, highest - 33), highest + 1), rng.randint(0, min(17, highest)))
        number = rng.choices((here.last_token + rng.randint(0, 3), LIMIT - 1, LIMIT), (30, 1, 1))[0]
        round = rng.choice((0, 3, 8, 16, 20, 23, 24, 30, 127, 128, 129))
        backlog = rng.choices((0, rng.randint(0, 128), 128, 129), (8, 12, 2, 1))[0]
        return token(here.own, number, highest, aru, blocker, round, requests, here.ring, here.members[0], backlog)

    def other_message(self, frame, place):
        rng, here = self.rng, self.bench.stations[place]
        number, sender = max(0, here.safe + rng.randint(-2, 34)), rng.choice(here.members + [(here.own + 1) % 65_536])
        return message(number, b"forged", sender, rng.choice((0, 0, 1, 2)), here.ring, here.members[0])

    def odd(self):
        rng = self.rng
        return [rng.choice((
            "", "", "q", b"\xff\0\r", "z" * rng.choice((10, 1_000, 70_000)), " t", "t x", "t 8", "t -1", "t 0 0", "t 00",
            "p", "p 0", "p 0 x", "p 8 0 up", "p 0  0 up", "p 0 0", "p 0 1 ", "p 00 00 zeros",
            "r", "r x", "r 4 3 65536", "r 4 3 7 x", "r 4", "w", "w x", "w 00", "w 16", "w %d" % rng.randint(0, 20), "w 65552",
            "f", "f 0", "f 8 00", "f 0 0", "f 0 0g", "f 0 00 00", "f 0 " + "00" * 2_000, "f 0 " + FIRST.hex()))]
