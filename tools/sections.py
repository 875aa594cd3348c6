"""The bench's stored script, section by section, and what each is there for.

What it prints comes from the model. Only the lines and numbers that the specification and the requests give are written
here by hand, and compared.
"""
import struct

from bench_model import Bench
from model import LIMIT, POSTS, Station, claim, read
from trials import FIRST, changed, framed, message, refusal, token


class Script:
    def __init__(self):
        self.bench = Bench()
        self.sections = []
        self.named = 0  # posts made by fill

    def section(self, why):
        self.sections.append((why, []))

    def line(self, *texts):
        for text in texts:
            text = text.encode() if isinstance(text, str) else text
            self.sections[-1][1].append((text, self.bench.line(text)))

    def expect(self, text, printed):
        """A line whose output the specification gives."""
        self.line(text)
        claim(self.sections[-1][1][-1][1] == printed, "%r prints %r" % (text, printed))

    def frame(self, place, frame, *, upper=False):
        digits = frame.hex().upper() if upper else frame.hex()
        self.line("f %d %s" % (place, digits))

    def posts(self, place, count, name, services=(0,)):
        for n in range(count):
            self.line("p %d %d %s%d" % (place, services[n % len(services)], name, n + 1))

    def fill(self, place, name, most=POSTS):
        """Posts until so many wait there."""
        while len(self.bench.stations[place].posts) < most:
            self.named += 1
            self.line("p %d 0 %s %d" % (place, name, self.named))

    def ticks(self, count):
        self.line(*["t"] * count)

    def starving(self, count, place):
        """As many lines, and of all frames only tokens reach that place."""
        for _ in range(count):
            self.line("t" if self.bench.addressee() == place else "t %d" % place)

    def all_delivered(self):
        top = read(self.bench.newest).highest
        claim(all(station.delivered == top and not station.posts for station in self.bench.stations), "all is delivered")

    def lines(self):
        return [line for _, lines in self.sections for line in lines]

    def stdin(self):
        return b"\n".join(text for text, _ in self.lines())

    def stdout(self):
        return b"".join(printed for _, printed in self.lines())


# The stored script

def of_the_specification(s):
    s.section("the specification's script: its four lines stand first")
    s.line("r 4 3 7", "p 1 1 up", "p 0 0 ok")
    s.ticks(5)
    claim(s.stdout() == b"0 1 3 0 ok\n1 1 3 0 ok\n1 2 7 1 up\n0 2 7 1 up\n", "the specification's four lines")
    s.section("the specification's trials without a star: sizes of tokens, token 2,000,000,000, a token repeated")
    s.expect("w 16", b"96\n")
    s.expect("w 17", b"no 12\n")
    s.expect("f 1 " + token(7, LIMIT, 2, 2).hex(), b"no 17\n")
    s.expect("f 0 " + FIRST.hex(), b"no 16\n")
    newest = s.bench.newest
    s.frame(1, newest)
    s.expect("f 1 " + newest.hex(), b"no 16\n")
    s.line("w 0", "w 1", "w 15", "w 18", "w 65535")


def rings(s):
    s.section("two stations, the largest ring number and id; an agreed message waits for the safe one before it")
    s.line("r 2000000000 1 65535", "p 0 1 safe a", "p 0 0 agreed b", "p 0 1 safe c", "p 0 0 agreed d", "p 1 0 agreed e",
           "p 1 1 safe f")
    s.ticks(8)
    s.all_delivered()
    s.section("three stations: a safe one waits until two tokens forwarded there have its number covered")
    s.line("r 1 3 9 7", "p 1 1 crown", "p 2 0 throat", "p 0 1 batch", "p 2 1 hearth")
    s.ticks(12)
    s.all_delivered()
    s.section("eight stations, the lowest id first and the rest in no order")
    s.line("r 8 2 9 4 8 3 7 5 6")
    for place in range(8):
        s.posts(place, 3, "%c" % (97 + place), (place % 2, 1, 0))
    s.ticks(32)
    s.all_delivered()
    s.section("founded anew with the same numbers: all marks are 0 again and nothing waits")
    s.line("r 4 3 7", "p 0 0 dropped", "p 1 1 dropped too", "r 4 3 7")
    s.ticks(4)
    s.line("p 0 0 one", "t", "t")


def losses(s):
    for lost in range(4):
        s.section("nothing reaches place %d for a round, then requests and repeats; a repeat is lost too" % lost)
        s.line("r 4 3 7 9 5")
        for place in range(4):
            s.posts(place, 2, "%c" % (97 + place), (place % 2, 1 - place % 2))
        s.starving(5, lost)
        while s.bench.addressee() != lost:
            s.line("t")
        s.line("t %d" % lost, "t %d" % lost)
        s.starving(2, lost)
        s.ticks(16)
        s.all_delivered()
    s.section("a different place at every line")
    s.line("r 4 3 7 9 5")
    for place in range(4):
        s.posts(place, 6, "%c" % (107 + place), (1, 0, 0))
    for n in range(24):
        s.line("t %d" % (n * 3 % 4))
    s.ticks(20)
    s.all_delivered()


def starved(s):
    s.section("only tokens reach place 2: numbers stop at safe mark + 32, for more than ten rounds; then it recovers")
    s.line("r 4 3 7 9")
    for n in range(3):
        s.posts(0, 8, "a%d." % n, (0, 0, 1))
        s.posts(1, 8, "b%d." % n, (1, 0))
        s.starving(6, 2)
    s.starving(27, 2)
    stations, newest = s.bench.stations, read(s.bench.newest)
    claim(newest.highest == 32 and stations[0].posts and stations[0].safe == 0, "flow control stops at safe mark + 32")
    claim(stations[2].stall > 10 and stations[2].level == 0, "more than ten rounds")
    claim(any(len(frame) == 96 for frame in s.bench.cable), "a token with 16 requests")
    claim(any(station.last_count == 16 for station in stations), "16 repeats at one visit")
    s.ticks(33)
    s.all_delivered()
    claim(newest.highest + 16 == read(s.bench.newest).highest, "what waited was broadcast")


def flow(s):
    s.section("every queue full: eight at a visit and 24 in a round, and the fourth station waits")
    s.line("r 4 3 7 9 5")
    for place in range(4):
        s.posts(place, 12, "%c" % (97 + place))
    s.ticks(28)
    s.all_delivered()
    s.section("a queue takes 16 and then no 9; broadcasts make room")
    s.line("r 4 3 7")
    s.posts(0, 17, "q")
    s.line("p 1 0 another's queue is empty", "p 0 2 no service", b"p 0 0 " + b"l" * 65, "t")
    s.posts(0, 9, "again")
    s.ticks(8)
    s.all_delivered()
    s.section("round counts of others: 24 and more leave no new message, 23 leaves one, 128 is the most")
    for round in (24, 23, 20, 16, 15, 128):
        s.line("r 4 3 7")
        s.posts(0, 9, "n")
        s.frame(0, token(round=round))
    s.section("requests are repeated in the list's order and take from the allowance")
    s.line("r 4 3 7 9")
    s.posts(0, 16, "r")
    s.line("t 1")
    s.frame(0, token(3, 9, 8, 0, 7, 8, (5, 2, 8)))
    s.frame(0, token(3, 19, 13, 0, 7, 8, range(13, 0, -1)))
    s.ticks(6)
    s.section("a round count of 128 with a repeat stays 128")
    s.line("r 4 3 7 9", "p 0 0 once", "p 1 0 later", "t 1")
    s.frame(2, token(9, 4, 1, 0, 7, 128, (1,)))
    claim(read(s.bench.newest).round == 128, "at most 128")
    s.ticks(9)
    s.section("16 repeats count as the own last count: of a round count of 32 others have 16, of 0 none")
    for round in (32, 0):
        s.line("r 4 3 7")
        for n in range(1, 17):
            s.frame(0, message(n, b"m%d" % n))
        s.frame(0, token(3, 1, 16, 0, 7, 0, range(1, 17)))
        s.posts(0, 9, "n")
        s.posts(1, 9, "o")
        s.frame(0, token(3, 3, 16, 0, 7, round))
        s.line("t")
    s.section("requests that aren't held stay in the list, before one's own, which aren't listed twice")
    s.line("r 4 3 7 9")
    s.frame(2, message(17, b"the last"))
    s.frame(1, token(7, 2, 17, 0, 3, 0, (17,)))
    claim(read(s.bench.newest).requests == (17, *range(1, 16)), "17 stays")
    s.line("t")
    for n in range(1, 17):
        s.frame(1, message(n, b"m%d" % n))
    s.section("only what is missing is requested: one repeat and seven new")
    s.line("r 4 3 7 9")
    s.posts(0, 3, "m")
    s.line("t 2")
    for frame in s.bench.cable[2:4]:
        s.frame(2, frame)
    s.posts(0, 8, "n")
    s.ticks(9)
    s.all_delivered()


def turns(s):
    quiet_beside_full(s)
    shares(s)
    s.section("request 1: a backlog of 129: no 12, and the post waits on")
    s.line("r 4 3 7", "p 0 0 waits")
    s.expect("f 0 " + token(backlog=129).hex(), b"no 12\n")
    s.line("t", "t")
    s.section("request 1: four stations whose queues are full at every visit: the fourth has its turn too")
    s.line("r 4 3 7 9 5")
    for _ in range(3 * 4):
        for place in range(4):
            s.fill(place, "%c" % (97 + place))
        s.line("t")
    claim({read(frame).sender for frame in s.bench.readings.values()} == {3, 7, 9, 5}, "a turn each")
    s.ticks(4 * 8)
    s.all_delivered()
    window(s)


def quiet_beside_full(s):
    for members in ("3 7", "3 7 9"):
        others = len(members.split()) - 1
        s.section("request 1: beside a station whose queue is full at every visit another posts a line now and then, and "
                  "each goes out at its first visit; ring of %d" % (others + 1))
        s.line("r 4 " + members)
        for turn in range(5):
            s.fill(1, "crown")
            quiet = turn in (1, 2, 4)
            if quiet:
                s.line("p 0 0 batch house %d" % turn)
            before = read(s.bench.newest)
            s.line("t")
            claim(before.backlog == (8 if turn else 0), "eight wait at the crown when it forwards")
            claim(read(s.bench.newest).highest == before.highest + quiet, "the line goes out at its first visit")
            s.ticks(others)
            claim(read(s.bench.newest).highest == before.highest + quiet + 8, "the crown has eight at every visit")
        s.ticks(6 + 2 * others)
        s.all_delivered()


def shares(s):
    s.section("request 1, trials: what waits here and the others' backlog say how many go out")
    for waiting, backlog, new in ((16, 0, 8), (16, 80, 4), (1, 96, 1), (0, 96, 0), (0, 0, 0), (16, 81, 3), (1, 128, 1),
                                  (16, 128, 2)):
        s.line("r 4 3 7")
        s.fill(0, "waits", waiting)
        s.frame(0, token(backlog=backlog))
        after = read(s.bench.newest)
        claim(after.highest == new, "%d wait, backlog %d: %d go out" % (waiting, backlog, new))
        claim(after.backlog == min(128, backlog + waiting - new), "what waits afterwards is added")
        s.line("t")
    s.section("request 1: the own part, 16, is taken off first, not below 0: of a backlog of 96 others have 80, of 8 none")
    for backlog, new in ((96, 4), (8, 8)):
        s.line("r 4 3 7")
        s.fill(0, "waits")
        s.frame(0, token(round=24))
        claim(s.bench.stations[0].own_part == 16, "nothing went out")
        s.frame(0, token(number=3, backlog=backlog))
        claim(read(s.bench.newest).highest == new, "%d go out" % new)
        s.line("t")
    s.section("request 1: round count 24 allows none, whatever the share; of a share of 4 three repeats leave 1, five none")
    s.line("r 4 3 7", "p 0 0 waits")
    s.frame(0, token(round=24, backlog=96))
    claim(len(s.bench.stations[0].posts) == 1, "none")
    for repeats, new in ((3, 1), (5, 0)):
        s.line("r 4 3 7")
        for n in range(1, 6):
            s.frame(0, message(n, b"m%d" % n))
        s.fill(0, "waits")
        s.frame(0, token(highest=5, blocker=7, backlog=80, requests=range(1, repeats + 1)))
        claim(read(s.bench.newest).highest == 5 + new, "%d repeats" % repeats)
        s.line("t")


def window(s):
    s.section("request 1: beside two full stations the window decides: a round carries 16, and a third one's line waits")
    s.line("r 4 3 7 9")
    s.ticks(1)
    for turn in range(4):
        s.fill(1, "crown")
        s.fill(2, "throat")
        if turn == 1:
            s.line("p 0 0 batch house")
        s.ticks(3)
    claim(s.bench.stations[0].posts, "the line waits")
    s.ticks(15)
    s.all_delivered()
    s.section("where no more than seven wait at each of the two, it goes out at its first visit")
    for turn in range(3):
        s.fill(1, "crown", 7)
        s.fill(2, "throat", 7)
        s.ticks(2)
        s.line("p 0 0 batch house %d" % turn)
        s.ticks(1)
        claim(not s.bench.stations[0].posts, "the line goes out")
    s.ticks(9)
    s.all_delivered()


def order_of_arrival(s):
    s.section("frames that overtake, come twice or come back to their sender: had, and the order stays")
    s.line("r 4 3 7 9", "p 0 0 one", "p 0 1 two", "p 0 0 three", "p 1 0 four", "t 2", "t 2")
    one, two, three, four = [frame for frame in s.bench.cable if frame[2] == 1]
    for frame in (three, one, one, four, two, three):
        s.frame(2, frame)
    for frame in (one, three, four):
        s.frame(0, frame)
    s.ticks(6)
    for place in range(3):
        s.frame(place, two, upper=True)
    s.all_delivered()
    s.section("what was let go isn't kept or repeated again, and the level still counts: no 18, then eight new")
    s.posts(0, 9, "n")
    s.frame(0, token(3, 99, 3, 3))
    s.frame(0, token(3, 99, 4, 3, 7, 0, (2,)))
    s.section("a smaller aru doesn't lower the safe mark: 4 + 32 is kept, so that a token with highest 35 is refused")
    s.frame(0, message(36, b"kept"))
    s.frame(0, message(37, b"ahead"))
    s.frame(0, token(3, 102, 35, 0, 7))
    s.frame(0, token(3, 102, 36, 0, 7))
    s.section("the first copy stays, also where another frame has its number")
    s.line("r 4 3 7")
    s.frame(0, message(2, b"first"))
    s.frame(0, message(2, b"second"))
    s.frame(0, message(1, b"agreed", sender=3))
    s.frame(0, message(1, b"safe now", service=1))
    s.section("message 32 is kept, 33 is ahead, 32 again had; a token below a held number: no 18, and it stays the newest")
    s.line("r 4 3 7")
    s.frame(0, message(33, b"ahead"))
    s.frame(0, FIRST)
    s.frame(1, message(LIMIT, b"far ahead"))
    s.frame(1, message(32, b"kept"))
    s.frame(1, message(33, b"ahead"))
    s.frame(1, message(32, b"had"))
    s.line("p 1 0 waits", "t", "t", "t 1", "t 0")
    s.frame(1, token(7, 2, 31, 0, 3))
    s.frame(1, token(7, 2, 32, 0, 3))
    s.line("t", "t")
    s.section("the window begins at the safe mark and not at the level: 33 isn't kept with 1 not yet safe")
    s.line("r 4 3 7")
    s.frame(1, message(1, b"level 1", service=1))
    s.frame(1, message(33, b"ahead"))
    s.frame(1, token(7, 2, 32, 0, 3))
    s.section("a token below the level: no 18; the last token number there is, then no 17 for good")
    s.line("r 4 3 7")
    s.frame(0, message(1, b"level 1"))
    s.line("t")
    s.frame(0, token(3, LIMIT - 1, 1, 0, 7))
    s.line("p 1 0 never", "t", "t", "t 0", "t 1")
    s.frame(1, token(7, LIMIT - 1, 2_000, 2_000))
    s.line("t")


def refusals(s):
    s.section("founding: 3, 4 and 6 in the order of the questions; the old ring stays")
    s.line("r 4 3 7", "p 0 0 the old ring")
    s.line("r 4", "r 4 3", "r 4 1 2 3 4 5 6 7 8 9", "r 0", "r 0 3", "r %d" % (2 ** 64 + 4))
    s.line("r 4 7 3", "r 4 3 3", "r 4 0 7", "r 4 3 0", "r 4 3 7 9 7", "r 4 3 7 2", "r 0 7 3", "r %d 7 3" % (2 ** 64 + 4))
    s.line("r 0 3 7", "r 2000000001 3 7", *["r %d 3 7" % (2 ** bits + 4) for bits in (32, 64, 128)])
    s.line("t", "t")
    s.section("posting: 7, 8 and 9 in the order of the questions")
    s.line("r 4 3 7", *["p 0 %d %s" % (service, "x" * 65) for service in (0, 1, 2, 2 ** 64 + 1)])
    s.line(*["p 0 %d up" % service for service in (2, 256, 2 ** 16, 2 ** 32 + 1, 2 ** 64)])
    s.posts(0, 16, "w")
    s.line("p 0 0 full", "p 0 9 full", b"p 0 1 " + b"x" * 65, "t", "t")
    s.section("frames: 10 to 14 of a ring with one message waiting, which nothing of this disturbs")
    s.line("r 4 3 7 9", "p 0 0 still there", "f 0")
    for frame in odd_frames():
        s.frame(0, frame)
    s.section("tokens: 15 to 18, and a frame with several faults has the first one's number")
    s.frame(1, token(3))
    s.frame(2, FIRST)
    s.ticks(3)
    s.frame(0, token(7, 1, 0, 0))
    s.frame(0, token(3, 2, 0, 0))
    s.frame(0, token(3, 1, 1, 1))
    s.frame(0, token(3, LIMIT, 0, 0))
    s.frame(0, token(3, LIMIT, 1, 1))
    s.frame(0, token(3, 4, 0, 0))
    s.frame(0, token(7, 4, 5, 0, 8, ring=5))
    s.frame(0, token(7, LIMIT, 0, 0))
    s.frame(0, token(7, 4, 5, 0, 8))
    s.frame(0, token(8, 4, 5, 0, 7, 129, ring=5))
    s.line("p 2 1 after all this")
    s.ticks(9)
    s.all_delivered()


def odd_frames():
    """Frames that questions 10 to 14 refuse, for a ring 4 of 3, 7, 9."""
    m, t = message(1, b"up"), token(3, 1, 3, 2, 7, 1, (3, 2))
    ten = [b"\0", b"\0\0", b"\7\0\1\0\4\0\0\0\3", m[:-1], m + b"\0", changed(m, 0, 0), changed(t, 1, 1), t[:31], b"\xff" * 40]
    eleven = [framed(struct.pack("<HIH", kind, 4, 3) + bytes(20)) for kind in (0, 3, 256, 65_535)]
    eleven.append(changed(m, 2, 7, 0, 0, 0, 0, 0))
    twelve = [
        framed(m[2:10]), framed(t[2:10]), framed(m[2:21]), framed(t[2:31]),
        message(ring=0), message(ring=LIMIT + 1), message(rep=0), message(sender=0), message(0), message(LIMIT + 1),
        changed(m, 16, 1), changed(m, 19, 255), message(service=2), message(service=256),
        message(content=b"x" * 65), message(content=b"x" * 200),
        token(ring=0), token(ring=LIMIT + 1), token(rep=0), token(0), token(number=0), token(number=LIMIT + 1),
        token(highest=LIMIT + 1, blocker=7), token(highest=1, aru=2, blocker=7), token(highest=2, aru=2, blocker=7),
        token(highest=2, aru=1), token(blocker=7), token(round=129), token(requests=(1,)), token(backlog=129),
        *[token(highest=17, blocker=7, requests=requests) for requests in (range(1, 18), (1, 1), (2, 0), (18,))],
        framed(t[2:] + b"\0"), changed(t, 30, 0), changed(t, 30, 1), changed(t, 30, 3), changed(t, 30, 2, 1),
        framed(t[2:28] + t[30:])]
    thirteen = [message(ring=5), message(rep=7), token(ring=LIMIT), token(rep=4), message(ring=5, sender=8)]
    fourteen = [message(sender=8), message(sender=65_535), token(8), token(highest=1, blocker=8)]
    for number, frames in ((10, ten), (11, eleven), (12, twelve), (13, thirteen), (14, fourteen)):
        for frame in frames:
            claim(refusal(lambda: Station(4, (3, 7, 9), 3).arrive(frame)) == number, "%s: no %d" % (frame.hex(), number))
            yield frame


def contents(s):
    s.section("contents of 0, 1, 63 and 64 bytes, then 65 and far more: no 7")
    s.line("r 4 3 7", "p 0 0", "p 0 1 ", "p 0 0 x", b"p 0 0 " + b"y" * 63, b"p 0 1 " + b"z" * 64, b"p 0 0 " + b" " * 64)
    s.line(b"p 0 0 " + b"a" * 65, b"p 0 0 " + b" " * 65, b"p 0 1 " + b"b" * 5_000, b"p 0 0 " + b"c" * 70_000)
    s.ticks(6)
    s.all_delivered()
    s.section("spaces and digits at either end belong to the content")
    s.line("r 4 3 7", "p 0 0  one space before", "p 0 1   two before, one behind ", "p 1 0  ", "p 1 0 7 8 9", "p 1 1 p 0 0 x")
    s.ticks(6)
    s.all_delivered()
    s.section("every byte but the newline")
    s.line("r 4 3 7")
    every = bytes(byte for byte in range(256) if byte != 10)
    for n in range(0, 255, 51):
        s.line(b"p %d %d " % (n // 51 % 2, n % 2) + every[n:n + 51])
    s.line(b"p 0 0 \r", b"p 0 0 \0", b"p 0 0 " + b"\xff" * 64)
    s.ticks(6)
    s.all_delivered()


def lines_of_every_sort(s):
    s.section("lines that aren't understood print nothing and change nothing")
    s.line("r 4 3 7", "p 0 0 between")
    first, far = FIRST.hex(), (2, 2 ** 16, 2 ** 32, 2 ** 64)
    s.line("q", "x 4 3 7", "R 4 3 7", "P 0 0 up", "T", "F 0", "W 16", "7", "-", "# t", b"\r", b"\0", b"\xff\xfe", b"y" * 5_000)
    s.line(" ", " t", "tt", "t0", "ttt 0", "r4 3 7", "p0 0 up", "w16", b"t\r", b"t\t0", b"t\0")
    s.line("t x", "t -1", "t +0", "t 0x0", "t 1.", "t 1 ", "t  1", "t 0 1", *["t %d" % place for place in far])
    s.line("p", "p 0", "p 0 ", "p x 0 up", "p 0 x up", "p 0 up", "p -1 0 up", "p 0 -1 up", "p 0 0x up", "p  0 0 up", "p 0  0 up")
    s.line("p 2 0 " + "x" * 65, *["p %d 0 up" % place for place in far])
    s.line("r", "r x", "r x 3 7", "r -5 3 7", "r 5 3 x", "r 5 3 -7", "r 5 3,7", "r 5  3 7", "r 5 3 7 ")
    s.line("r 5 3 65536", "r 5 65539 7", "r 0 7 65536", "r 5 3 %d" % (2 ** 64 + 7))
    s.line("f", "f x", "f 2", "f x " + first, "f -1 " + first, "f  0 " + first, *["f %d %s" % (place, first) for place in far])
    s.line("f 0 0", "f 0 zz", "f 0 " + first[1:], "f 0 " + first[:-1], "f 0 " + first[:-1] + "g", "f 0 0x" + first)
    s.line("f 0 " + first[:2] + " " + first[2:], "f 0 " + first + " ", "f 0 " + "g" * 3_000)
    s.line("w", "w x", "w -1", "w 1 6", "w  16", "w 16 ")
    s.line("t", "t")
    s.section("an empty line is passed over; leading zeros are allowed; hexadecimal in either case")
    s.line("", "r 0004 03 %050d" % 7, "", "", "p 00 01 zeros", "p %030d %030d more" % (1, 0))
    s.line("t 01", "t", "t %030d" % 0, "t", "t", "t", "t", "w %030d" % 16, "w 0017")
    s.frame(0, message(3, b"\xab\xcd\xef", sender=3), upper=True)
    s.line("f 000 " + message(4, b"\xab\xcd\xef").hex().replace("ab", "aB"))
    s.section("the last line has no newline, and counts")
    s.line("r 4 3 7", "p 0 0 the end", "t")


def stored():
    s = Script()
    for part in (of_the_specification, rings, losses, starved, flow, turns, order_of_arrival, refusals, contents,
                 lines_of_every_sort):
        part(s)
    claim(Bench().run(s.stdin()) == s.stdout(), "the script in one piece")
    return s
