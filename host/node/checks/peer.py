"""A ring of two in which this script is station 7: what station 3 puts on the cable, and when again."""

import signal
import socket
import struct
import time

from .lines import until
from .nodes import Station, free_ports, member_flags
from .tally import check, equal

TOKEN, MESSAGE = 2, 1
BACKLOG_AT = 28  # in a token
RESEND = 0.02  # seconds


def message(number, content=b"late", sender=7):
    body = struct.pack("<HIHHIIH", MESSAGE, 4, 3, sender, number, 0, 0) + content
    return struct.pack("<H", len(body)) + body


def token(number, highest=0, aru=0, blocker=0, addressee=3, backlog=0):
    body = struct.pack("<HIHHIIIHHHH", TOKEN, 4, 3, addressee, number, highest, aru, blocker, 0, backlog, 0)
    return struct.pack("<H", len(body)) + body


def frames(datagram):
    """The frames of a datagram by their length fields, which must be exact."""
    found = []
    while datagram:
        size = struct.unpack_from("<H", datagram)[0] + 2
        check(size <= len(datagram), "a datagram is cut within a frame")
        found.append(datagram[:size])
        datagram = datagram[size:]
    return found


class Peer:
    """Station 7's end of the cable, and station 3 as a process."""

    def __init__(self, posts=None, flags=()):
        ports = free_ports(2)
        self.socket = socket.socket(socket.AF_INET, socket.SOCK_DGRAM)
        self.socket.bind(("127.0.0.1", ports[1]))
        self.to = ("127.0.0.1", ports[0])
        timeout = str(int(RESEND * 1000))
        own = ["--own", "3", "--resend", timeout, *flags]
        self.station = Station(member_flags([3, 7], ports) + own, posts)

    def receive(self, seconds):
        self.socket.settimeout(seconds)
        try:
            return self.socket.recv(4096)
        except TimeoutError:
            return None

    def send(self, *parts):
        self.socket.sendto(b"".join(parts), self.to)

    def count(self, seconds):
        """How many datagrams come in that time, and the last of them."""
        end, n, last = time.monotonic() + seconds, 0, None
        while (left := end - time.monotonic()) > 0:
            datagram = self.receive(left)
            if datagram is not None:
                n, last = n + 1, datagram
        return n, last

    def stop(self):
        self.station.process.terminate()
        equal(self.station.wait(), 0, "status of station 3")
        self.socket.close()


def one_datagram_a_visit():
    """Nine posts wait: eight messages and the token come in one datagram, the ninth with the next visit."""
    peer = Peer(b"".join(b"0 reading %d\n" % i for i in range(9)))
    first = peer.receive(5)
    equal(frames(first), [token(2, addressee=7)], "the first token goes on at once")
    peer.send(token(3))
    second = frames(peer.receive(5))
    equal([f[22:] for f in second[:-1]], [b"reading %d" % i for i in range(8)], "eight messages")
    equal(second[-1][2:16], token(4, addressee=7)[2:16], "and the token behind them")
    peer.stop()


def share_of_a_visit():
    """Sixteen posts wait here and 80 elsewhere: four go out, and 92 wait in all."""
    peer = Peer(b"".join(b"0 reading %d\n" % i for i in range(16)))
    peer.receive(5)
    peer.send(token(3, backlog=80))
    second = frames(peer.receive(5))
    equal([f[22:] for f in second[:-1]], [b"reading %d" % i for i in range(4)], "four messages")
    equal(struct.unpack_from("<H", second[-1], BACKLOG_AT)[0], 92, "the backlog that goes on")
    peer.stop()


def shows(station, count):
    """Asked now, it says that so many messages are held and not delivered."""
    station.process.send_signal(signal.SIGUSR1)
    time.sleep(0.01)
    said = [line for line in station.errors().splitlines() if "held and not delivered" in line]
    return bool(said) and said[-1].endswith(f": {count}")


def held_behind_a_gap():
    """Message 2 has come, message 1 has not: one is held and not delivered."""
    peer = Peer()
    peer.receive(5)
    for number, count in ((2, 1), (1, 0)):
        peer.send(message(number))
        until(lambda count=count: shows(peer.station, count), f"{count} held and not delivered")
    peer.stop()


def resent_while_quiet():
    peer = Peer()
    first = peer.receive(5)
    n, last = peer.count(10 * RESEND)
    check(4 <= n <= 11, f"the token comes {n} times in ten timeouts")
    equal(last, first, "the same token comes again")
    peer.stop()


def copy_after_long_quiet():
    """A message that comes late ends the leave to resend; the ring must not stand still for ever."""
    peer = Peer(flags=["--refusals"])
    first = peer.receive(5)
    peer.send(message(1))
    n, _ = peer.count(3 * RESEND)
    check(n == 0, f"after a message the token is resent {n} times all the same")
    n, last = peer.count(10 * RESEND)
    check(n >= 2, f"the token comes {n} times after a long quiet")
    equal(last, first, "the copy is the same token")
    peer.stop()
    says = peer.station.errors()
    check("refusal 19, " in says and " 0 sent again from the copy" not in says, f"what is counted: {says!r}")


def repeats_are_no_life():
    """Old frames come all the time; the token is sent again all the same."""
    for old in (token(1), message(1), message(100)):
        peer = Peer()
        first = peer.receive(5)
        peer.send(message(1))
        end, n = time.monotonic() + 20 * RESEND, 0
        while time.monotonic() < end:
            peer.send(old)
            n += peer.receive(RESEND / 4) == first
        check(n >= 4, f"the token is sent again {n} times while old frames come")
        peer.stop()


def deaf_notice():
    """Message 1 never comes: from the eleventh visit on the station is deaf, and says so once."""
    peer = Peer()
    for number in range(3, 33, 2):
        peer.receive(5)
        peer.send(token(number, highest=1, aru=0, blocker=3))
    peer.receive(5)
    peer.stop()
    equal(peer.station.errors(),
          "totem-node: station 3 is deaf: the ring has waited for it for more than 10 visits of the token\n",
          "the notice 'deaf'")


def last_token():
    peer = Peer()
    peer.receive(5)
    peer.send(token(2_000_000_000))
    peer.send(token(2_000_000_000))
    peer.receive(5)
    peer.stop()
    equal(peer.station.errors(),
          "totem-node: the ring's token numbers have run out: found a new ring, with a higher ring number\n",
          "the last token")


def several_frames_in_a_datagram():
    """Frames are taken out of a datagram one by one, in order; what is cut at its end is refused."""
    peer = Peer(flags=["--refusals"])
    peer.receive(5)
    peer.send(message(1, b"a"), message(2, b"b"), message(3, b"c")[:-1])
    peer.send(b"")
    peer.send(b"\x00")
    peer.send(message(4, b"d" * 64) * 60)
    peer.send(message(3, b"e"), token(3, highest=4, aru=4))
    n, last = peer.count(3 * RESEND)
    equal(frames(last)[-1][12:16], struct.pack("<I", 4), "the token is taken after the messages")
    peer.stop()
    equal(peer.station.output(), b"0 1 7 0 a\n0 2 7 0 b\n0 3 7 0 e\n0 4 7 0 " + b"d" * 64 + b"\n",
          "what is delivered")
    check("refusal 10, 4 times: " in peer.station.errors(), f"refusals: {peer.station.errors()!r}")


def held_token():
    """An idle ring's token waits at the representative, and leaves at once when there is a post."""
    peer = Peer(flags=["--resend", "500", "--hold", "400"])
    number = 2
    for _ in range(4):
        peer.receive(5)
        peer.send(token(number + 1))
        number += 2
    begin = time.monotonic()
    peer.receive(5)
    held = time.monotonic() - begin
    check(0.3 < held < 2, f"an idle ring's token was held for {held * 1000:.1f} ms")
    peer.send(token(number + 1))
    time.sleep(0.1)
    begin = time.monotonic()
    peer.station.say(b"0 news\n")
    peer.receive(5)
    held = time.monotonic() - begin
    check(held < 0.2, f"a post ended the hold only after {held * 1000:.1f} ms")
    peer.send(token(number + 3))
    check(b"news" in (peer.receive(5) or b""), "the post goes out at the next visit")
    peer.stop()


def run_all():
    one_datagram_a_visit()
    share_of_a_visit()
    held_behind_a_gap()
    resent_while_quiet()
    copy_after_long_quiet()
    repeats_are_no_life()
    deaf_notice()
    last_token()
    several_frames_in_a_datagram()
    held_token()
