"""A model of frames and of the station, written from the words of the specification and of the requests that came
later (document 02), and from nothing else.

It shares no code and no definition with the library, so that the two can be compared: `tools/script` runs it.
Numbers in `ask` are those of the specification's questions, numbers of steps those of 'A token is accepted'.
"""
import functools
import struct
from typing import NamedTuple

LIMIT = 2_000_000_000  # of ring, message and token numbers
WINDOW = 32            # messages held above the safe mark
REQUESTS = 16
POSTS = 16
CONTENT = 64
AT_A_VISIT, IN_A_ROUND = 8, 24  # messages that flow control allows
MOST_ROUND = MOST_BACKLOG = 128
FRAMES_ROOM, DELIVERIES_ROOM = 1_472, 2_752
checks = 0             # claims that held


def claim(holds, what):
    """What must be so whatever the input; counted."""
    global checks
    if not holds:
        raise AssertionError(what)
    checks += 1


class Refused(Exception):
    def __init__(self, number):
        super().__init__("no %d" % number)
        self.number = number


def ask(number, yes):
    if not yes:
        raise Refused(number)


# Frames

class Message(NamedTuple):
    ring: int
    rep: int
    sender: int
    number: int
    service: int
    content: bytes


class Token(NamedTuple):
    ring: int
    rep: int
    addressee: int
    number: int
    highest: int
    aru: int
    blocker: int  # 0: nobody
    round: int
    backlog: int
    requests: tuple


def packed(value):
    """The frame of any values that fit their fields, right or wrong."""
    if isinstance(value, Message):
        ring, rep, sender, number, service, content = value
        body = struct.pack("<HIHHIIH", 1, ring, rep, sender, number, 0, service) + content
    else:
        count = len(value.requests)
        body = struct.pack("<HIHHIIIHHHH%dI" % count, 2, *value[:9], count, *value.requests)
    return struct.pack("<H", len(body)) + body


def follows_layout(value):
    """Question 12, of values."""
    def numbers(*them):
        return all(1 <= n <= LIMIT for n in them)
    if not numbers(value.ring) or value.rep == 0:
        return False
    if isinstance(value, Message):
        return value.sender != 0 and numbers(value.number) and value.service in (0, 1) and len(value.content) <= CONTENT
    requests = value.requests
    return (value.addressee != 0 and numbers(value.number) and 0 <= value.aru <= value.highest <= LIMIT
            and (value.blocker == 0) == (value.aru == value.highest)
            and 0 <= value.round <= MOST_ROUND and 0 <= value.backlog <= MOST_BACKLOG
            and len(requests) <= REQUESTS and len(set(requests)) == len(requests)
            and all(1 <= n <= value.highest for n in requests))


def write(value):
    ask(12, follows_layout(value))
    return packed(value)


@functools.lru_cache(4096)
def read(frame):
    ask(10, len(frame) >= 10 and int.from_bytes(frame[:2], "little") == len(frame) - 2)
    kind = int.from_bytes(frame[2:4], "little")
    ask(11, kind in (1, 2))
    if kind == 1:
        ask(12, len(frame) >= 22)
        _, _, ring, rep, sender, number, configuration, service = struct.unpack("<HHIHHIIH", frame[:22])
        ask(12, configuration == 0)
        value = Message(ring, rep, sender, number, service, frame[22:])
    else:
        ask(12, len(frame) >= 32)
        *fields, count = struct.unpack("<HHIHHIIIHHHH", frame[:32])
        ask(12, len(frame) == 32 + 4 * count)
        value = Token(*fields[2:], struct.unpack("<%dI" % count, frame[32:]))
    ask(12, follows_layout(value))
    return value


# The station

class Answer(NamedTuple):
    word: str
    broadcasts: list = []
    token: bytes = None
    deliveries: list = []
    deaf: int = None


class Station:
    def __init__(self, ring, members, own):
        ask(3, 2 <= len(members) <= 8)
        ask(4, 0 not in members and len(set(members)) == len(members) and members[0] == min(members))
        ask(5, own in members)
        ask(6, 1 <= ring <= LIMIT)
        self.ring, self.members, self.own = ring, list(members), own
        self.level = self.safe = self.delivered = 0
        self.arus = (0, 0)  # of the last two tokens forwarded, the newer one last
        self.last_token = self.last_count = self.stall = 0
        self.own_part = 0   # of the backlog: what waited here when the token was last forwarded
        self.resendable = None
        self.posts = []     # (service, content), oldest first
        self.held = {}      # message number to frame

    def first_token(self):
        rep = self.members[0]
        return write(Token(self.ring, rep, rep, 1, 0, 0, 0, 0, 0, ()))

    def post(self, service, content):
        ask(7, len(content) <= CONTENT)
        ask(8, service in (0, 1))
        ask(9, len(self.posts) < POSTS)
        self.posts.append((service, content))

    def resend(self):
        ask(19, self.resendable is not None)
        return self.resendable

    def passes(self, value):
        """Questions 13 and 14."""
        ask(13, (value.ring, value.rep) == (self.ring, self.members[0]))
        ids = (value.sender,) if isinstance(value, Message) else (value.addressee, value.blocker or value.addressee)
        ask(14, all(one in self.members for one in ids))

    def arrive(self, frame):
        value = read(frame)
        self.passes(value)
        if isinstance(value, Message):
            return self.message(value.number, frame)
        ask(15, value.addressee == self.own)
        ask(16, value.number > self.last_token)
        ask(17, value.number < LIMIT)
        ask(18, value.highest >= self.level and all(value.highest >= n for n in self.held))
        return self.visit(value)

    def message(self, number, frame):
        if number <= self.safe or number in self.held:
            word = "had"
        elif number > self.safe + WINDOW:
            word = "ahead"
        else:
            word = "kept"
            self.hold(number, frame)
        self.resendable = None
        return Answer(word, deliveries=self.deliver())

    def hold(self, number, frame):
        self.held[number] = frame
        while self.level + 1 in self.held:
            self.level += 1

    def deliver(self):
        frames = []
        while True:
            following = self.delivered + 1
            if not (following <= self.safe or following <= self.level and read(self.held[following]).service == 0):
                return frames
            frames.append(self.held[following])
            self.delivered = following

    def others(self, token):
        """Step 1: the others' count, and the others' backlog."""
        return max(0, token.round - self.last_count), max(0, token.backlog - self.own_part)

    def allowance(self, token):
        """Step 1; where a post waits, no more than the share of what waits here, which is at least 1."""
        count, backlog = self.others(token)
        allowance = max(0, min(AT_A_VISIT, IN_A_ROUND - count))
        waiting = len(self.posts)
        if waiting == 0:
            return allowance
        return min(allowance, max(1, IN_A_ROUND * waiting // (backlog + waiting)))

    def visit(self, token):
        # 1
        others, others_backlog = self.others(token)
        allowance = self.allowance(token)
        # 2
        repeats = [self.held[n] for n in token.requests if n in self.held]
        requests = [n for n in token.requests if n not in self.held]
        # 3
        highest = token.highest
        count = max(0, min(allowance - len(repeats), len(self.posts), self.safe + WINDOW - highest, LIMIT - highest))
        new = []
        for service, content in self.posts[:count]:
            highest += 1
            new.append(write(Message(self.ring, self.members[0], self.own, highest, service, content)))
            self.hold(highest, new[-1])
        del self.posts[:count]
        # 4
        aru, blocker = token.aru, token.blocker
        if self.level < aru or blocker in (self.own, 0):
            aru = self.level
            blocker = 0 if aru == highest else self.own
        # 5
        self.stall = min(255, self.stall + 1) if aru == self.arus[1] and blocker != 0 else 0
        deaf = self.own if self.stall > 10 and blocker == self.own else None
        # 6
        self.arus = (self.arus[1], aru)
        self.safe = max(self.safe, min(self.arus))
        # 7
        for n in range(self.level + 1, min(highest, self.safe + WINDOW) + 1):
            if n not in self.held and n not in requests and len(requests) < REQUESTS:
                requests.append(n)
        # 8
        self.last_count = len(repeats) + len(new)
        self.own_part = len(self.posts)
        self.last_token = token.number + 1
        following = self.members[(self.members.index(self.own) + 1) % len(self.members)]
        self.resendable = write(Token(self.ring, self.members[0], following, self.last_token, highest, aru, blocker,
                                      min(MOST_ROUND, others + self.last_count),
                                      min(MOST_BACKLOG, others_backlog + self.own_part), tuple(requests)))
        # 9
        deliveries = self.deliver()
        self.held = {n: frame for n, frame in self.held.items() if n > self.safe}
        return Answer("accepted", repeats + new, self.resendable, deliveries, deaf)

    def check_whole(self):
        claim(self.safe <= self.delivered <= self.level <= LIMIT, "safe mark <= delivered mark <= level")
        claim(max(self.arus) <= self.level, "both aru <= level")
        claim(all(n in self.held for n in range(self.safe + 1, self.level + 1)), "all from safe mark + 1 to level held")
        claim(self.level + 1 not in self.held, "level + 1 not held")
        claim(all(self.safe < n <= min(LIMIT, self.safe + WINDOW) for n in self.held), "held numbers in the window")
        claim(len(self.posts) <= POSTS and self.last_count <= 16 and self.stall <= 255 and self.last_token <= LIMIT,
              "counts in range")
        claim(self.own_part <= POSTS, "own part of the backlog in range")
        for n, frame in self.held.items():
            value = read(frame)
            self.passes(value)
            claim(isinstance(value, Message) and value.number == n, "a held frame is the message of its number")
        if self.resendable is not None:
            value = read(self.resendable)
            self.passes(value)
            claim(isinstance(value, Token), "what may be resent is a token")
