"""A model of the bench over the model of the station, written from the words of the specification and of the requests
that came later, and from nothing else."""
import re

from model import DELIVERIES_ROOM, FRAMES_ROOM, IN_A_ROUND, LIMIT, WINDOW, Message, Refused, Station, Token, claim, read, write


class NotUnderstood(Exception):
    pass


def number(field):
    if not field.isdigit():  # of bytes: 0 to 9 only, and not empty
        raise NotUnderstood("not a number")
    digits = field.lstrip(b"0")
    return int(digits or b"0") if len(digits) <= 20 else 10 ** 20


class Bench:
    def __init__(self):
        self.stations = []
        self.lines = 0
        self.complaints = []  # (line number, what is wrong)

    def run(self, script):
        lines = script.split(b"\n")
        if lines[-1] == b"":
            lines.pop()
        return b"".join(self.line(line) for line in lines)

    def line(self, text):
        """What the line prints on standard output."""
        self.lines += 1
        self.printed = []
        letter = text.split(b" ", 1)[0]
        action = {b"r": self.found, b"p": self.post, b"t": self.tick, b"f": self.frame, b"w": self.size}.get(letter)
        try:
            if text:
                if action is None:
                    raise NotUnderstood("no such letter")
                action(text)
        except NotUnderstood as wrong:
            self.complaints.append((self.lines, str(wrong)))
        except Refused as refusal:
            self.printed.append(b"no %d\n" % refusal.number)
        for station in self.stations:
            station.check_whole()
        return b"".join(self.printed)

    def place(self, field):
        if not self.stations:
            raise NotUnderstood("no ring")
        place = number(field)
        if place >= len(self.stations):
            raise NotUnderstood("no such place")
        return place

    def found(self, text):
        fields = text.split(b" ")
        if len(fields) < 2:
            raise NotUnderstood("no ring number")
        ring, *ids = [number(field) for field in fields[1:]]
        if any(one > 65_535 for one in ids):
            raise NotUnderstood("an id above 65,535")
        if not ids:
            raise Refused(3)
        self.stations = [Station(ring, ids, own) for own in ids]
        self.newest = self.stations[0].first_token()
        self.cable = [self.newest]    # all that was written, in order
        self.written = {self.newest}
        self.pure = True              # nothing but copies of what was written has been taken
        self.readings = {}            # number to its first frame
        self.received = [set() for _ in ids]
        self.lists = [[] for _ in ids]

    def post(self, text):
        fields = text.split(b" ", 3)
        if len(fields) < 3:
            raise NotUnderstood("no place or no service")
        self.stations[self.place(fields[1])].post(number(fields[2]), fields[3] if len(fields) == 4 else b"")

    def tick(self, text):
        fields = text.split(b" ")
        if len(fields) > 2:
            raise NotUnderstood("too much")
        if not self.stations:
            raise NotUnderstood("no ring")
        lost = self.place(fields[1]) if len(fields) == 2 else None
        addressee = self.addressee()
        if addressee != lost:
            self.hand(addressee, self.newest, lost)

    def addressee(self):
        return self.stations[0].members.index(read(self.newest).addressee)

    def frame(self, text):
        fields = text.split(b" ", 2)
        if len(fields) < 2:
            raise NotUnderstood("no place")
        place = self.place(fields[1])
        digits = fields[2] if len(fields) == 3 else b""
        if not re.fullmatch(rb"([0-9A-Fa-f]{2})*", digits):
            raise NotUnderstood("not hexadecimal in pairs")
        self.hand(place, bytes.fromhex(digits.decode()), None)

    def size(self, text):
        fields = text.split(b" ")
        if len(fields) != 2:
            raise NotUnderstood("no count, or too much")
        count = min(number(fields[1]), 1000)
        token = Token(4, 3, 3, 1, count, 0, 3 if count else 0, 0, 0, tuple(range(1, count + 1)))
        self.printed.append(b"%d\n" % len(write(token)))

    def hand(self, place, frame, lost):
        """A frame arrives; its broadcasts go to all others by place, and its token is the newest."""
        answer = self.arrive(place, frame)
        for other in range(len(self.stations)):
            if other not in (place, lost):
                for broadcast in answer.broadcasts:
                    claim(self.arrive(other, broadcast).token is None, "a broadcast is a message, and taken")
        self.newest = answer.token or self.newest

    def arrive(self, place, frame):
        station = self.stations[place]
        waiting, safe, last_count = len(station.posts), station.safe, station.last_count
        answer = station.arrive(frame)
        self.pure = self.pure and frame in self.written
        if answer.token:
            self.check_turn(station, read(frame), waiting, safe, last_count)
        self.check_order(place, frame, answer)
        for delivered in answer.deliveries:
            value = read(delivered)
            self.printed.append(b"%d %d %d %d " % (place, value.number, value.sender, value.service) + value.content + b"\n")
        return answer

    def check_turn(self, station, token, waiting, safe, last_count):
        """Of a visit, with what waited, the safe mark and the last count before it: a post has its turn, and the backlog
        says what waits."""
        new = waiting - len(station.posts)
        repeats = station.last_count - new
        room = min(IN_A_ROUND - max(0, token.round - last_count), safe + WINDOW - token.highest, LIMIT - token.highest)
        claim(new >= 1 or waiting == 0 or repeats > 0 or room < 1, "one goes out where the other limits allow it")
        if self.pure:
            claim(read(station.resendable).backlog == sum(other.own_part for other in self.stations),
                  "the backlog is the sum of what waited at each station when it last forwarded")

    def check_order(self, place, frame, answer):
        """The answer's sizes; and of what only copies of written frames bring about: one order everywhere."""
        outputs = answer.broadcasts + ([answer.token] if answer.token else [])
        claim(sum(map(len, outputs)) <= FRAMES_ROOM, "frames fit their buffer")
        claim(sum(map(len, answer.deliveries)) <= DELIVERIES_ROOM, "deliveries fit their buffer")
        if self.pure:
            for delivered in answer.deliveries:
                self.check_delivery(place, delivered)
        for output in outputs:
            self.cable.append(output)
            self.written.add(output)
            value = read(output)
            if isinstance(value, Message) and value.number not in self.readings:
                self.readings[value.number] = output
                self.received[place].add(value.number)
        if answer.word == "kept":
            self.received[place].add(read(frame).number)

    def check_delivery(self, place, delivered):
        value = read(delivered)
        mine = self.lists[place]
        mine.append(delivered)
        claim(all(theirs[len(mine) - 1] == delivered for theirs in self.lists if len(theirs) >= len(mine)),
              "of two delivery lists one begins the other")
        claim(value.number == len(mine), "delivered in the order of numbers")
        claim(value.service == 0 or all(value.number in received for received in self.received),
              "a safe reading was received everywhere before")
