"""Random datagrams: frames that read, frames that are damaged or have one request too many, and bytes alone."""
import random
import struct

from model import LIMIT, Message, Token, packed

# Values around the ends of the ranges.
ODD = (0, 1, 2, 3, 16, 17, 64, 65, 127, 128, 129, 255, 256, 65_535, LIMIT - 1, LIMIT, LIMIT + 1, 2**31, 2**32 - 1)


class Dice(random.Random):
    def number(self):
        return self.choice((1, 2, LIMIT, self.randint(1, 40), self.randint(1, LIMIT)))

    def id(self):
        return self.choice((1, 3, 7, 65_535, self.randint(1, 65_535)))

    def message(self):
        contents = self.randbytes(self.choice((0, 1, 2, 64, self.randint(0, 64))))
        return packed(Message(self.number(), self.id(), self.id(), self.number(), self.randint(0, 1), contents))

    def token(self):
        seq = self.choice((0, self.number()))
        aru = self.choice((seq, max(0, seq - self.randint(0, 20)), self.randint(0, seq)))
        count = min(seq, self.choice((0, 1, 16, 17, self.randint(0, 16))))
        rtr = self.sample(range(1, seq + 1), count)
        fcc, backlog = (self.choice((0, 24, 128, self.randint(0, 128))) for _ in range(2))
        return packed(Token(self.number(), self.id(), self.id(), self.number(), seq, aru, 0 if aru == seq else self.id(),
                            fcc, backlog, tuple(rtr)))

    def frame(self):
        return self.choice((self.message, self.token))()

    def damaged(self, frame):
        return self.choice((self.other_word, self.other_word, self.other_word, self.word_copied, self.other_size,
                            self.other_end))(frame)

    def other_word(self, frame):
        """A field, or parts of two, with another value."""
        size = self.choice((2, 4))
        return self.put(frame, struct.pack("<I", self.choice(ODD))[:size])

    def word_copied(self, frame):
        """A value of the frame stands elsewhere too: a request twice, aru as seq."""
        at = self.randrange(0, len(frame) - 3, 2)
        return self.put(frame, frame[at:at + 4])

    def put(self, frame, word):
        at = self.randrange(2, len(frame) - len(word) + 1, 2)
        return frame[:at] + word + frame[at + len(word):]

    def other_size(self, frame):
        """Shorter or longer, and its length says so."""
        body = frame[2:]
        body = self.choice((body[:self.randint(0, len(body))], body + self.randbytes(self.randint(1, 70)), body + bytes(4)))
        return struct.pack("<H", len(body)) + body

    def other_end(self, frame):
        """Shorter or longer, and its length doesn't say so."""
        return self.choice((frame[:self.randrange(1, len(frame))], frame + self.randbytes(self.randint(1, 40))))

    def datagram(self):
        if self.random() < 0.05:
            return self.randbytes(self.randint(1, 100))
        frames = [self.frame() for _ in range(self.choice((1, 1, 1, 2, 5)))]
        return b"".join(self.damaged(frame) if self.random() < 0.6 else frame for frame in frames)
