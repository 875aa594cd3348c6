"""The logger's lines (docs/LOGGER.md): of values, and of a datagram as the model reads it."""
from model import Message, Refused, read


def message(ring, rep, sender_id, seq, conf_id, service, contents):
    text = "".join(chr(byte) if 32 <= byte < 127 and byte not in b'"\\' else "\\x%02x" % byte for byte in contents)
    return 'message ring=%s rep=%s sender_id=%s seq=%s conf_id=%s service=%s contents="%s"' % (
        ring, rep, sender_id, seq, conf_id, service, text)


def token(ring, rep, addressee, token_seq, seq, aru, aru_id, fcc, backlog, rtr):
    return "token ring=%s rep=%s addressee=%s token_seq=%s seq=%s aru=%s aru_id=%s fcc=%s backlog=%s rtr=[%s]" % (
        ring, rep, addressee, token_seq, seq, aru, "nobody" if str(aru_id) == "0" else aru_id, fcc, backlog,
        ",".join(str(number) for number in rtr))


def frames(data):
    """Frames one after another, each with its own length; what doesn't hold the frame announced is the last."""
    at = 0
    while at < len(data):
        size = 2 + int.from_bytes(data[at:at + 2], "little")
        yield data[at:at + size]
        at += size


def line(frame):
    try:
        value = read(frame)
    except Refused as refused:
        return "no %d" % refused.number
    if isinstance(value, Message):
        return message(value.ring, value.rep, value.sender, value.number, 0, value.service, value.content)
    return token(*value)


def lines(datagram):
    return [line(frame) for frame in frames(datagram)]
