"""Wrong edits of the dissector, each of which the comparison has to notice."""
import os

from dissected import Failed

# What the edit is, the words that stand in the dissector once, and those in their place.
EDITS = [
    ("token_seq one byte off", 'number("token_seq", 12, 4', 'number("token_seq", 13, 4'),
    ("aru and seq exchanged", 'number("aru", 20, 4', 'number("aru", 16, 4'),
    ("ring_id.rep read from the sender", 'number("ring_id.rep", 8, 2', 'number("ring_id.rep", 10, 2'),
    ("the largest number one too small", "MOST_NUMBER = 2000000000", "MOST_NUMBER = 1999999999"),
    ("12 for 11", 'return 11, "kind is "', 'return 12, "kind is "'),
    ("11 for 10", 'return 10, "not as many', 'return 11, "not as many'),
    ("frames of under 10 bytes", "v.size < HEADER_SIZE", "v.size < LENGTH_SIZE"),
    ("a third kind", "[TOKEN] = \"token\" }", "[TOKEN] = \"token\", [3] = \"token\" }"),
    ("ring number not tested", 'not in_range(v["ring_id.seq"]) and', "false and"),
    ("representative not tested", 'v["ring_id.rep"] == 0 and', "false and"),
    ("sender 0", "if v.sender_id == 0 then", "if false then"),
    ("message number not tested", 'if not in_range(v.seq) then', "if false then"),
    ("configuration not tested", "if v.conf_id ~= 0 then", "if false then"),
    ("service not tested", "if not SERVICES[v.service] then", "if false then"),
    ("contents of 65 bytes", "MOST_CONTENTS = 22, 64", "MOST_CONTENTS = 22, 65"),
    ("17 requests", "MOST_REQUESTS = 32, 4, 16", "MOST_REQUESTS = 32, 4, 17"),
    ("a token's size not tested", "if v.size ~= TOKEN_SIZE", "if v.size < TOKEN_SIZE"),
    ("addressee 0", "if v.addressee == 0 then", "if false then"),
    ("token number not tested", "if not in_range(v.token_seq) then", "if false then"),
    ("seq not tested", "if v.seq > MOST_NUMBER then", "if false then"),
    ("aru above seq", "if v.aru > v.seq then", "if false then"),
    ("a blocker though aru equals seq", "if v.aru == v.seq and v.aru_id ~= 0 then", "if false then"),
    ("nobody though aru is below seq", "if v.aru < v.seq and v.aru_id == 0 then", "if false then"),
    ("backlog read from the place of fcc", 'number("backlog", 28, 2', 'number("backlog", 26, 2'),
    ("fcc of 129", "MOST_BACKLOG = 128, 128", "MOST_BACKLOG = 129, 128"),
    ("backlog of 129", "MOST_BACKLOG = 128, 128", "MOST_BACKLOG = 128, 129"),
    ("backlog not tested", "if v.backlog > MOST_BACKLOG then", "if false then"),
    ("a request 0", "if n < 1 or n > v.seq", "if n > v.seq"),
    ("a request above seq", "if n < 1 or n > v.seq", "if n < 1"),
    ("a request twice", "if seen[n] then", "if false then"),
    ("the rest of a datagram left out", "size = math.min(size, LENGTH_SIZE", "size = math.max(0, LENGTH_SIZE"),
    ("big-endian in the tree", "branch:add_le(n.field", "branch:add(n.field"),
    ("big-endian requests in the tree", "branch:add_le(f_rtr", "branch:add(f_rtr"),
    ("damaged datagrams of a known conversation left out", "pinfo.conversation = totem", ""),
    ("datagrams recognised without reading them", "if v.refusal then return false end", ""),
    ("the column Info with another sender", "from %d %s %s", "to %d %s %s"),
    ("messages not drawn together", "run.last + 1 == v.seq", "false"),
    ("messages drawn together whatever their numbers", "and run.last + 1 == v.seq", ""),
    ("what the capture left out not told", "return frames, true", "return frames, false"),
]


def copies(dissector, folder):
    """Each edit's name and the file with that edit."""
    with open(dissector) as file:
        text = file.read()
    copy = os.path.join(folder, "broken.lua")
    for what, old, new in EDITS:
        if text.count(old) != 1:
            raise Failed("the edit '%s' does not fit: %r stands there %d times" % (what, old, text.count(old)))
        with open(copy, "w") as file:
            file.write(text.replace(old, new))
        yield what, copy
