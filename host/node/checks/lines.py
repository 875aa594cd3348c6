"""Input, output and stops, in rings of two stations without losses."""

import re
import signal
import subprocess
import time

from .nodes import Station, free_ports, member_flags, ring
from .tally import check, equal

QUICK = ["--resend", "5", "--linger", "300"]


def deliveries(station):
    """Its lines, without the place, which must be the same in each: (place, lines)."""
    lines = station.output().split(b"\n")
    check(lines.pop() == b"", "the output does not end in a newline")
    places = {l.split(b" ", 1)[0] for l in lines}
    check(len(places) <= 1, f"places {places} in one output")
    return (places.pop() if places else None), [l.split(b" ", 1)[1] for l in lines]


def until(condition, what, seconds=10):
    end = time.monotonic() + seconds
    while not condition():
        if time.monotonic() > end:
            check(False, f"{what}: not within {seconds} seconds")
            return
        time.sleep(0.005)
    check(True, what)


def forms_of_lines():
    """Each form of a line: what is delivered, what is complained about."""
    long_line = b"0 " + b"y" * 70000
    posts = [b"0 up", b"1 down \xff", b"", b"0", b"1 ", b"0  two spaces", b"hello", b"0x", b" 0 text",
             b"2 text", b"99999999999 text", b"0 " + b"x" * 64, b"0 " + b"x" * 65, long_line, b"00 zeros",
             b"0 no newline"]
    a, b = ring([3, 7], [b"\n".join(posts), b""], QUICK)
    equal((a.wait(), b.wait()), (0, 0), "status at the end of input")
    expected = [b"1 3 0 up", b"2 3 1 down \xff", b"3 3 0 ", b"4 3 1 ", b"5 3 0  two spaces",
                b"6 3 0 " + b"x" * 64, b"7 3 0 zeros", b"8 3 0 no newline"]
    equal(deliveries(a), (b"0", expected), "delivered by station 3")
    equal(deliveries(b), (b"1", expected), "delivered by station 7")
    no_post = "totem-node: input line {} is no post: write '0 text' (agreed) or '1 text' (safe)\n"
    refused = "totem-node: input line {} is refused, question {}: {}\n"
    service, content = (8, "the service is not 0 or 1"), (7, "the content is over 64 bytes")
    equal(a.errors(), "".join([no_post.format(n) for n in (7, 8, 9)]
                              + [refused.format(n, *service) for n in (10, 11)]
                              + [refused.format(n, *content) for n in (13, 14)]), "complaints of station 3")
    equal(b.errors(), "", "complaints of station 7")


def many_lines():
    """More than the buffers hold: none is lost, and a station's posts stay in their order."""
    posts = [b"".join(b"%d %d-%d\n" % (i % 2, own, i) for i in range(5000)) for own in (3, 7)]
    stations = ring([3, 7], posts, QUICK)
    equal([s.wait() for s in stations], [0, 0], "status after many lines")
    lists = [deliveries(s)[1] for s in stations]
    equal(lists[0], lists[1], "lists of many lines")
    for own, sent in zip((3, 7), posts):
        mine = [l.split(b" ", 2)[2] + b"\n" for l in lists[0] if l.split(b" ")[1] == b"%d" % own]
        check(b"".join(mine) == sent, f"the posts of station {own} in their order")


def stops():
    """Deliveries are seen while it runs; SIGTERM and SIGINT stop it with 0; SIGUSR1 shows counts."""
    a, b = ring([3, 7], [None, None])
    a.say(b"1 one\n")
    for s, line in ((a, b"0 1 3 1 one\n"), (b, b"1 1 3 1 one\n")):
        until(lambda s=s, line=line: s.output() == line, "a reading is delivered while it runs")
    a.process.send_signal(signal.SIGUSR1)
    until(lambda: "1 posted, 1 delivered" in a.errors(), "SIGUSR1 shows counts")
    for s, sign in ((a, signal.SIGTERM), (b, signal.SIGINT)):
        begin = time.monotonic()
        s.process.send_signal(sign)
        equal(s.wait(), 0, f"status after {sign.name}")
        check(time.monotonic() - begin < 1, f"{sign.name} stops it within a second")
    equal(b.errors(), "", "complaints without --refusals")


def stops_in_full_run():
    """What is delivered when the stop comes is still written out."""
    for _ in range(6):
        stations = ring([3, 7], [b"0 text\n" * 200000] * 2, ["--refusals"])
        until(lambda: len(stations[0].output()) > 50000, "the ring runs")
        for s in stations:
            s.process.terminate()
        for s in stations:
            equal(s.wait(), 0, "status after SIGTERM in full run")
            counted = re.search(r" ([0-9]+) delivered;", s.errors())
            equal(s.output().count(b"\n"), int(counted.group(1)), "lines written and readings delivered")


def own_posts_first():
    """Without any linger a station still waits for its own posts."""
    members = member_flags([3, 7], free_ports(2)) + ["--resend", "5"]
    a = Station(members + ["--own", "3", "--linger", "0"], b"1 text\n" * 100)
    b = Station(members + ["--own", "7", "--linger", "500"], b"")
    equal((a.wait(), len(deliveries(a)[1]), b.wait()), (0, 100, 0), "own posts before the end")


def counts():
    form = (r"totem-node: station OWN: 1000 delivered in [0-9]+\.[0-9]{3} seconds, [0-9]+ a second\n"
            r"totem-node: station OWN: [0-9]+ frames arrived, 0 lost on purpose; "
            r"tokens: [0-9]+ accepted, [0-9]+ resent, [0-9]+ sent again from the copy; "
            r"readings: 500 posted, 1000 delivered; datagrams not sent: 0\n")
    stations = ring([3, 7], [b"0 text\n" * 500] * 2, QUICK + ["--count", "--refusals"])
    for s, own in zip(stations, "37"):
        equal((s.wait(), s.output()), (0, b""), "with --count")
        check(re.match(form.replace("OWN", own), s.errors()), f"counts: {s.errors()!r}")


def output_fails():
    """A reader that has gone, and one that does not read."""
    with open("/dev/full", "wb") as full:
        members = member_flags([3, 7], free_ports(2)) + QUICK
        a = Station(members + ["--own", "3"], b"0 text\n", stdout=full)
        b = Station(members + ["--own", "7"], b"")
        equal((a.wait(), a.errors()),
              (1, "totem-node: standard output can't be written: No space left on device\n"), "a full disk")
        b.process.terminate()
        b.wait()
    members = member_flags([3, 7], free_ports(2)) + QUICK
    reader = Station(members + ["--own", "7", "--linger", "60000"], b"")
    stuck = Station(members + ["--own", "3"], b"0 text of some length\n" * 20000, stdout=subprocess.PIPE)
    until(lambda: len(reader.output()) > 60000, "the ring fills the pipe")
    time.sleep(0.2)
    stuck.process.terminate()
    equal((stuck.wait(), stuck.errors()),
          (1, "totem-node: standard output can't be written: nobody reads it\n"), "SIGTERM, and nobody reads")
    reader.process.terminate()
    equal(reader.wait(), 0, "status of the one that reads")


def run_all():
    forms_of_lines()
    many_lines()
    stops()
    stops_in_full_run()
    own_posts_first()
    counts()
    output_fails()
