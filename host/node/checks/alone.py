"""A station that hears nothing of its ring says so after ten seconds. Started first and looked at last."""

from .nodes import Station, free_ports, member_flags
from .tally import equal

SAYS = ("totem-node: nothing is heard of the ring: is every member up? "
        "{} posts of station {} are not delivered\n")


def start():
    """Two posts; nothing posted, and deaf; more than can wait, so that the end of input is not seen."""
    members = member_flags([3, 7], free_ports(2))
    other = member_flags([3, 7], free_ports(2))
    return [Station(members + ["--own", "3"], b"0 nobody hears\n1 this\n"),
            Station(members + ["--own", "7", "--drop", "100"], b""),
            Station(other + ["--own", "3"], b"0 text\n" * 40)]


def finish(stations):
    two, deaf, many = stations
    equal((two.wait(), two.output(), two.errors()), (1, b"", SAYS.format(2, 3)), "a station alone")
    equal((deaf.wait(), deaf.output(), deaf.errors()), (1, b"", SAYS.format(0, 7)), "all frames are lost")
    many.process.terminate()
    equal((many.wait(), many.output(), many.errors()), (0, b"", SAYS.format(16, 3)), "much input, alone")
