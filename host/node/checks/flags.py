"""Wrong flags, wrong configurations, refused foundings, a port in use: the message, and the status."""

import socket
import tempfile

from .nodes import free_ports, run
from .tally import check, equal

TWO = ["--ring", "4", "--member", "3=127.0.0.1:5003", "--member", "7=127.0.0.1:5007"]
NONE = "there are no members: --member ID=ADDRESS:PORT, or 'member ID ADDRESS:PORT' in the file of --config"
OWN = "--own ID is missing: which member is this station? --help shows the flags"
RING = "the ring's number is missing: --ring N, or 'ring N' in the file of --config"

WRONG_FLAGS = [
    ([], OWN),
    (["--ring", "4", "--own", "3"], NONE),
    (["--member", "3=127.0.0.1:5003", "--own", "3"], RING),
    (["--colour"], "there is no flag '--colour'; --help shows the flags"),
    (["ring.conf"], "there is no flag 'ring.conf'; --help shows the flags"),
    (["--own"], "--own wants a value; --help shows the flags"),
    (["--own", "3", "--own", "3"], "--own is given twice"),
    (["--own", "0"], "--own wants a whole number from 1 to 65535, not '0'"),
    (["--own", "65536"], "--own wants a whole number from 1 to 65535, not '65536'"),
    (["--own", "3x"], "--own wants a whole number from 1 to 65535, not '3x'"),
    (["--own", ""], "--own wants a whole number from 1 to 65535, not ''"),
    (["--drop", "0.1"], "--drop wants a whole number from 0 to 100, not '0.1'"),
    (["--drop", "101"], "--drop wants a whole number from 0 to 100, not '101'"),
    (["--drop", "-1"], "--drop wants a whole number from 0 to 100, not '-1'"),
    (["--seed", "18446744073709551616"],
     "--seed wants a whole number from 0 to 18446744073709551615, not '18446744073709551616'"),
    (["--resend", "0"], "--resend wants a whole number from 1 to 3600000, not '0'"),
    (["--linger", "1s"], "--linger wants a whole number from 0 to 3600000, not '1s'"),
    (["--spin", "1000001"], "--spin wants a whole number from 0 to 1000000, not '1000001'"),
    (TWO + ["--own", "3", "--resend", "5", "--hold", "5"],
     "--hold must be below --resend, or the others take the token for lost"),
    (["--ring", "4", "--ring", "4"], "--ring: the ring's number is given twice"),
    (["--ring", "four"], "--ring: 'four' is no ring number: it is 1 to 2000000000"),
    (["--ring", "4294967296"], "--ring: '4294967296' is no ring number: it is 1 to 2000000000"),
    (["--member", "3"], "--member wants ID=ADDRESS:PORT, not '3'"),
    (["--member", "x=127.0.0.1:5003"], "--member: 'x' is no station's id: an id is 1 to 65535"),
    (["--member", "65536=127.0.0.1:5003"], "--member: '65536' is no station's id: an id is 1 to 65535"),
    (["--member", "3=127.0.0.1"], "--member: '127.0.0.1' is not ADDRESS:PORT"),
    (["--member", "3=:5003"], "--member: ':5003' is not ADDRESS:PORT"),
    (["--member", "3=127.0.0.1:0"], "--member: '0' is no port: a port is 1 to 65535"),
    (["--member", "3=127.0.0.1:65536"], "--member: '65536' is no port: a port is 1 to 65535"),
    (["--member", "3=127.0.0.1:5003", "--member", "7=127.0.0.1:5003"],
     "--member: station 3 has the address 127.0.0.1:5003 already"),
    (["--config", "/nowhere/ring.conf"], "/nowhere/ring.conf can't be opened: No such file or directory"),
    (["--config", "/"], "/ can't be read: Is a directory"),
]

WRONG_LINES = [
    ("ring 4\nmembers 3\n", 2, "a line is 'ring N' or 'member ID ADDRESS:PORT'"),
    ("ring 4 5\n", 1, "a line is 'ring N' or 'member ID ADDRESS:PORT'"),
    ("member 3 127.0.0.1:5003 x y\n", 1, "a line is 'ring N' or 'member ID ADDRESS:PORT'"),
    ("\n# none\nring 4\nring 4\n", 4, "the ring's number is given twice"),
    ("ring -4\n", 1, "'-4' is no ring number: it is 1 to 2000000000"),
    ("member 70000 127.0.0.1:5003\n", 1, "'70000' is no station's id: an id is 1 to 65535"),
    ("ring 4\nmember 3 127.0.0.1:x\n", 2, "'x' is no port: a port is 1 to 65535"),
    ("#" * 600 + "\n", 1, "the line is too long"),
]

REFUSED = [
    ("4", [3], 3, 3, "there are not 2 to 8 members"),
    ("4", [1, 2, 3, 4, 5, 6, 7, 8, 9], 3, 3, "there are not 2 to 8 members"),
    ("4", [7, 3], 3, 4, "an id is 0 or stands twice, or the lowest is not first"),
    ("4", [3, 7, 7], 3, 4, "an id is 0 or stands twice, or the lowest is not first"),
    ("4", [0, 7], 7, 4, "an id is 0 or stands twice, or the lowest is not first"),
    ("4", [3, 7], 9, 5, "the own id is not among the members"),
    ("0", [3, 7], 3, 6, "the ring number is not 1 to 2000000000"),
    ("2000000001", [3, 7], 3, 6, "the ring number is not 1 to 2000000000"),
]


def fails(flags, status, message):
    equal(run(flags), (status, b"", f"totem-node: {message}\n"), " ".join(flags))


def wrong_lines():
    with tempfile.NamedTemporaryFile("w", suffix=".conf") as file:
        for text, line, message in WRONG_LINES:
            file.seek(0)
            file.truncate()
            file.write(text)
            file.flush()
            fails(["--config", file.name], 2, f"{file.name}, line {line}: {message}")


def refused_foundings():
    for ring, ids, own, number, words in REFUSED:
        flags = ["--ring", ring, "--own", str(own)]
        for place, i in enumerate(ids):
            flags += ["--member", f"{i}=127.0.0.1:{5000 + place}"]
        fails(flags, 2, f"the ring can't be founded, question {number}: {words}")


def port_in_use():
    with socket.socket(socket.AF_INET, socket.SOCK_DGRAM) as taken:
        taken.bind(("127.0.0.1", 0))
        port = taken.getsockname()[1]
        fails(["--ring", "4", "--own", "3", "--member", f"3=127.0.0.1:{port}",
               "--member", f"7=127.0.0.1:{free_ports(1)[0]}"], 1,
              f"127.0.0.1:{port} is in use: give station 3 another port, or stop what has it")


def run_all():
    for flags, message in WRONG_FLAGS:
        fails(flags, 2, message)
    wrong_lines()
    refused_foundings()
    port_in_use()
    status, out, err = run(["--member", "3=no.such.host.invalid:5003"])
    begin = "totem-node: --member: no IPv4 address is known for 'no.such.host.invalid': "
    check(status == 2 and err.startswith(begin), f"an unknown name: {status} {err!r}")
    status, out, err = run(["--help"])
    check(status == 0 and err == "" and out.startswith(b"usage: totem-node "), f"--help: {status} {out!r}")


