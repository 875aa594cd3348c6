"""The stored captures and their texts: demo.pcap is captured, samples.pcap is written here."""
import os
import shutil
import struct
import subprocess

import datagrams
import dissected
from datagrams import Datagram
from dissected import ROOT, WORK, Failed
from model import Message, Token, packed

# Of which packets the text has every field.
CAPTURES = {
    "demo": "frame.number <= 4 or totem.rtr_count > 1",
    "samples": "totem",
}
NODE = os.path.join(ROOT, "target", "host", "totem-node")
MOST_PACKETS = 400
WORTH_SEEING = "totem.service == 0", "totem.service == 1", "totem.rtr", "totem.aru_id != 0"
RECORDING = """
ip link set lo up || exit 1
dumpcap -q -P -i lo -f udp -c "$2" -w "$1" & dumpcap=$!
until [ -s "$1" ]; do
    kill -0 $dumpcap || exit 1
    sleep 0.1
done
host/demo
status=$?
kill -INT $dumpcap 2> /dev/null
wait $dumpcap && exit $status
"""


def path(name, ending):
    return os.path.join(ROOT, "tools", "captures", "%s.%s" % (name, ending))


def text(dissector, name):
    return dissected.text(dissector, path(name, "pcap"), CAPTURES[name])


def changed(frame, at, word):
    return frame[:at] + struct.pack("<H", word) + frame[at + 2:]


def samples():
    """What the demo doesn't show: many messages at once, and every refusal."""
    first = packed(Token(4, 3, 3, 1, 0, 0, 0, 0, 0, ()))
    message = packed(Message(4, 3, 7, 1, 1, b"up\n"))
    token = packed(Token(4, 3, 3, 3, 1, 0, 3, 1, 0, (1,)))
    many = b"".join(packed(Message(4, 3, 7, n, n % 2, b"%d" % n)) for n in (1, 5, 6, 7, 8))
    many += packed(Token(4, 3, 3, 6, 8, 1, 3, 5, 11, (2, 3, 4)))
    damaged = [
        message[:-1],                               # 10: cut short
        message + b"\0",                            # 10: one byte of a second frame
        b"\7\0" + message[2:9],                     # 10: nine bytes
        changed(message, 2, 3),                     # 11: kind 3
        changed(message, 16, 1),                    # 12: configuration
        changed(message, 20, 2),                    # 12: service
        changed(token, 8, 0),                       # 12: representative
        changed(token, 20, 2),                      # 12: aru above seq
        changed(token, 24, 0),                      # 12: nobody
        changed(token, 28, 129),                    # 12: backlog
        changed(token, 30, 2),                      # 12: two requests, one there
        changed(message, 10, 0) + message + token,  # 12: sender, and two frames that read
    ]
    return [
        *(Datagram(40_007, 40_003, payload) for payload in [first, message + token, many, packed(Message(4, 3, 7, 9, 0, b""))]),
        *(Datagram(40_007, 40_003, payload) for payload in damaged),
        Datagram(40_007, 40_003, message + token, left_out=5),
        # between two other ports the first is not known for the ring's
        *(Datagram(40_009, 40_003, payload) for payload in (damaged[0], token, damaged[0])),
    ]


def store(dissector):
    datagrams.write(path("samples", "pcap"), samples())
    for name in CAPTURES:
        with open(path(name, "txt"), "w") as out:
            out.write(text(dissector, name))


def demo(dissector):
    """Captures the demo's first datagrams, in a network of its own where nothing else is on the cable."""
    dissected.need(("dumpcap", "tshark"), ("unshare", "util-linux"), ("ip", "iproute2"))
    if not os.access(NODE, os.X_OK):
        raise Failed("the demo is not built: make -C host")
    capture = os.path.join(WORK, "demo.pcap")
    if os.path.exists(capture):
        os.remove(capture)
    run = subprocess.run(["unshare", "-rn", "bash", "-c", RECORDING, "record", capture, str(MOST_PACKETS)], cwd=ROOT,
                         capture_output=True, text=True)
    if run.returncode != 0:
        raise Failed("the demo was not captured\n" + run.stdout + run.stderr)
    for what in WORTH_SEEING:
        if not dissected.tshark(dissector, capture, "-Y", what):
            raise Failed("no packet of the new capture is '%s'; try again" % what)
    shutil.copyfile(capture, path("demo", "pcap"))
