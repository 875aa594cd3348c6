"""Captures of UDP datagrams in the classic pcap format, as Wireshark reads them."""
import socket
import struct
from typing import NamedTuple

RAW_IPV4 = 228         # the link type: packets begin with their IPv4 header
SNAP_LENGTH = 262_144
MOST_PAYLOAD = 65_507  # of a UDP datagram over IPv4
HOST = socket.inet_aton("127.0.0.1")


class Datagram(NamedTuple):
    source: int
    target: int
    payload: bytes
    left_out: int = 0  # bytes at its end that the capture doesn't have


def checksum(data):
    total = sum(struct.unpack("!%dH" % (len(data) // 2), data))
    while total >> 16:
        total = (total & 0xFFFF) + (total >> 16)
    return total ^ 0xFFFF


def packet(datagram):
    udp = struct.pack("!HHHH", datagram.source, datagram.target, 8 + len(datagram.payload), 0) + datagram.payload
    fields = (0x45, 0, 20 + len(udp), 0, 0, 64, socket.IPPROTO_UDP)
    header = struct.pack("!BBHHHBBH4s4s", *fields, 0, HOST, HOST)
    header = struct.pack("!BBHHHBBH4s4s", *fields, checksum(header), HOST, HOST)
    return header + udp


def write(path, datagrams):
    """A second passes between two of them."""
    with open(path, "wb") as out:
        out.write(struct.pack("<IHHiIII", 0xA1B2C3D4, 2, 4, 0, 0, SNAP_LENGTH, RAW_IPV4))
        for second, datagram in enumerate(datagrams):
            data = packet(datagram)
            captured = data[:len(data) - datagram.left_out]
            out.write(struct.pack("<IIII", second, 0, len(captured), len(data)) + captured)
