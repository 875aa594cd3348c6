"""What tshark makes of a capture with the dissector: its text, or the logger's line for each frame."""
import os
import resource
import shutil
import subprocess
import xml.etree.ElementTree as xml

import logger

ROOT = os.path.dirname(os.path.dirname(os.path.dirname(os.path.abspath(__file__))))
WORK = os.path.join(ROOT, "target", "captures")
DISSECTOR = os.path.join(ROOT, "tools", "totem.lua")
MOST_SECONDS = 300
MOST_MEMORY = 2 << 30  # a dissector that does not end must not take the machine's
COLUMNS = '"No.","%m","Time","%Rt","From","%uS","To","%uD","Protocol","%p","Info","%i"'


class Failed(Exception):
    pass


def need(*programs):
    for program, package in programs:
        if shutil.which(program) is None:
            raise Failed("%s is not installed; on Debian: apt-get install %s" % (program, package))


def limited():
    resource.setrlimit(resource.RLIMIT_AS, (MOST_MEMORY, MOST_MEMORY))
    resource.setrlimit(resource.RLIMIT_CPU, (MOST_SECONDS, MOST_SECONDS))


def tshark(dissector, capture, *options):
    """Standard output. A home of its own keeps the user's settings and plugins out of it."""
    home = os.path.join(WORK, "home")
    os.makedirs(home, exist_ok=True)
    environment = dict(os.environ, HOME=home, XDG_CONFIG_HOME=home, LC_ALL="C.UTF-8", TZ="UTC")
    command = ["tshark", "-n", "-X", "lua_script:" + dissector, "-r", capture, *options]
    run = subprocess.run(command, env=environment, capture_output=True, preexec_fn=limited)
    complaints = [line for line in run.stderr.decode().splitlines() if not line.startswith("Running as user")]
    if run.returncode != 0 or complaints:
        raise Failed("tshark on %s: status %d\n%s" % (capture, run.returncode, "\n".join(complaints)))
    return run.stdout


def text(dissector, capture, detailed):
    """A line for each packet, then all of those that the display filter takes."""
    lines = tshark(dissector, capture, "-o", "gui.column.format:" + COLUMNS)
    details = tshark(dissector, capture, "-Y", detailed, "-O", "totem")
    return (lines + b"\n" + details).decode()


def payloads(dissector, capture):
    fields = tshark(dissector, capture, "-T", "fields", "-e", "udp.payload")
    return [bytes.fromhex(line) for line in fields.decode().splitlines()]


def lines(dissector, capture, *options):
    """For each packet the lines that the logger would print for its frames."""
    document = xml.fromstring(tshark(dissector, capture, "-T", "pdml", "-J", "totem", *options))
    return [[line(frame) for frame in packet.iterfind("proto[@name='totem']/field[@name='totem.frame']")]
            for packet in document.iterfind("packet")]


def places(dissector, capture, packet):
    """Each field of the packet's frames: its name, where it stands in its frame, its size."""
    document = xml.fromstring(tshark(dissector, capture, "-T", "pdml", "-J", "totem", "-Y", "frame.number == %d" % packet))
    frames = document.iterfind("packet/proto[@name='totem']/field[@name='totem.frame']")
    return sorted({(field.get("name"), int(field.get("pos")) - int(frame.get("pos")), int(field.get("size")))
                   for frame in frames for field in frame})


def line(frame):
    def all_of(name):
        return [field.get("show") for field in frame.iterfind("field[@name='totem.%s']" % name)]

    def one(name):
        values = all_of(name)
        return values[0] if len(values) == 1 else "(%d fields)" % len(values)

    if all_of("refusal"):
        return "no " + one("refusal")
    ring, rep = one("ring_id.seq"), one("ring_id.rep")
    if one("kind") == "1":
        contents = bytes.fromhex(one("contents").replace(":", ""))
        return logger.message(ring, rep, one("sender_id"), one("message.seq"), one("conf_id"), one("service"), contents)
    return logger.token(ring, rep, one("addressee"), one("token_seq"), one("token.seq"), one("aru"), one("aru_id"),
                        one("fcc"), one("backlog"), all_of("rtr"))
