"""A client of peers that serve, in Python's standard library: it spells calls as frames and reads the answers.

A client has a number from 32 to 63, and each number N of an ensemble has the UDP port PORT + N of 127.0.0.1. A client
sends a call to the port of a peer, and the answer comes to the port of the client. Only the leader serves calls; every
other peer answers `unavailable` at once. docs/use.md says what each answer means.
"""
import itertools
import socket
import struct
import time
from typing import NamedTuple, Optional

# A frame is a header of 14 bytes and a body. The header has the letters RE, the version of the format, the kind of the
# frame, the numbers of the sender and of the receiver, and the length of the body; all numbers are big-endian.
HEADER = struct.Struct(">2sBBIIH")
VERSION = 2
CALL, ANSWER = 18, 19

# The bodies of both kinds begin with the id of the call, 8 bytes, and then a tag.
START = struct.Struct(">QB")
GET, ONCE, UPDATE, APPEND, ADD, SWAP, OVER, DELETE = range(1, 9)
REPLIES = ["", "value", "notfound", "ok", "failed", "unavailable", "busy", "lost", "timeout"]

# A stamp names the write that left a value: a count, a peer, and a number. No two writes of a key have one stamp.
STAMP = 20


class Reply(NamedTuple):
    """What a peer answered: one of the words of REPLIES, the stamp of `value` and `ok`, the bytes of `value`."""

    name: str
    stamp: Optional[bytes] = None
    value: Optional[bytes] = None


def spell_key(key):
    """A key of 1 to 64 bytes: its length in one byte, and its bytes."""
    return struct.pack(">B", len(key)) + key


def spell_value(value):
    """A value of up to 1,024 bytes: its length in two bytes, and its bytes."""
    return struct.pack(">H", len(value)) + value


def spell_call(sender, receiver, number, tag, key, arguments):
    """The frame of a call: after the id and the tag of the command come the key and the arguments."""
    body = START.pack(number, tag) + spell_key(key) + arguments
    return HEADER.pack(b"RE", VERSION, CALL, sender, receiver, len(body)) + body


def read_answer(frame, receiver, number):
    """The reply in a frame, or None if the frame is no answer to this call."""
    if len(frame) < HEADER.size + START.size:
        return None
    letters, version, kind, _sender, to, length = HEADER.unpack_from(frame)
    if (letters, version, kind, to) != (b"RE", VERSION, ANSWER, receiver) or HEADER.size + length != len(frame):
        return None
    answered, tag = START.unpack_from(frame, HEADER.size)
    if answered != number or not 1 <= tag <= 8:
        return None
    rest = frame[HEADER.size + START.size:]
    if REPLIES[tag] == "value":
        return Reply("value", rest[:STAMP], rest[STAMP + 2:])
    if REPLIES[tag] == "ok":
        return Reply("ok", rest[:STAMP])
    return Reply(REPLIES[tag])


class Client:
    """A client with one socket, which makes one call at a time."""

    def __init__(self, port, number, peers):
        self.port = port
        self.number = number
        self.peers = itertools.cycle(peers)
        self.peer = next(self.peers)
        # An answer that comes late must not be taken for that of a later call, so no id comes twice, also if
        # the program starts again.
        self.ids = itertools.count(time.time_ns())
        self.socket = socket.socket(socket.AF_INET, socket.SOCK_DGRAM)
        self.socket.bind(("127.0.0.1", port + number))

    def ask(self, tag, key, arguments, patience=1.0):
        """Sends one call to one peer. Returns its reply, or None if none came in time. A peer answers a call
        at the latest after 8 ticks of 100 milliseconds, unless it stops or a datagram is lost."""
        number = next(self.ids)
        frame = spell_call(self.number, self.peer, number, tag, key, arguments)
        self.socket.sendto(frame, ("127.0.0.1", self.port + self.peer))
        end = time.monotonic() + patience
        while (left := end - time.monotonic()) > 0:
            self.socket.settimeout(left)
            try:
                reply = read_answer(self.socket.recv(65536), self.number, number)
            except socket.timeout:
                return None
            if reply:
                return reply
        return None

    def call(self, tag, key, arguments=b"", repeat=False, patience=20.0):
        """Calls until a peer completes the call. Returns the reply, and whether only this last try can have had
        an effect.

        `unavailable` and `busy` say that a try had no effect: the next peer may be the leader. After `timeout`,
        and without an answer, nobody knows: such a call is tried again only with `repeat`.
        """
        alone = True
        end = time.monotonic() + patience
        while time.monotonic() < end:
            reply = self.ask(tag, key, arguments)
            if reply and reply.name not in ("unavailable", "busy", "timeout"):
                return reply, alone
            if not reply or reply.name == "timeout":
                alone = False
                if not repeat:
                    break
            self.peer = next(self.peers)
            time.sleep(0.02)
        return Reply("timeout"), alone

    def get(self, key):
        """The value of a key with its stamp, or `notfound`. A get has no effect, so it may be repeated."""
        return self.call(GET, key, repeat=True)[0]

    def over(self, key, value, repeat=False):
        """Writes a value, whatever the key has. After `timeout` it may have been written, or may be yet. With `repeat`
        it is then written again, which could undo what another client wrote in between."""
        return self.call(OVER, key, spell_value(value), repeat)[0]

    def update(self, key, stamp, value):
        """Writes a value if the key still has the value with this stamp: compare and set.

        It may be repeated. The first try that takes effect leaves another stamp, and no stamp comes back, so every
        other try is answered `failed`: the value is written once or not at all. Where an earlier try may have
        been that one, a get tells: this client writes each value once, so a value of its own is its own write.
        """
        reply, alone = self.call(UPDATE, key, stamp + spell_value(value), repeat=True)
        if reply.name == "failed" and not alone:
            found = self.get(key)
            if found.value == value:
                return Reply("ok", found.stamp)
        return reply
