"""Writes the captures whose checks `bench/run` times, into the folder that it is given.

Of each kind there are four, each about twice as long as the last; each begins with the handshake of
examples/scripts. A line of standard output for each: its file, and what it is."""

import re
import sys
from pathlib import Path

# The limits of the program on a capture, and how many octets of whole frames stand on one line.
MOST_BYTES, MOST_LINES, PIECE = 8_388_608, 100_000, 4000

METHOD, HEADER, BODY, HEARTBEAT = 1, 2, 3, 8
FRAME_HEAD, FRAME_END = 7, b"\xce"

SCRIPTS = Path(__file__).resolve().parent.parent / "examples" / "scripts"


# ---- frames


def frame_head(kind, channel, size):
    return bytes([kind]) + channel.to_bytes(2, "big") + size.to_bytes(4, "big")


def frame(kind, channel, payload=b""):
    return frame_head(kind, channel, len(payload)) + payload + FRAME_END


def method_code(class_number, method_number):
    return class_number.to_bytes(2, "big") + method_number.to_bytes(2, "big")


def method(channel, class_number, method_number, arguments=b""):
    return frame(METHOD, channel, method_code(class_number, method_number) + arguments)


def channel_open(channel):
    return method(channel, 20, 10, b"\0")


def channel_open_ok(channel):
    return method(channel, 20, 11, bytes(4))


def channel_close(channel):
    return method(channel, 20, 40, b"\x00\xc8\x02OK" + bytes(4))


def channel_close_ok(channel):
    return method(channel, 20, 41)


def publish_head(channel, size):
    """The method and the header of a publish; the frames of its body stand behind them."""
    properties = b"\x00\x3c\0\0" + size.to_bytes(8, "big") + b"\0\0"
    return [method(channel, 60, 40, b"\0\0\0\0\x05hello\0"), frame(HEADER, channel, properties)]


def publish(channel, body):
    return publish_head(channel, len(body)) + ([frame(BODY, channel, body)] if body else [])


def frames_of(octets):
    found = []
    while octets:
        end = FRAME_HEAD + int.from_bytes(octets[3:FRAME_HEAD], "big") + len(FRAME_END)
        found.append(octets[:end])
        octets = octets[end:]
    return found


# ---- the handshake


def octets_after(word, name):
    """What stands behind a word on the lines of a file of examples/scripts."""
    text = (SCRIPTS / name).read_text(encoding="ascii")
    return bytes.fromhex("".join(re.findall(f"^{word} ([0-9a-f]+)$", text, re.MULTILINE)))


def methods_of(octets, codes):
    """The frames of the methods of class 10 that have these numbers."""
    codes = [method_code(10, code) for code in codes]
    found = [each for each in frames_of(octets) if each[FRAME_HEAD:FRAME_HEAD + 4] in codes]
    assert len(found) == len(codes), "examples/scripts/handshake has another handshake"
    return found


def client_begins():
    """The protocol header, start-ok, tune-ok and open."""
    said = octets_after("link 1", "handshake.stdout")
    return [said[:8]] + methods_of(said[8:], (11, 31, 40))


def server_begins():
    """Start, tune and open-ok."""
    return methods_of(octets_after("bytes", "handshake"), (10, 30, 41))


# ---- lines


def lines_of(side, frames, most=PIECE):
    """The frames of a side, on each line as many as have at most so many octets, or a single one."""
    lines, piece = [], b""
    for each in frames:
        if piece and len(piece) + len(each) > most:
            lines.append(f"{side} {piece.hex()}")
            piece = b""
        piece += each
    return lines + [f"{side} {piece.hex()}"]


def connected(client, server):
    """A link on which both sides say these frames once it is open."""
    lines = lines_of("client", client_begins() + client)
    return lines + lines_of("server", server_begins() + server)


# ---- kinds


def publishes(count, body):
    frames = publish(1, body) * count
    return connected([channel_open(1)] + frames, [channel_open_ok(1)])


def heartbeats(count):
    return connected([frame(HEARTBEAT, 0)] * count, [])


def heartbeats_one_a_line(count):
    client = client_begins() + [frame(HEARTBEAT, 0)] * count
    return lines_of("client", client, 1) + lines_of("server", server_begins(), 1)


def channels(count):
    """So many channels, opened from the greatest number down and closed from the least one up."""
    falling, rising = range(count, 0, -1), range(1, count + 1)
    client = [channel_open(i) for i in falling] + [channel_close(i) for i in rising]
    server = [channel_open_ok(i) for i in falling] + [channel_close_ok(i) for i in rising]
    return connected(client, server)


def zeros_by_number(count, size=131_064):
    """So many publishes, each on a line, with a body of zeros that a number spells."""
    head = b"".join(publish_head(1, size)).hex()
    body = f"{frame_head(BODY, 1, size).hex()}+z{size}+{FRAME_END.hex()}"
    client = lines_of("client", client_begins() + [channel_open(1)])
    server = lines_of("server", server_begins() + [channel_open_ok(1)])
    return client + [f"client {head}+{body}"] * count + server


def illegal_at_last(count):
    """So many heartbeats, and then a close of a channel that is not open."""
    return connected([frame(HEARTBEAT, 0)] * count + [channel_close(1)], [])


CAPTURES = [
    ("publishes of 4,000 octets", lambda count: publishes(count, b"x" * 4000),
     (128, 256, 512, 1024)),
    ("publishes of no octets", lambda count: publishes(count, b""),
     (6500, 13_000, 26_000, 52_000)),
    ("heartbeats, 500 a line", heartbeats, (65_000, 130_000, 260_000, 520_000)),
    ("heartbeats, one a line", heartbeats_one_a_line, (12_490, 24_990, 49_990, 99_990)),
    ("channels opened, falling, and closed, rising", channels, (7500, 15_000, 30_000, 60_000)),
    ("publishes of 131,064 zeros by number", zeros_by_number, (64, 128, 256, 512)),
    ("heartbeats, and then an illegal close", illegal_at_last, (65_000, 130_000, 260_000, 519_000)),
]


def main(folder):
    for kind, (name, lines_for, counts) in enumerate(CAPTURES, 1):
        for size, count in enumerate(counts, 1):
            lines = lines_for(count)
            text = "".join(line + "\n" for line in lines)
            assert len(text) <= MOST_BYTES and len(lines) <= MOST_LINES, (name, count)
            path = f"{folder}/{kind}.{size}.capture"
            with open(path, "w", encoding="ascii") as file:
                file.write(text)
            print(f"{path}\t{count:,} {name}")


main(sys.argv[1])
