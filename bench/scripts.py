"""Writes the scripts whose replays `bench/run` times, into the folder that it is given.

A line of standard output for each: its file, and what it is."""

import sys

START = """01 0000 00000061 000a000a 0009 0000003c
    0c 6361706162696c6974696573 46 00000015 12 7075626c69736865725f636f6e6669726d73 7401
    07 70726f64756374 53 00000008 5261626269744d51
    0000000e 504c41494e20414d51504c41494e 00000005 656e5f5553 ce"""
OPEN_OK = "01000000000005000a002900ce"


def tune(channels):
    return f"0100000000000c000a001e{channels:04x}00020000003cce"


def open_ok(channel):
    return f"01{channel:04x}000000080014000b00000000ce"


def close_ok(channel):
    return f"01{channel:04x}0000000400140029ce"


def body(channel, octets):
    return f"03{channel:04x}{octets:08x}{'78' * octets}ce"


def connected(channels=2047):
    start = "".join(START.split())
    return ["link"] + [f"bytes {frame}" for frame in (start, tune(channels), OPEN_OK)]


def opened(count):
    """Channels 1 to count, each answered."""
    return [line for i in range(1, count + 1) for line in ("open", f"bytes {open_ok(i)}")]


def pieces(frames, octets=4096):
    """The frames in as few pieces as go, each of whole frames."""
    lines, piece = [], ""
    for frame in frames:
        if len(piece) + len(frame) > 2 * octets:
            lines.append(f"bytes {piece}")
            piece = ""
        piece += frame
    return lines + [f"bytes {piece}"]


def one_byte_pieces():
    frame = body(1, 99_692)
    lines = connected() + opened(1)
    lines += [f"bytes {frame[i:i + 2]}" for i in range(0, len(frame), 2)]
    return lines + ["#"] * (100_000 - len(lines))


def as_long_as_can_be():
    lines = connected() + opened(1) + [f"bytes {body(1, 122)}"] * 31_246
    rest = 8_388_608 - sum(len(line) + 1 for line in lines)
    return lines + ["#" * (rest - 1)]


def sends(count):
    return connected() + opened(1) + ["send 1 60 40 -"] * count


def handed_out(count):
    return connected() + opened(1) + [f"bytes {body(1, 3)}"] * count


def openings(count):
    return connected(65_535) + ["open"] * count


def replies(count, order):
    return openings(count) + [f"bytes {open_ok(i)}" for i in order]


def refused(channels, count):
    return openings_answered(channels) + ["open"] * count


def openings_answered(count):
    frames = [open_ok(i) for i in range(1, count + 1)]
    return connected(count) + ["open"] * count + pieces(frames)


def reopened(channels, count):
    lines = openings_answered(channels)
    for i in range(count):
        channel = i % channels + 1
        lines += [f"close {channel} 200 OK", f"bytes {close_ok(channel)}"]
        lines += ["open", f"bytes {open_ok(channel)}"]
    return lines


def lost(links, channels=20, calls=10):
    """So many links that are lost, over which the channels are kept; on each, calls wait."""
    handshake = connected()[1:]
    answers = pieces([open_ok(i) for i in range(1, channels + 1)])
    waiting = [f"flow {i} off" for i in range(1, calls + 1)]
    lines = ["recover", "delays 0", "link"] + handshake + ["open"] * channels + answers
    for _ in range(links):
        lines += waiting + ["end", "tick", "link"] + handshake + answers
    return lines


SCRIPTS = [
    ("100,000 lines, 99,700 of them one-byte pieces of one frame", one_byte_pieces),
    ("8.4 MB, 31,253 lines", as_long_as_can_be),
    ("15,000 sends on one channel", lambda: sends(15_000)),
    ("30,000 sends", lambda: sends(30_000)),
    ("60,000 sends", lambda: sends(60_000)),
    ("15,000 frames handed out, one a piece", lambda: handed_out(15_000)),
    ("30,000 frames", lambda: handed_out(30_000)),
    ("60,000 frames", lambda: handed_out(60_000)),
    ("60,264 frames in 162 pieces",
     lambda: connected() + opened(1) + pieces([body(1, 3)] * 60_264)),
    ("16,000 openings of channels", lambda: openings(16_000)),
    ("32,000 openings", lambda: openings(32_000)),
    ("65,535 openings", lambda: openings(65_535)),
    ("48,000 openings, each answered", lambda: connected(65_535) + opened(48_000)),
    ("49,000 openings, then their answers in order", lambda: replies(49_000, range(1, 49_001))),
    ("49,000 openings, then their answers in reverse",
     lambda: replies(49_000, range(49_000, 0, -1))),
    ("2,047 channels open, and 80,000 refused openings", lambda: refused(2_047, 80_000)),
    ("65,535 channels open, and 34,000 refused openings", lambda: refused(65_535, 34_000)),
    ("2,047 channels open, and 10,000 times one closed and another opened",
     lambda: reopened(2_047, 10_000)),
    ("the same 20,000 times", lambda: reopened(2_047, 20_000)),
    ("1,000 links lost, with 20 channels and 10 calls that wait on each", lambda: lost(1_000)),
    ("2,000 links", lambda: lost(2_000)),
    ("4,000 links", lambda: lost(4_000)),
]


def main(folder):
    for number, (name, lines) in enumerate(SCRIPTS, 1):
        path = f"{folder}/{number:02}.script"
        with open(path, "w", encoding="ascii") as file:
            file.writelines(line + "\n" for line in lines())
        print(f"{path}\t{name}")


main(sys.argv[1])
