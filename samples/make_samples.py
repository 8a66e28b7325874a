#!/usr/bin/env python3
"""Makes the recordings beside this script: hello.eblock and generated.eblock.

Each is one data connection in extended block mode (GFD.20), byte for byte. A block is a header of 17 bytes
(flags 1 byte, count 8, offset 8, in network byte order) and then `count` bytes of data.
"""

import os
import struct

EOF = 64  # the offset is the number of EODs to expect
EOD = 8  # this connection's data ends
CLOSE = 4  # the sender will close the connection

GENERATED_LEN = 300_000
BLOCK_LEN = 65_536
# Which block of the generated file is sent first, second and so on; block 4 is the short last one.
ORDER = (2, 0, 4, 1, 3)


def block(flags, offset, data=b""):
    """A block with this data."""
    return struct.pack(">BQQ", flags, len(data), offset) + data


def ending(total):
    """An EOF that announces so many EODs, and this connection's EOD."""
    return block(EOF, total) + block(EOD | CLOSE, 0)


def generated(count):
    """The first bytes of the generated file."""
    return bytes(((7 + x) % 2**32 * 2_654_435_761 % 2**32) // 2**24 for x in range(count))


def hello_recording():
    return block(0, 0, b"hello") + ending(1)


def generated_recording():
    data = generated(GENERATED_LEN)
    starts = [number * BLOCK_LEN for number in ORDER]
    assert sorted(starts) == list(range(0, GENERATED_LEN, BLOCK_LEN))
    blocks = [block(0, start, data[start : start + BLOCK_LEN]) for start in starts]
    return b"".join(blocks) + ending(1)


def main():
    folder = os.path.dirname(os.path.abspath(__file__))
    recordings = {
        "hello.eblock": hello_recording(),
        "generated.eblock": generated_recording(),
    }
    for name, recording in recordings.items():
        with open(os.path.join(folder, name), "wb") as file:
            file.write(recording)


if __name__ == "__main__":
    main()
