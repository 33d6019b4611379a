"""Writes a capture of 1,000 frames in the form of pcap, and prints how many packets of each protocol it put in.

    python3 examples/c/capture.py FILE

The frames are of Ethernet, and the same each time: packets of IPv4 and IPv6, which are counted by the number of their
protocol, and others that aren't counted: of ARP, and some that are cut short in their headers.
"""

from __future__ import annotations

import struct
import sys
from pathlib import Path
from typing import Iterator, NamedTuple, Optional

FRAMES = 1000
PROTOCOLS = (1, 6, 6, 6, 17, 17, 58, 132)
HEADERS = {4: 34, 6: 54}  # bytes of Ethernet's header and of IP's
FILE_HEADER = struct.pack("<IHHiIII", 0xA1B2C3D4, 2, 4, 0, 0, 65535, 1)
ADDRESSES = bytes(range(12))


class Frame(NamedTuple):
    """The bytes of a frame, and the protocol by which it is counted, if it is."""

    data: bytes
    protocol: Optional[int]


def numbers() -> Iterator[int]:
    """Numbers of 31 bits that look random."""
    state = 1
    while True:
        state = (state * 6364136223846793005 + 1442695040888963407) % 2**64
        yield state >> 33


def packet(version: int, protocol: int, length: int) -> bytes:
    """A frame with a packet of IP of so many bytes, its payload zeroes."""
    if version == 4:
        header = struct.pack(">BBHHHBBH8x", 0x45, 0, length - 14, 0, 0, 64, protocol, 0)
        return (ADDRESSES + b"\x08\x00" + header).ljust(length, b"\0")
    header = struct.pack(">IHBB32x", 6 << 28, length - HEADERS[6], protocol, 64)
    return (ADDRESSES + b"\x86\xdd" + header).ljust(length, b"\0")


def frames() -> Iterator[Frame]:
    """The frames of the capture."""
    drawn = numbers()
    for _ in range(FRAMES):
        kind, protocol, length = next(drawn) % 20, PROTOCOLS[next(drawn) % 8], 60 + next(drawn) % 1455
        if kind == 0:
            yield Frame((ADDRESSES + b"\x08\x06").ljust(60, b"\0"), None)
            continue
        version = 6 if kind < 6 else 4
        data = packet(version, protocol, length)
        is_cut = kind in (1, 19)
        yield Frame(data[: HEADERS[version] - 1], None) if is_cut else Frame(data, protocol)


def main(path: str) -> None:
    """Writes the capture, and prints what is in it."""
    records, packets, sizes = [], dict.fromkeys(range(256), 0), dict.fromkeys(range(256), 0)
    for second, frame in enumerate(frames()):
        records.append(struct.pack("<IIII", second, 0, len(frame.data), len(frame.data)) + frame.data)
        if frame.protocol is not None:
            packets[frame.protocol] += 1
            sizes[frame.protocol] += len(frame.data)
    Path(path).write_bytes(FILE_HEADER + b"".join(records))
    for protocol in filter(packets.get, packets):
        print(f"protocol {protocol}: {packets[protocol]} packets, {sizes[protocol]} bytes")
    print(f"{sum(packets.values())} of {FRAMES} counted")


if __name__ == "__main__":
    main(sys.argv[1])
