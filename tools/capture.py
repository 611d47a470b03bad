#!/usr/bin/env python3
"""capture.py [FILE..] > COMMANDS.pcap: commands as a capture that Wireshark's ETSI CAT dissector reads.

A line is a command in hex, or an answer line of the host calls (docs/PROTOCOL.md), of which those with a command count; other lines are
passed over. Each command is the data of a FETCH that ends with '9000', in GSMTAP (type SIM) over UDP and IPv4.

    ./run < vectors/commands.in | tools/capture.py > commands.pcap
    tshark -r commands.pcap -V"""
import fileinput
import re
import struct
import sys

RAW_IP = 101
GSMTAP_PORT = 4729
GSMTAP_SIM = 4
UDP = 17
LOCAL = bytes([127, 0, 0, 1])
ANSWER = re.compile(r"(?:step|run|respond) 0 command (?:.* )?([0-9a-f]+) -$")
COMMAND = re.compile(r"[Dd]0(?:[0-9A-Fa-f]{2})+$")


def find_command(line):
    """The command of a line, or None."""
    line = line.strip()
    answer = ANSWER.match(line)
    if answer:
        return bytes.fromhex(answer.group(1))
    if COMMAND.match(line):
        return bytes.fromhex(line)
    return None


def fetch(command):
    """FETCH with the command as its data; a length of 256 is written as 0."""
    return bytes([0x80, 0x12, 0x00, 0x00, len(command) % 256]) + command + b"\x90\x00"


def gsmtap(data):
    version, words = 2, 4
    return struct.pack(">BBBBHbbIBBBB", version, words, GSMTAP_SIM, 0, 0, 0, 0, 0, 0, 0, 0, 0) + data


def udp(data):
    return struct.pack(">HHHH", GSMTAP_PORT, GSMTAP_PORT, 8 + len(data), 0) + data


def checksum(header):
    total = sum(struct.unpack(f">{len(header) // 2}H", header))
    while total > 0xFFFF:
        total = (total & 0xFFFF) + (total >> 16)
    return 0xFFFF - total


def ipv4(data):
    def header(check):
        return struct.pack(">BBHHHBBH4s4s", 0x45, 0, 20 + len(data), 0, 0, 64, UDP, check, LOCAL, LOCAL)

    return header(checksum(header(0))) + data


def write_capture(commands, out):
    out.write(struct.pack("<IHHiIII", 0xA1B2C3D4, 2, 4, 0, 0, 65535, RAW_IP))
    for number, command in enumerate(commands):
        packet = ipv4(udp(gsmtap(fetch(command))))
        out.write(struct.pack("<IIII", number, 0, len(packet), len(packet)) + packet)


def main():
    if sys.stdout.isatty():
        sys.exit(__doc__)
    commands = [command for command in map(find_command, fileinput.input(encoding="ascii")) if command]
    write_capture(commands, sys.stdout.buffer)


main()
