#!/usr/bin/env python3
"""agent.py SOCKET KIND COMMAND.. registers at the service as the agent of this kind, and runs COMMAND CLIENT USER PRIVILEGE
for each question: status 0 allows, any other denies. It ends with 0 where the service ends. Status 7: no service. Status 9: what
came is no frame for an agent (docs/use/PROTOCOL.md). Status 1: another agent of the kind is there."""
import socket, struct, subprocess, sys

def frame_in(stream):
    length = int.from_bytes(head := stream.read(4), "big")
    if not head:
        return None
    body = stream.read(length) if 3 <= length <= 1048576 else b""
    if len(head) < 4 or len(body) < 3:
        raise ValueError("no frame")
    return body[2], body[3:]

def names_in(fields, count):
    names, at = [], 4
    for _ in range(count):
        (length,) = struct.unpack_from(">H", fields, at)
        names, at = [*names, fields[at + 2 : at + 2 + length].decode("ascii")], at + 2 + length
    return names

def serve(link, kind, command):
    stream = link.makefile("rb")
    link.sendall(struct.pack(">IHBH", 5, 1, 0x20, kind))
    while (frame := frame_in(stream)) is not None:
        operation, fields = frame
        if operation == 0xA1:
            return 1
        if operation == 0xA2:
            (number,) = struct.unpack_from(">I", fields)
            asked = subprocess.run([*command, *names_in(fields, 3)], stdin=subprocess.DEVNULL)
            link.sendall(struct.pack(">IHBIB", 8, number & 0xFFFF, 0x21, number, asked.returncode == 0))
        # Registered, a number that nobody waits for any more, and a question that was withdrawn want nothing.
        elif operation not in (0xA0, 0xA3, 0xA4):
            raise ValueError("a frame for others")
    return 0

try:
    with socket.socket(socket.AF_UNIX) as link:
        link.connect(sys.argv[1])
        sys.exit(serve(link, int(sys.argv[2]), sys.argv[3:]))
except OSError as error:
    print(f"agent.py: {sys.argv[1]}: {error}", file=sys.stderr)
    sys.exit(7)
except (ValueError, struct.error):
    print("fault reply")
    sys.exit(9)
