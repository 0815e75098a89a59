#!/usr/bin/env python3
"""check.py SOCKET CLIENT USER PRIVILEGE asks the service whether CLIENT may use PRIVILEGE for USER, and prints its answer.
Status 7: no service, or it hung up three times. Status 9: what came is no reply (docs/use/PROTOCOL.md)."""
import socket, struct, sys

# What an agent has to do with: the word of each reply, and its numbers behind the commit.
AGENTS = {0x82: ("agent", ">HIB"), 0x84: ("no-agent", ">H"), 0x85: ("agent-gone", ">I"), 0x86: ("agent-full", ">HI")}

def ask(path, names):
    texts = b"".join(struct.pack(">H", len(name)) + name for name in names)
    with socket.socket(socket.AF_UNIX) as link:
        link.connect(path)
        link.sendall(struct.pack(">IHB", 3 + len(texts), 1, 0x01) + texts)
        stream = link.makefile("rb")
        length = int.from_bytes(head := stream.read(4), "big")
        reply = stream.read(length) if length <= 1048576 else b""
        if len(head) < 4 or len(reply) < length <= 1048576:
            raise ConnectionError("hung up")
        return reply

def shown(reply):
    number, operation, commit = struct.unpack_from(">HBQ", reply)
    if number != 1:
        raise ValueError("the reply to another question")
    if operation != 0x81:
        word, form = AGENTS[operation]
        found = struct.unpack(form, reply[11:])
        if operation == 0x82:
            *found, allowed = found
            return " ".join(map(str, [["deny", "allow"][allowed], commit, word, *found]))
        return " ".join(map(str, [word, commit, *found]))
    def texts(at, count):
        found = []
        for _ in range(count):
            (length,) = struct.unpack_from(">H", reply, at)
            found, at = [*found, reply[at + 2 : at + 2 + length].decode("ascii")], at + 2 + length
        return found, at
    result = {0: "deny", 0xFFFF: "allow"}[struct.unpack_from(">H", reply, 11)[0]]
    (_, bucket), at = texts(13, 2)
    key, end = texts(at + 1, 3) if reply[at] else (["default"], at + 1)
    if reply[at] > 1 or end != len(reply):
        raise ValueError("a wrong flag, or other bytes than its fields have")
    return " ".join([result, str(commit), bucket or ".", *key])

for _ in range(3):
    try:
        print(shown(ask(sys.argv[1], [name.encode() for name in sys.argv[2:5]])))
        sys.exit(0)
    except OSError as error:
        print(f"check.py: {sys.argv[1]}: {error}", file=sys.stderr)
    except (ValueError, KeyError, IndexError, struct.error):
        print("fault reply")
        sys.exit(9)
sys.exit(7)
