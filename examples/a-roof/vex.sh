#!/usr/bin/env bash
# Plays devices that vex an office, on ports of this machine, and callers that take their time, as
#
#     bash examples/a-roof/vex.sh good=15030 gateway=15031
#
# Each word names a line and its port. What a line does is said on standard input, whose end is its end:
#
#     open LINE               it can be reached from now on
#     silent LINE UNIT        a device behind it answers nothing
#     speak LINE UNIT         it answers again
#     late LINE SECONDS       its answers come so much later
#     flood LINE              behind each answer it sends what nobody asked for, as fast as it can
#     reset LINE              it resets its connection in the midst of each answer
#     calm LINE               it does neither any more
#     begin PORT COUNT        so many callers send a byte a second of a head that never ends to a port
#     call PORT COUNT         so many send a whole head, and then a byte of the body a second
#     leave                   they go
#
# Standard output says which line is open, which orders came, and when all callers are there. It needs Python 3 alone.
exec python3 /dev/fd/9 "$@" 9<< 'PYTHON'
import socket
import struct
import sys
import threading
import time

SLOT_SECONDS = 2
SETTING, COUNTER = 40, 107
# Numbers begin again at 0 before 65535, which would say that a device has none.
ROLL = 60000
# Replies to a query that nobody made.
UNASKED = struct.pack(">HHHBBBH", 50000, 0, 5, 1, 3, 2, 0) * 1000
# A connection that is closed so is reset: nothing that wasn't taken of it is kept.
RESET = struct.pack("ii", 1, 0)
HEADS = {
    "begin": b"GET /points HTTP/1.1\r\nSlow: ",
    "call": b"PUT /callers/slow/lists/l HTTP/1.1\r\nContent-Length: 1000\r\n\r\n",
}

began = time.monotonic()
left = threading.Event()


def tell(*words: object) -> None:
    print(*words, flush=True)


def slot() -> int:
    return int(time.time()) // SLOT_SECONDS


class Line:
    """A line, with devices behind it that have the same registers."""

    def __init__(self, name: str, port: int) -> None:
        self.name = name
        self.port = port
        self.silent: set[str] = set()
        self.delay = 0.0
        self.floods = False
        self.resets = False
        self.setting = 0

    def open(self) -> None:
        door = socket.create_server(("127.0.0.1", self.port))
        threading.Thread(target=self.accept, args=(door,), daemon=True).start()
        tell(self.name, "is open")

    def accept(self, door: socket.socket) -> None:
        while True:
            peer, _ = door.accept()
            peer.setsockopt(socket.IPPROTO_TCP, socket.TCP_NODELAY, 1)
            threading.Thread(target=self.serve, args=(peer,), daemon=True).start()

    def serve(self, peer: socket.socket) -> None:
        try:
            with peer, peer.makefile("rb") as queries:
                while len(head := queries.read(7)) == 7:
                    transaction, _, length, unit = struct.unpack(">HHHB", head)
                    query = queries.read(length - 1)
                    if self.resets:
                        peer.sendall(self.frame(transaction, unit, query)[:8])
                        peer.setsockopt(socket.SOL_SOCKET, socket.SO_LINGER, RESET)
                        return
                    if str(unit) not in self.silent:
                        self.reply_later(peer, transaction, unit, query)
                    while self.floods:
                        peer.sendall(UNASKED)
        except OSError:
            pass

    def reply_later(self, *words) -> None:
        if self.delay > 0:
            threading.Timer(self.delay, self.reply, words).start()
        else:
            self.reply(*words)

    def reply(self, peer: socket.socket, *words) -> None:
        try:
            peer.sendall(self.frame(*words))
        except OSError:
            pass

    def frame(self, transaction: int, unit: int, query: bytes) -> bytes:
        answer = self.answer(query)
        return struct.pack(">HHHB", transaction, 0, len(answer) + 1, unit) + answer

    def answer(self, query: bytes) -> bytes:
        function, address, count = struct.unpack(">BHH", query[:5])
        if function == 3:
            numbers = [self.register(address + at) for at in range(count)]
            return struct.pack(f">BB{count}H", function, 2 * count, *numbers)
        if function not in (6, 16):
            return bytes([function | 0x80, 1])
        # One register is set: by function 6 to what stands behind its address, by function 16 to what comes last.
        self.setting = int.from_bytes(query[-2:], "big")
        tell(self.name, "was set to", self.setting, "in slot", slot())
        return query[:5]

    def register(self, address: int) -> int:
        if address == SETTING:
            return self.setting
        if address == COUNTER:
            return int(ROLL - 500 + (time.monotonic() - began) * 10) % ROLL
        return slot() % ROLL


def call(kind: str, port: str, count: str) -> None:
    left.clear()
    callers = []
    for _ in range(int(count)):
        caller = socket.create_connection(("127.0.0.1", int(port)))
        caller.sendall(HEADS[kind])
        callers.append(caller)
    tell(len(callers), "callers are there")
    while not left.wait(1):
        for caller in callers:
            try:
                caller.sendall(b"x")
            except OSError:
                pass
    for caller in callers:
        caller.close()


lines: dict[str, Line] = {}
for word in sys.argv[1:]:
    name, port = word.split("=")
    lines[name] = Line(name, int(port))
for words in map(str.split, sys.stdin):
    if words[0] in HEADS:
        threading.Thread(target=call, args=words, daemon=True).start()
    elif words[0] == "leave":
        left.set()
    elif words[0] == "open":
        lines[words[1]].open()
    elif words[0] == "silent":
        lines[words[1]].silent.add(words[2])
    elif words[0] == "speak":
        lines[words[1]].silent.discard(words[2])
    elif words[0] == "late":
        lines[words[1]].delay = float(words[2])
    else:
        lines[words[1]].floods = words[0] == "flood"
        lines[words[1]].resets = words[0] == "reset"
PYTHON
