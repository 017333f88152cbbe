#!/usr/bin/env python3
"""A client of DNS Push Notifications (RFC 8765): subscribes, and prints what it is told as the zone changes.

It keeps the records that it was told of, as RFC 8765, 6.3.1 says, and prints them when it ends.
"""
import argparse
import ipaddress
import select
import socket
import struct
import sys
import time

TYPES = {"A": 1, "NS": 2, "CNAME": 5, "PTR": 12, "TXT": 16, "KEY": 25, "AAAA": 28, "SRV": 33, "DNSKEY": 48, "ANY": 255}
TYPE_WORDS = {number: word for word, number in TYPES.items()}
CLASSES = {"IN": 1, "ANY": 255}
CLASS_WORDS = {number: word for word, number in CLASSES.items()}
KEEPALIVE, SUBSCRIBE, PUSH, UNSUBSCRIBE = 1, 0x40, 0x41, 0x42
RCODES = {1: "FORMERR", 2: "SERVFAIL", 9: "NOTAUTH", 11: "DSOTYPENI"}
REMOVE_ONE, REMOVE_ALL = 0xFFFFFFFF, 0xFFFFFFFE


class Malformed(Exception):
    """The server sent bytes that RFC 8765 does not allow."""


def name_octets(text):
    labels = [label.encode("ascii") for label in text.rstrip(".").split(".") if text.rstrip(".")]
    if any(not 1 <= len(label) <= 63 for label in labels) or sum(len(label) + 1 for label in labels) > 254:
        raise ValueError(f"{text} is no name")
    return b"".join(bytes([len(label)]) + label for label in labels) + b"\0"


def name_text(octets):
    labels, at = [], 0
    while octets[at]:
        labels.append(octets[at + 1 : at + 1 + octets[at]].decode("ascii", "backslashreplace"))
        at += 1 + octets[at]
    return ".".join(labels) + "."


def read_name(data, at):
    start = at
    while at < len(data) and 1 <= data[at] <= 63:
        at += 1 + data[at]
    if at >= len(data) or data[at] != 0 or at + 1 - start > 255:
        raise Malformed("a name is cut short")
    return data[start : at + 1], at + 1


def word(words, number, prefix):
    return words.get(number, f"{prefix}{number}")


def rdata_text(rrtype, rdata):
    if rrtype in (1, 28) and len(rdata) == {1: 4, 28: 16}[rrtype]:
        return str(ipaddress.ip_address(rdata))
    if rrtype in (2, 5, 12):
        return name_text(read_name(rdata, 0)[0])
    if rrtype == 16 and rdata and rdata[0] == len(rdata) - 1:
        return '"' + rdata[1:].decode("ascii", "backslashreplace") + '"'
    return rdata.hex()


def record_text(record):
    name, rrtype, rrclass, ttl, rdata = record
    return f"{name_text(name)} {ttl} {word(CLASS_WORDS, rrclass, 'CLASS')} {word(TYPE_WORDS, rrtype, 'TYPE')} {rdata_text(rrtype, rdata)}"


class Records:
    """What the client holds: a record is known by its name without case, its type, its class and its RDATA."""

    def __init__(self):
        self.held = {}

    @staticmethod
    def key(name, rrtype, rrclass, rdata):
        return name.lower(), rrtype, rrclass, rdata

    def add(self, record):
        name, rrtype, rrclass, ttl, rdata = record
        key = self.key(name, rrtype, rrclass, rdata)
        known = self.held.get(key)
        self.held[key] = (known[0] if known else name, rrtype, rrclass, ttl, rdata)
        print(("~ " if known else "+ ") + record_text(self.held[key]), flush=True)

    def remove(self, covers):
        for key in [key for key in self.held if covers(*key)]:
            print("- " + record_text(self.held.pop(key)), flush=True)

    def apply(self, record):
        """One change notification (RFC 8765, 6.3.1)."""
        name, rrtype, rrclass, ttl, rdata = record
        same = lambda n: n == name.lower()
        if ttl <= 0x7FFFFFFF:
            self.add(record)
        elif ttl == REMOVE_ONE:
            self.remove(lambda n, t, c, d: same(n) and (t, c, d) == (rrtype, rrclass, rdata))
        elif ttl == REMOVE_ALL and rrclass == 255:
            self.remove(lambda n, t, c, d: same(n))
        elif ttl == REMOVE_ALL and rrtype == 255:
            self.remove(lambda n, t, c, d: same(n) and c == rrclass)
        elif ttl == REMOVE_ALL:
            self.remove(lambda n, t, c, d: same(n) and (t, c) == (rrtype, rrclass))

    def apply_push(self, data):
        at = 0
        while at < len(data):
            name, at = read_name(data, at)
            if len(data) - at < 10:
                raise Malformed("a change notification is cut short")
            rrtype, rrclass, ttl, length = struct.unpack_from("!HHIH", data, at)
            at += 10
            if len(data) - at < length:
                raise Malformed("RDATA is cut short")
            self.apply((name, rrtype, rrclass, ttl, data[at : at + length]))
            at += length


def message(message_id, tlv_type, data):
    body = struct.pack("!HHHHHHHH", message_id, 0x3000, 0, 0, 0, 0, tlv_type, len(data)) + data
    return struct.pack("!H", len(body)) + body


class Client:
    def __init__(self, connection):
        self.connection, self.records, self.asked, self.buffer = connection, Records(), {}, b""
        self.last_id = 0
        self.next_keepalive = 0

    def request(self, tlv_type, data, what):
        self.last_id += 1
        self.asked[self.last_id] = what
        self.connection.sendall(message(self.last_id, tlv_type, data))

    def subscribe(self, question):
        parts = question.split(":")
        name, rrtype, rrclass = parts + ["ANY", "IN"][len(parts) - 1 :]
        numbers = struct.pack("!HH", TYPES.get(rrtype) or int(rrtype), CLASSES.get(rrclass) or int(rrclass))
        self.request(SUBSCRIBE, name_octets(name) + numbers, f"{name} {rrtype} {rrclass}")

    def keep_alive(self):
        """Asked for in time: the server ends a session that is silent for twice the keepalive interval (RFC 8490, 6.5)."""
        if time.monotonic() >= self.next_keepalive:
            self.request(KEEPALIVE, struct.pack("!II", 15000, 60000), None)
            self.next_keepalive = time.monotonic() + 10

    def take(self, m):
        if len(m) < 12:
            raise Malformed("a message is cut short")
        message_id, flags = struct.unpack_from("!HH", m)
        if flags & 0x8000:
            what, rcode = self.asked.pop(message_id, None), flags & 15
            if what:
                print(f"# {what}: {'subscribed' if rcode == 0 else 'refused, ' + RCODES.get(rcode, str(rcode))}", flush=True)
        elif len(m) >= 16 and struct.unpack_from("!HH", m, 12) == (PUSH, len(m) - 16):
            self.records.apply_push(m[16:])
        else:
            raise Malformed("neither a response nor a PUSH")

    def receive(self):
        """Whether the connection goes on."""
        got = self.connection.recv(65536)
        self.buffer += got
        while len(self.buffer) >= 2 and len(self.buffer) >= 2 + struct.unpack_from("!H", self.buffer)[0]:
            length = struct.unpack_from("!H", self.buffer)[0]
            self.take(self.buffer[2 : 2 + length])
            self.buffer = self.buffer[2 + length :]
        return bool(got)

    def follow(self, until):
        while time.monotonic() < until:
            self.keep_alive()
            if select.select([self.connection], [], [], min(0.5, max(0.0, until - time.monotonic())))[0] and not self.receive():
                print("# closed by the server", flush=True)
                return


def main():
    parser = argparse.ArgumentParser(description="Subscribes, and prints what it is told as the zone changes.")
    parser.add_argument("port", type=int, help="the server's port on 127.0.0.1")
    parser.add_argument("question", nargs="+", help="NAME, NAME:TYPE or NAME:TYPE:CLASS, such as a.shop.example:ANY")
    parser.add_argument("--seconds", type=float, default=float("inf"), help="how long to follow (until interrupted)")
    words = parser.parse_args()
    try:
        client = Client(socket.create_connection(("127.0.0.1", words.port)))
        for question in words.question:
            client.subscribe(question)
    except (OSError, ValueError, struct.error) as problem:
        sys.exit(f"client: {problem}")
    try:
        client.follow(time.monotonic() + words.seconds)
    except KeyboardInterrupt:
        pass
    except (OSError, Malformed) as problem:
        print(f"# {problem}", flush=True)
    print("# holds")
    for line in sorted(record_text(record) for record in client.records.held.values()):
        print("= " + line)


if __name__ == "__main__":
    main()
