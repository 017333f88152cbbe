"""Runs the example host and example clients against each other on loopback, and holds what each client ends up with to the zone.

usage: check.py HOST CLIENT [SEED]     HOST: the built host; CLIENT: examples/client.py
"""
import random
import signal
import socket
import struct
import subprocess
import sys
import time

NAMES = ["a", "b", "*", "key.robot", "A-Long-Label-" + "x" * 40]
QUESTIONS = [
    ["a.shop.example", "b.shop.example:A"],
    ["A.SHOP.EXAMPLE:TXT", "key.robot.shop.example:ANY:ANY", "*.shop.example"],
    [f"{name}.shop.example:ANY" for name in NAMES],
]
MARKER = "marker.shop.example"
PATIENCE = 30


class Zone:
    """The records that the edits leave: by name without case, type and RDATA; a put keeps the first spelling."""

    def __init__(self):
        self.records = {}

    def put(self, name, ttl, rrtype, rdata):
        key = (name.lower(), rrtype, rdata)
        spelled = self.records.get(key, (name, 0))[0]
        self.records[key] = (spelled, ttl)
        return f"put {name} {ttl} IN {rrtype} {rdata}"

    def delete(self, name, rrtype, rdata):
        self.records.pop((name.lower(), rrtype, rdata), None)
        return f"delete {name} IN {rrtype} {rdata}"

    def seen_by(self, questions):
        """The lines that a client with these questions should end with."""
        asked = [(parts + ["ANY"])[:2] for parts in (question.lower().split(":") for question in questions)]
        asked = [(name, rrtype.upper()) for name, rrtype in asked]
        return sorted(
            f"{name}. {ttl} IN {rrtype} {shown(rrtype, rdata)}".lower()
            for (key, rrtype, rdata), (name, ttl) in self.records.items()
            if any(key == name and kind in ("ANY", rrtype) for name, kind in asked)
        )


def shown(rrtype, rdata):
    return f'"{rdata}"' if rrtype == "TXT" else rdata


def random_edit(random, zone):
    name = random.choice(NAMES) + ".shop.example"
    name = name.upper() if random.random() < 0.2 else name
    rrtype = random.choice(["A", "TXT", "KEY"])
    rdata = {"A": f"192.0.2.{random.randrange(4)}", "TXT": f"v {random.randrange(3)}", "KEY": f"{random.randrange(3):04x}"}[rrtype]
    if random.random() < 0.5:
        return zone.put(name, random.choice([60, 120]), rrtype, rdata)
    return zone.delete(name, rrtype, rdata)


def wait_for(stream, test, what):
    """The first line of a process's output that passes; a thread is not needed, as each process writes what is waited for."""
    deadline = time.monotonic() + PATIENCE
    while time.monotonic() < deadline:
        line = stream.readline()
        if not line:
            break
        if test(line):
            return line
    sys.exit(f"host: {what} did not come")


def start_client(client, port, questions):
    process = subprocess.Popen(
        [sys.executable, client, str(port), *questions, MARKER + ":TXT"], stdout=subprocess.PIPE, text=True
    )
    for _ in questions + [MARKER]:
        wait_for(process.stdout, lambda line: line.startswith("# ") and "subscribed" in line, "a subscription")
    return process


def end_client(process):
    wait_for(process.stdout, lambda line: line.startswith("+ " + MARKER), "the marker")
    process.send_signal(signal.SIGINT)
    out, _ = process.communicate(timeout=PATIENCE)
    held = [line[2:].lower() for line in out.splitlines() if line.startswith("= ")]
    return sorted(line for line in held if not line.startswith(MARKER))


def aborted(port, octets):
    """Whether the host resets a connection that sends these octets."""
    with socket.create_connection(("127.0.0.1", port)) as connection:
        connection.settimeout(PATIENCE)
        connection.sendall(octets)
        try:
            return connection.recv(1) == b""
        except ConnectionResetError:
            return True


def expect_usage(host):
    for words in ([], ["shop.example"], ["shop.example", "x"], ["shop.example", "70000"], ["a..b", "0"]):
        ended = subprocess.run([host, *words], stdin=subprocess.DEVNULL, capture_output=True, text=True)
        if ended.returncode != 2 or not ended.stderr.startswith(("usage: host ", "host: the zone's name")):
            sys.exit(f"host: bad arguments {words} end with {ended.returncode}: {ended.stderr}")


def main():
    if not 3 <= len(sys.argv) <= 4:
        sys.exit(__doc__)
    host, client, seed = sys.argv[1], sys.argv[2], int(sys.argv[3]) if len(sys.argv) == 4 else 1
    expect_usage(host)
    chance, zone, batches = random.Random(seed), Zone(), 0
    server = subprocess.Popen([host, "shop.example", "0"], stdin=subprocess.PIPE, stdout=subprocess.PIPE, text=True)
    port = int(wait_for(server.stdout, lambda line: line.startswith("listening"), "the port").split()[-1])

    def send(lines):
        nonlocal batches
        batches += 1
        server.stdin.write("".join(line + "\n" for line in lines) + "\n")
        server.stdin.flush()
        return wait_for(server.stdout, lambda line: line.startswith("a batch"), "a batch's answer")

    clients = []
    for questions in QUESTIONS:
        for _ in range(12):
            send([random_edit(chance, zone) for _ in range(chance.randrange(1, 6))])
        clients.append(start_client(client, port, questions))
    if not aborted(port, b"\0\2ab"):
        sys.exit("host: a message of two bytes does not end its session")
    if not aborted(port, struct.pack("!HHHHHHHHH", 16, 1, 0xB000, 0, 0, 0, 0, 1, 0)):
        sys.exit("host: a response does not end its session")
    if "refused (15)" not in send(["put a.shop.example 4000000000 IN A 192.0.2.1"]):
        sys.exit("host: a TTL over the limit is not refused")
    for _ in range(40):
        send([random_edit(chance, zone) for _ in range(chance.randrange(1, 6))])
    send([f"put {MARKER} 1 IN TXT done"])
    for questions, process in zip(QUESTIONS, clients):
        held, view = end_client(process), zone.seen_by(questions)
        if held != view:
            sys.exit(f"host: seed {seed}: a client of {questions} holds\n{held}\nand its view is\n{view}")
    server.send_signal(signal.SIGTERM)
    if server.wait(timeout=PATIENCE) != 0:
        sys.exit(f"host: ended with {server.returncode}")
    print(f"host: {len(clients)} clients hold their views of {len(zone.records)} records after {batches} batches (seed {seed})")


if __name__ == "__main__":
    main()
