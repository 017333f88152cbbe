#!/usr/bin/env python3
"""Makes the table of docs/PERFORMANCE.md and its plot from what the harness measured.

usage: report.py TIMES GROWTH COUNTS PROFILES DOCUMENT PLOT

TIMES and GROWTH are what `bench times` prints; COUNTS has lines of state, call, server and instructions a call; PROFILES has lines of
case, function and instructions a call. The table is written between the markers of DOCUMENT; PLOT is written whole, as SVG.
"""
import sys
from math import log10

OTHERS = ["plain", "incremental", "reference"]
COLOURS = {"proved": "#c0392b", "plain": "#2c3e50", "incremental": "#27ae60", "reference": "#8e8e8e"}


def read(path):
    """Rows of a file by state and call, in its order, each with a server's fields."""
    rows = {}
    with open(path, encoding="utf-8") as lines:
        for line in lines:
            state, call, server, *fields = line.rstrip("\n").split("\t")
            rows.setdefault((state, call), {})[server] = [float(field) for field in fields]
    return rows


def span(nanoseconds):
    if nanoseconds < 1000:
        return f"{nanoseconds:.0f} ns"
    if nanoseconds < 1e6:
        return f"{nanoseconds / 1000:.1f} us"
    return f"{nanoseconds / 1e6:.2f} ms"


def count(number):
    return f"{number:,.0f}"


def table(times, counts):
    lines = [
        "| state | call | proved | plain | proved / plain | its quartiles | proved / incremental | proved / reference "
        "| instructions: proved | plain | proved / plain | proved / incremental |",
        "|---|---|--:|--:|--:|--:|--:|--:|--:|--:|--:|--:|",
    ]
    for (state, call), servers in times.items():
        ratios = {name: servers[name][1] for name in OTHERS}
        low, high = servers["plain"][2], servers["plain"][3]
        ours, plain, incremental = (counts[(state, call)][name][0] for name in ["proved", "plain", "incremental"])
        cells = [state, call, span(servers["proved"][0]), span(servers["plain"][0]), f"**{ratios['plain']:.2f}**"]
        cells += [f"{low:.2f} to {high:.2f}", f"{ratios['incremental']:.2f}", f"{ratios['reference']:.2f}"]
        cells += [count(ours), count(plain), f"**{ours / plain:.2f}**", f"{ours / incremental:.2f}"]
        lines.append("| " + " | ".join(cells) + " |")
    return lines


def rates(times):
    lines = ["Messages judged in a second, by their bytes alone:", ""]
    lines += ["| messages | proved | plain | reference |", "|---|--:|--:|--:|"]
    for (state, call), servers in times.items():
        if state == "no server":
            cells = [f"{1e9 / servers[name][0]:,.0f}" for name in ["proved", "plain", "reference"]]
            lines.append(f"| {call} | " + " | ".join(cells) + " |")
    return lines


def targets(times, counts):
    """The worst case of each group beside its target."""
    groups = [
        ("batch of 1, full, all match", "full, all match", "batch of 1:", 2.0),
        ("batch of 32, full, all match", "full, all match", "batch of 32:", 2.0),
        ("batch of 1, full, few match", "full, few match", "batch of 1:", 2.0),
        ("batch of 32, full, few match", "full, few match", "batch of 32:", 2.0),
        ("batch of 1, full, names and RDATA alike", "full, all match, alike", "batch of 1:", 2.0),
        ("batch of 32, full, names and RDATA alike", "full, all match, alike", "batch of 32:", 2.0),
        ("a message, full", "full, all match", "message:", 1.5),
        ("a message, typical", "typical", "message:", 1.5),
        ("a message that aborts, with the open before it, full", "full, all match", "open, message:", 1.5),
        ("a message judged by its bytes", "no server", "judge", 1.5),
    ]
    lines = ["| what | target | time: best to worst case | instructions: best to worst case | met |", "|---|--:|--:|--:|---|"]
    for label, state, prefix, target in groups:
        cases = [case for case in times if case[0] == state and case[1].startswith(prefix)]
        if not cases:
            sys.exit(f"report.py: no case for '{label}'")
        taken = sorted(times[case]["plain"][1] for case in cases)
        counted = sorted(counts[case]["proved"][0] / counts[case]["plain"][0] for case in cases)
        met = "yes" if taken[-1] <= target else "no" if taken[0] > target else "in part"
        lines.append(
            f"| {label} | {target:.1f} | {taken[0]:.2f} to {taken[-1]:.2f} | {counted[0]:.2f} to {counted[-1]:.2f} | {met} |"
        )
    return lines


def profiles(path):
    cases = {}
    with open(path, encoding="utf-8") as rows:
        for row in rows:
            case, function, number = row.rstrip("\n").split("\t")
            cases.setdefault(case, []).append((function, float(number)))
    lines = []
    for case, functions in cases.items():
        whole = sum(number for _, number in functions)
        lines += ["", f"{case}: {count(whole)} instructions a call", "", "| function | instructions | part |", "|---|--:|--:|"]
        for function, number in sorted(functions, key=lambda pair: -pair[1])[:8]:
            lines.append(f"| `{function}` | {count(number)} | {100 * number / whole:.0f} % |")
    return lines


def between(text, name, lines):
    """Text with the lines between the two markers of a name."""
    begin, end = f"<!-- {name} -->", f"<!-- end of {name} -->"
    if text.count(begin) != 1 or text.count(end) != 1:
        sys.exit(f"report.py: the document needs '{begin}' and '{end}', once each")
    head, rest = text.split(begin)
    tail = rest.split(end)[1]
    return head + begin + "\n" + "\n".join(lines).strip("\n") + "\n" + end + tail


def ticks(most):
    step = 1
    while most / step > 8:
        step *= 2 if str(step)[0] in "15" else 2.5
    return [step * index for index in range(int(most // step) + 1)]


def panel(rows, title, label, left, width=380, height=330, top=60):
    """One panel: microseconds a batch, on a logarithmic scale, over the size."""
    out = [f'<text x="{left + width / 2}" y="{top - 24}" text-anchor="middle" font-weight="bold">{title}</text>']
    sizes = [int(call) for call in rows]
    values = [servers[name][0] / 1000 for servers in rows.values() for name in servers]
    low, high = int(log10(min(values)) // 1), int(log10(max(values)) // 1) + 1
    across = lambda size: left + width * size / max(sizes)
    up = lambda value: top + height * (high - log10(value)) / (high - low)
    for power in range(low, high + 1):
        y = up(10.0**power)
        out.append(f'<line x1="{left}" y1="{y:.1f}" x2="{left + width}" y2="{y:.1f}" stroke="#ddd"/>')
        out.append(f'<text x="{left - 6}" y="{y + 4:.1f}" text-anchor="end">{10.0**power:g}</text>')
    for size in ticks(max(sizes)):
        out.append(f'<text x="{across(size):.1f}" y="{top + height + 18}" text-anchor="middle">{size:g}</text>')
    out.append(f'<text x="{left + width / 2}" y="{top + height + 38}" text-anchor="middle">{label}</text>')
    out.append(f'<text x="{left - 44}" y="{top - 8}">us a batch</text>')
    for name in ["proved"] + OTHERS:
        points = [(across(int(call)), up(servers[name][0] / 1000)) for call, servers in rows.items()]
        path = " ".join(f"{x:.1f},{y:.1f}" for x, y in points)
        out.append(f'<polyline points="{path}" fill="none" stroke="{COLOURS[name]}" stroke-width="2"/>')
        out += [f'<circle cx="{x:.1f}" cy="{y:.1f}" r="2.5" fill="{COLOURS[name]}"/>' for x, y in points]
    return out


def plot(growth):
    groups = {}
    for (state, call), servers in growth.items():
        groups.setdefault(state, {})[call] = servers
    out = []
    for index, (state, rows) in enumerate(groups.items()):
        what, batch = state.split(", ")
        label = "subscriptions, in four sessions; 40 records" if what == "subscriptions" else "records; 64 subscriptions"
        out += panel(rows, batch, label, 80 + 470 * index)
    width = 80 + 470 * len(groups)
    for index, name in enumerate(["proved"] + OTHERS):
        x = 80 + 150 * index
        out.append(f'<line x1="{x}" y1="452" x2="{x + 24}" y2="452" stroke="{COLOURS[name]}" stroke-width="3"/>')
        out.append(f'<text x="{x + 30}" y="456">{name}</text>')
    head = f'<svg xmlns="http://www.w3.org/2000/svg" width="{width}" height="475" font-family="sans-serif" font-size="12">'
    return "\n".join([head, f'<rect width="{width}" height="475" fill="white"/>'] + out + ["</svg>"]) + "\n"


def main():
    if len(sys.argv) != 7:
        sys.exit(__doc__)
    times, growth, counts = (read(path) for path in sys.argv[1:4])
    document, picture = sys.argv[5:]
    missing = [case for case in times if set(counts.get(case, {})) != {"proved", *OTHERS}]
    if missing:
        sys.exit(f"report.py: no counts of {missing}")
    with open(document, encoding="utf-8") as file:
        text = file.read()
    text = between(text, "targets", targets(times, counts))
    text = between(text, "table", table(times, counts) + [""] + rates(times))
    text = between(text, "profiles", profiles(sys.argv[4]))
    with open(document, "w", encoding="utf-8") as file:
        file.write(text)
    with open(picture, "w", encoding="utf-8") as file:
        file.write(plot(growth))


main()
