#!/usr/bin/env python3
"""Draws what the nodes of a store say to one another, as `chunktrace` tells it.

    ./chunktrace < SCRIPT > TRACE
    docs/draw.py SCRIPT < TRACE > PICTURE.svg

Time goes down. Each node has a line of its own, each message is an arrow; the lines of the script stand at the left with their
answers, and at the right, behind each line of the script, which chunks each server holds if all has arrived that was sent to it: what
it has told of them, and what epochs and forwards make of that. Texts of messages and of lines are cut.
"""
import argparse
import html
import re
import sys

ROW, LEFT, GAP, RIGHT = 15, 300, 170, 330
LONGEST = 44
# Of a line of the script and its answer so many characters are shown each.
LONGEST_LINE = 26


class Held:
    """What is known of one server's replicas, from what it says and what was sent to it."""

    def __init__(self):
        self.live = {}
        self.sealed = {}

    def text(self):
        parts = []
        for handle in sorted(self.live):
            stamp, count = self.live[handle]
            parts.append(f"chunk {handle} at {stamp}, {count} {'edit' if count == 1 else 'edits'}")
        for handle in sorted(self.sealed):
            parts.append(f"sealed with {self.sealed[handle]}")
        return "; ".join(parts) or "nothing told"


def learn(held, kind, sender, receiver, words):
    """Takes from a message what it tells of a replica."""
    if kind == "promised":
        held[sender].live[int(words[0])] = (words[1], int(words[2]))
    elif kind == "ack":
        stamp, count = words[1], int(words[2])
        held[sender].live[int(words[0])] = (stamp, count)
    elif kind == "forward":
        handle, stamp, number = int(words[0]), words[1], int(words[2])
        held[sender].live[handle] = (stamp, number)
    elif kind == "epoch" and words[-1] == "prepare":
        held[receiver].sealed = {handle: count for handle, (_, count) in held[receiver].live.items()}
    elif kind == "epoch" and words[-1] == "finalize":
        held[receiver].sealed = {}
    elif kind == "epoch" and words[-1] == "rollback":
        back = held[receiver].sealed
        held[receiver].live = {handle: (words[0] + ".0", count) for handle, count in back.items()}
        held[receiver].sealed = {}


def read(script, trace):
    """Rows: ('line', text, answer), ('message', kind, sender, receiver, text) or ('held', server, text)."""
    lines = [line.rstrip("\n") for line in script]
    servers = sorted({word for line in trace for word in re.findall(r"\bS\d+\b", line)}, key=lambda s: int(s[1:]))
    held = {server: Held() for server in servers}
    rows, number, told = [], 0, {}
    for line in trace:
        line = line.rstrip("\n")
        message = re.match(r"\d+ (\w+) (\w+) (\w+) ?(.*)$", line)
        if re.match(r"(ok|refused)( |$)", line):
            rows += changes(held, told)
            rows.append(("line", lines[number] if number < len(lines) else "", line))
            number += 1
        elif message:
            kind, sender, receiver, rest = message.groups()
            learn(held, kind, sender, receiver, rest.split())
            rows.append(("message", kind, sender, receiver, rest))
    return servers, rows + changes(held, told)


def changes(held, told):
    """What is told anew of servers since the last line."""
    rows = []
    for server, state in held.items():
        text = state.text()
        if told.get(server, "nothing told") != text:
            rows.append(("held", server, text))
            told[server] = text
    return rows


def cut(text, most):
    """A text of that many characters at most, which tells where something is left out."""
    return text if len(text) <= most else f"{text[: most - 1]}…"


def draw(servers, rows):
    nodes = ["C1", "M"] + servers
    place = {node: LEFT + 60 + GAP * i for i, node in enumerate(nodes)}
    width = LEFT + 60 + GAP * len(nodes) + RIGHT
    height = 60 + ROW * len(rows)
    out = [f'<svg xmlns="http://www.w3.org/2000/svg" width="{width}" height="{height}" font-family="monospace" font-size="11">',
           '<defs><marker id="a" markerWidth="8" markerHeight="6" refX="8" refY="3" orient="auto"><path d="M0,0 L8,3 L0,6 z"/></marker></defs>',
           f'<rect width="{width}" height="{height}" fill="white"/>']
    for node in nodes:
        x = place[node]
        out.append(f'<text x="{x}" y="20" text-anchor="middle" font-weight="bold">{node}</text>')
        out.append(f'<line x1="{x}" y1="28" x2="{x}" y2="{height - 10}" stroke="#bbb"/>')
    for i, row in enumerate(rows):
        y = 45 + ROW * i
        if row[0] == "line":
            out.append(f'<line x1="0" y1="{y - 11}" x2="{width}" y2="{y - 11}" stroke="#ddd"/>')
            line, answer = (html.escape(cut(text, LONGEST_LINE)) for text in row[1:])
            out.append(f'<text x="8" y="{y}"><tspan font-weight="bold">{line}</tspan> {answer}</text>')
        elif row[0] == "held":
            out.append(f'<text x="{place[servers[-1]] + 60}" y="{y}" fill="#060">{row[1]}: {html.escape(row[2])}</text>')
        else:
            _, kind, sender, receiver, rest = row
            a, b = place.get(sender, LEFT), place.get(receiver, LEFT)
            out.append(f'<line x1="{a}" y1="{y}" x2="{b}" y2="{y}" stroke="#333" marker-end="url(#a)"/>')
            text = cut(f"{kind} {rest}", LONGEST)
            out.append(f'<text x="{min(a, b) + 6}" y="{y - 2}" fill="#036" font-size="9">{html.escape(text)}</text>')
    return "\n".join(out + ["</svg>"])


def main():
    parser = argparse.ArgumentParser(description="Draws what the nodes of a store say to one another: a trace on standard input, a picture on standard output.")
    parser.add_argument("script", help="the script of which `./chunktrace < SCRIPT` told the trace")
    with open(parser.parse_args().script, encoding="utf-8") as script:
        servers, rows = read(script, sys.stdin.readlines())
    print(draw(servers, rows))


if __name__ == "__main__":
    main()
