#!/usr/bin/env python3
"""Draws the crates of crates.txt, each above those that it stands on, to docs/house.svg.

With --check it writes nothing, and fails where the picture isn't that of crates.txt. Crates of tests, benches, refusals and mc_scrape are left out, and so
is a line that follows from others: where a stands on b and b on c, none is drawn from a to c. Boxes have a ground of their own, so
that they can be read on a light page and on a dark one.
"""

import sys

from specifications import ROOT, listed

# What each box says below its name.
SAYS = {
    "lists": "lemmas on lists",
    "mc_model": "values, commands, tables",
    "model_lemmas": "lemmas on these",
    "mc_laws": "what follows from them",
    "mc_items": "all tenants' tables",
    "mc_counters": "counts of requests",
    "mc_metrics": "what a scrape gets",
    "mc_scraping": "the listener for scrapes",
    "mc_tables": "one table, by its quotas",
    "uc_cells": "contents, set once",
    "mc_replica": "each tenant's table",
    "uc_core": "the theorem, on a machine",
    "uc_places": "words that threads share",
    "uc_laws": "the theorem, over tables",
    "uc_log": "contents and order joined",
    "uc_worker": "submit, help, meet",
    "uc_refinement": "its workers run the core",
    "mc_read": "bytes to requests",
    "mc_schedules": "event lists",
    "mc_write": "replies to bytes",
    "mc_stream": "pulls and pushes",
    "stream_lemmas": "lemmas on these",
    "mc_conn": "one connection, by turns",
    "fair_queue": "flows served in turn",
    "fair_places": "places, some kept",
    "mc_connections": "connections, over logs",
    "mc_net": "sockets and threads",
    "mc_programs": "programs over streams",
    "mc_server": "the words of wfmc, its log",
    "mc_server_laws": "what follows above tables",
    "mc_stdin": "one client, by pipes",
    "mc_schedule": "tries a schedule",
    "wfmc": "the server",
}
PROGRAMS = ("mc_stdin", "mc_schedule", "wfmc")
LEMMAS = ("lists", "model_lemmas", "stream_lemmas")
# A box's ground and ink, by whether it is a program or has lemmas alone, and how its crate's name begins otherwise.
KINDS = {"program": ("#ffe3a8", "#8a6100"), "lemmas": ("#e6e6e6", "#5a5a5a"), "mc": ("#cfe6ff", "#1f5f99"), "uc": ("#d5f0d2", "#2f7a33")}
WIDTH, HEIGHT, GAP, STEP, EDGE = 178, 46, 26, 84, 14


def read_crates():
    """The crates that are drawn, with those of them that each stands on."""
    crates = listed()
    drawn = {name for name in crates if not name.endswith("_tests") and name not in ("benches", "refusals", "mc_scrape")}
    return {name: [it for it in crates[name] if it in drawn] for name in crates if name in drawn}


def below(crates, name):
    """All that the crate stands on, at any depth."""
    return {it for library in crates[name] for it in {library} | below(crates, library)}


def height_of(crates, name):
    return 1 + max((height_of(crates, it) for it in crates[name]), default=-1)


def levels_of(crates):
    """How many crates stand below each, one on another; a crate that stands on none is lifted towards those that stand on it."""
    level = {name: height_of(crates, name) for name in crates}
    for name in crates:
        users = [level[it] for it in crates if name in crates[it]]
        if users and not crates[name]:
            level[name] = min(users) - 1
    return level


def layers_of(crates, level):
    """Each level's nodes from left to right, and the lines between neighbouring levels; a line that passes a level has a node there."""
    layers = [[name for name in crates if level[name] == at] for at in range(max(level.values()) + 1)]
    links, paths = [], []
    for name in crates:
        for library in crates[name]:
            if library in {it for other in crates[name] if other != library for it in below(crates, other)}:
                continue
            path = [name]
            for at in range(level[name] - 1, level[library], -1):
                layers[at].append((name, library, at))
                path.append((name, library, at))
            path.append(library)
            paths.append(path)
            links += list(zip(path, path[1:]))
    return layers, links, paths


def middle(values, otherwise):
    return sum(values) / len(values) if values else otherwise


def crossings(layers, links):
    """How often lines cross, between all neighbouring levels."""
    place = {node: at for layer in layers for at, node in enumerate(layer)}
    depth = {node: at for at, layer in enumerate(layers) for node in layer}
    count = 0
    for at, (top, low) in enumerate(links):
        for other, end in links[at + 1 :]:
            if depth[other] == depth[top] and (place[other] - place[top]) * (place[end] - place[low]) < 0:
                count += 1
    return count


def ordered(layers, links):
    """The order with the fewest crossings that sweeps up and down find."""
    best = [list(layer) for layer in layers]
    for sweep in range(60):
        rising = sweep % 2 == 0
        for at in range(1, len(layers)) if rising else range(len(layers) - 2, -1, -1):
            near = {node: place for place, node in enumerate(layers[at - 1 if rising else at + 1])}
            ends = {node: [near[b if a == node else a] for a, b in links if node in (a, b) and (b if a == node else a) in near] for node in layers[at]}
            held = {node: place for place, node in enumerate(layers[at])}
            layers[at].sort(key=lambda node: (middle(ends[node], held[node]), held[node]))
        if crossings(layers, links) < crossings(best, links):
            best = [list(layer) for layer in layers]
    return best


def spread(layer, wanted):
    """Places in this order and with room between them, as near to the wanted ones as may be: neighbours that are too near are moved as one."""
    rooms = [(WIDTH if isinstance(node, str) else 10) / 2 for node in layer]
    offsets = [0.0]
    for at in range(1, len(layer)):
        offsets.append(offsets[-1] + rooms[at - 1] + GAP + rooms[at])
    groups = []
    for node, offset in zip(layer, offsets):
        groups.append(([node], wanted[node] - offset))
        while len(groups) > 1 and groups[-2][1] > groups[-1][1]:
            (first, one), (second, other) = groups[-2:]
            groups[-2:] = [(first + second, (one * len(first) + other * len(second)) / (len(first) + len(second)))]
    starts = {node: start for group, start in groups for node in group}
    return {node: starts[node] + offset for node, offset in zip(layer, offsets)}


def columns(layers, links):
    """The middle of each node, drawn towards the nodes that it is joined to."""
    x = {node: at * (WIDTH + GAP) for layer in layers for at, node in enumerate(layer)}
    for sweep in range(200):
        for layer in layers if sweep % 2 else reversed(layers):
            x |= spread(layer, {node: middle([x[b if a == node else a] for a, b in links if node in (a, b)], x[node]) for node in layer})
    least = min(x[node] - WIDTH / 2 for node in x if isinstance(node, str))
    return {node: round(place - least + EDGE, 1) for node, place in x.items()}


def line(path, x, y):
    """A curve from the foot of the crate, through the levels that it passes, to the head of the library."""
    points = [(x[path[0]], y[path[0]] + HEIGHT)]
    for node in path[1:-1]:
        points += [(x[node], y[node]), (x[node], y[node] + HEIGHT)]
    points.append((x[path[-1]], y[path[-1]]))
    text = f"M{points[0][0]} {points[0][1]}"
    for (ax, ay), (bx, by) in zip(points, points[1:]):
        text += f" L{bx} {by}" if ax == bx else f" C{ax} {(ay + by) / 2} {bx} {(ay + by) / 2} {bx} {by}"
    return f'<path d="{text}"/>'


def box(name, x, y):
    ground, ink = KINDS["program" if name in PROGRAMS else "lemmas" if name in LEMMAS else "uc" if name.startswith("uc_") else "mc"]
    return (
        f'<rect x="{x - WIDTH / 2:.1f}" y="{y}" width="{WIDTH}" height="{HEIGHT}" rx="6" fill="{ground}" stroke="{ink}"/>'
        f'<text x="{x}" y="{y + 19}" class="name">{name}</text><text x="{x}" y="{y + 36}">{SAYS[name]}</text>'
    )


def picture(crates):
    unsaid = sorted(set(crates) ^ set(SAYS))
    if unsaid:
        sys.exit(f"tools/picture.py: no words for a crate, or a crate less: {', '.join(unsaid)}")
    level = levels_of(crates)
    layers, links, paths = layers_of(crates, level)
    layers = ordered(layers, links)
    x = columns(layers, links)
    top = len(layers) - 1
    y = {node: EDGE + (top - at) * STEP for at, layer in enumerate(layers) for node in layer}
    width = max(x[name] for name in crates) + WIDTH / 2 + EDGE
    height = EDGE * 2 + top * STEP + HEIGHT
    return "\n".join(
        [
            f'<svg xmlns="http://www.w3.org/2000/svg" viewBox="0 0 {width:g} {height}" width="{width:g}" height="{height}" role="img">',
            "<title>The crates, each above those that it stands on</title>",
            "<style>text { font: 12px system-ui, sans-serif; fill: #1b1f24; text-anchor: middle } .name { font: 600 14px ui-monospace, monospace }</style>",
            '<g fill="none" stroke="#7d8590" stroke-width="1.6">',
            *(line(path, x, y) for path in paths),
            "</g>",
            *(box(name, x[name], y[name]) for name in crates),
            "</svg>\n",
        ]
    )


def main():
    drawn = picture(read_crates())
    house = ROOT / "docs/house.svg"
    if sys.argv[1:] == ["--check"]:
        if not house.exists() or house.read_text() != drawn:
            sys.exit("docs/house.svg isn't that of crates.txt: tools/picture.py draws it")
    elif sys.argv[1:]:
        sys.exit("usage: tools/picture.py [--check]")
    else:
        house.write_text(drawn)


main()
