#!/usr/bin/env python3
"""Times unification by NLTK, for a comparison with the combinations of the benchmark.

    python3 rust/benchmark/nltk_unify.py

The feature structures have the shape of the benchmark's graphs: 8, 40 and 255 nodes with some two
links a node. Each node is below one of the last quarter of the nodes before it. The other links go
from a node to a later node, which is then shared (reentrant). Two structures have the same links, and
each lacks some types of the other, so that they unify. The time is the least of many runs. In each
run NLTK copies both structures. If NLTK is not installed, the program says so and ends with success.
"""

import random
import sys
import time

try:
    from nltk.featstruct import FeatDict, unify
except ImportError:
    print("NLTK is not installed: nothing is timed")
    sys.exit(0)

SIZES = [8, 40, 255]
FEATURES = 24
SECONDS = 2.0
LEAST_RUNS = 5


def links_of(count):
    """The links of each node, from feature to node."""
    draw = random.Random(count)
    links = [{} for _ in range(count)]
    for node in range(1, count):
        parent = draw.randrange(max(0, node - max(1, count // 4)), node)
        feature = draw.randrange(FEATURES)
        if feature in links[parent]:
            # The node before this one has no links yet.
            parent = node - 1
        links[parent][feature] = node
    for _ in range(count):
        lower, higher = sorted((draw.randrange(count), draw.randrange(count)))
        feature = draw.randrange(FEATURES)
        if lower != higher and feature not in links[lower]:
            links[lower][feature] = higher
    return links


def structure(links, seed):
    """The structure with the given links. Three nodes in four have a type."""
    draw = random.Random(seed)
    nodes = [FeatDict() for _ in links]
    for number, node in enumerate(nodes):
        if draw.random() < 0.75:
            node["type"] = "t%d" % (number % 64)
        for feature, target in links[number].items():
            node["f%d" % feature] = nodes[target]
    return nodes[0]


def least_time(one, other):
    """The least time of a unification, in microseconds."""
    least = float("inf")
    end = time.perf_counter() + SECONDS
    runs = 0
    while runs < LEAST_RUNS or time.perf_counter() < end:
        start = time.perf_counter()
        result = unify(one, other)
        least = min(least, time.perf_counter() - start)
        if result is None:
            sys.exit("the structures do not unify")
        runs += 1
    return least * 1e6


def main():
    # A unification calls itself once for each link of a path.
    sys.setrecursionlimit(100_000)
    print("Microseconds of a unification by NLTK\n")
    print("| nodes | links | time |")
    print("|---|---|---|")
    for count in SIZES:
        links = links_of(count)
        number = sum(len(of_node) for of_node in links)
        taken = least_time(structure(links, 1), structure(links, 2))
        print("| %d | %d | %.1f |" % (count, number, taken))


main()
