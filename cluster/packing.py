"""Which associations go into which shard: arrays of numbered nodes, of the arcs that lead on, and of how much stands at each node."""

from __future__ import annotations

from typing import NamedTuple, Optional

import numpy as np
from numpy.typing import NDArray
from scipy.sparse import coo_matrix
from scipy.sparse.csgraph import connected_components

Numbers = NDArray[np.int64]
HUB = 1000  # arcs into a node from which on it is left out of components


class TooLarge(Exception):
    """An association that needs more than one run may have: its number, and how many triples and bytes it needs."""

    def __init__(self, association: int, triples: int, size: int) -> None:
        super().__init__(association)
        self.association, self.triples, self.size = association, triples, size


class Room(NamedTuple):
    """How much a shard may have: of triples, of bytes and of associations."""

    triples: int
    size: int
    associations: int

    def holds(self, held: Numbers) -> bool:
        """Whether there is room for so much."""
        return bool((held <= np.array(self)).all())


class Arcs:
    """The arcs by the node that they lead from."""

    def __init__(self, tails: Numbers, heads: Numbers, count: int) -> None:
        order = np.argsort(tails, kind="stable")
        self.heads = heads[order]
        self.first = np.searchsorted(tails[order], np.arange(count + 1))

    def after(self, nodes: Numbers) -> Numbers:
        """The nodes to which the arcs of some nodes lead."""
        first, many = self.first[nodes], self.first[nodes + 1] - self.first[nodes]
        found: Numbers = self.heads[np.arange(many.sum()) + np.repeat(first - np.cumsum(many) + many, many)]
        return found


def components(tails: Numbers, heads: Numbers, count: int) -> Numbers:
    """A number for each node, the same for nodes that arcs join, those at hubs left out."""
    if not count:
        return np.zeros(0, np.int64)
    is_hub = np.bincount(heads, minlength=count) > HUB
    kept = ~(is_hub[tails] | is_hub[heads])
    joined = coo_matrix((np.ones(kept.sum(), np.int8), (tails[kept], heads[kept])), shape=(count, count))
    found: Numbers = connected_components(joined, directed=False)[1].astype(np.int64)
    return found


def near_order(roots: Numbers, component: Numbers) -> Numbers:
    """The associations in the order of the map, but those of a component behind its first."""
    places = np.arange(len(roots))
    first = np.full(len(component), len(roots))
    np.minimum.at(first, component[roots], places)
    order: Numbers = np.lexsort((places, first[component[roots]]))
    return order


class Packing:
    """Shards, filled one after the other with associations and all that they reach."""

    def __init__(self, arcs: Arcs, weights: Numbers, room: Room, most: Room) -> None:
        self.arcs, self.weights, self.usual, self.most = arcs, weights, room, most
        self.room = room
        self.is_held = np.zeros(len(weights), bool)
        self.held = np.zeros(3, np.int64)
        self.nodes: list[Numbers] = []
        self.shards: list[Numbers] = []

    def grown(self, roots: Numbers, room: Optional[Room]) -> tuple[list[Numbers], Numbers]:
        """What associations bring into the shard, and how much it then holds; it may stop where the room does not hold that."""
        new, held = [], self.held + [0, 0, len(roots)]
        fresh = np.unique(roots)
        while len(fresh) and (room is None or room.holds(held)):
            fresh = fresh[~self.is_held[fresh]]
            self.is_held[fresh] = True
            held[:2] += self.weights[fresh].sum(axis=0)
            new.append(fresh)
            fresh = np.unique(self.arcs.after(fresh))
        return new, held

    def take(self, roots: Numbers, room: Optional[Room]) -> bool:
        """Takes associations into the shard, if the room holds what it has then."""
        new, held = self.grown(roots, room)
        if room is not None and not room.holds(held):
            for each in new:
                self.is_held[each] = False
            return False
        self.nodes += new
        self.held = held
        return True

    def end_shard(self) -> None:
        """Ends the shard, and begins another."""
        nodes = np.concatenate(self.nodes)
        self.shards.append(np.sort(nodes))
        self.is_held[nodes] = False
        self.held, self.nodes = np.zeros(3, np.int64), []

    def fill(self, roots: Numbers, order: Numbers) -> Numbers:
        """Packs the associations in an order, and gives the shard of each."""
        shard_of, at, batch = np.zeros(len(roots), np.int64), 0, 1
        while at < len(order):
            now = order[at : at + batch]
            if self.take(roots[now], self.room) if self.nodes else self.take_first(roots, now):
                shard_of[now] = len(self.shards)
                at, batch = at + len(now), max(4096, 2 * batch)
            elif batch > 1:
                batch = max(1, min(batch, len(now)) // 2)
            else:
                self.end_shard()
        if self.nodes:
            self.end_shard()
        return shard_of

    def take_first(self, roots: Numbers, now: Numbers) -> bool:
        """Takes an association into an empty shard, and makes room for as much again, so that few shards share what many associations reach.

        A line may have been counted twice, so that twice the most may be enough for one association.
        """
        if not self.take(roots[now], Room(2 * self.most.triples, 2 * self.most.size, self.most.associations)):
            held = self.grown(roots[now], None)[1]
            raise TooLarge(int(now[0]), int(held[0]), int(held[1]))
        wanted = np.maximum(np.minimum(2 * self.held, self.most), np.maximum(self.held, self.usual))
        self.room = Room(int(wanted[0]), int(wanted[1]), self.usual.associations)
        return True


def numbers_of(name: str, columns: int) -> Numbers:
    """The rows of whole numbers of a file."""
    with open(name, encoding="ascii") as file:
        return np.fromfile(file, np.int64, sep=" ").reshape(-1, columns)


def pack(folder: str, count: int, room: Room, most: Room) -> tuple[Numbers, list[Numbers]]:
    """The shard of each association and the nodes of each shard, by the numbered files of a folder."""
    arcs, roots = numbers_of(f"{folder}/arcs", 2), numbers_of(f"{folder}/roots", 2)
    weights = np.zeros((count, 2), np.int64)
    rows = numbers_of(f"{folder}/weights", 3)
    weights[rows[:, 0]] = rows[:, 1:]
    root_of = np.zeros(len(roots), np.int64)
    root_of[roots[:, 0]] = roots[:, 1]
    packing = Packing(Arcs(arcs[:, 0], arcs[:, 1], count), weights, room, most)
    order = near_order(root_of, components(arcs[:, 0], arcs[:, 1], count))
    return packing.fill(root_of, order), packing.shards


def write_pairs(name: str, shards: list[Numbers]) -> None:
    """Writes each node with its shard, in the order of the nodes."""
    pairs = [np.stack((nodes, np.full(len(nodes), number)), axis=1) for number, nodes in enumerate(shards)]
    rows = np.concatenate(pairs) if pairs else np.zeros((0, 2), np.int64)
    rows = rows[np.lexsort((rows[:, 1], rows[:, 0]))]
    with open(name, "w", encoding="ascii") as file:
        for start in range(0, len(rows), 1 << 20):
            file.write("".join(f"{node} {shard}\n" for node, shard in rows[start : start + (1 << 20)].tolist()))
