"""A surface that is least of all, with its faces, by plain Python: a small solver that the judge of whole texts is tried with.

The whole cycles by which edges depart are a flow between the cells of four pixels, and the outside is one more node: a departure
of the edge to the right runs from the cell above it to the one below, one of the edge downwards from the cell at its right to the
one at its left (Costantini 1998). Units are sent one by one along paths that cost least, by potentials (Ahuja, Magnanti and Orlin
1993, section 9.7). The potentials are the faces. It is meant for rasters of some thousand pixels.
"""
import heapq
from typing import Iterator, NamedTuple, Sequence

from stress import CYCLE, NODATA, Session


class Edge(NamedTuple):
    """The nodes between which a departure runs if it is above 0, and the edge's weight."""

    tail: int
    head: int
    weight: int


class Least:
    """The least flow of a session's raster, found when it is made. Node `outside` is no cell."""

    def __init__(self, session: Session) -> None:
        self.session, self.columns, self.rows = session, session.width - 1, session.height - 1
        self.outside = self.columns * self.rows
        self.edges = [self.edge_of(*edge) for edge in session.edges()]
        self.flows = [0] * len(self.edges)
        self.potentials = [0] * (self.outside + 1)
        self.arcs: list[list[tuple[int, int, int]]] = [[] for _ in self.potentials]
        for number, (tail, head, _) in enumerate(self.edges):
            if tail != head:
                self.arcs[tail].append((head, number, 1))
                self.arcs[head].append((tail, number, -1))
        excess = [session.residue(x, y) for y in range(self.rows) for x in range(self.columns)]
        self.excess = [*excess, -sum(excess)]
        for node in range(len(self.excess)):
            while self.excess[node] > 0:
                self.send(node)

    def cell(self, x: int, y: int) -> int:
        return y * self.columns + x if 0 <= x < self.columns and 0 <= y < self.rows else self.outside

    def edge_of(self, x: int, y: int, u: int, v: int) -> Edge:
        tail, head = (self.cell(x, y - 1), self.cell(x, y)) if u > x else (self.cell(x, y), self.cell(x - 1, y))
        return Edge(tail, head, self.session.weight(self.session.opened, x, y, u, v))

    def cost(self, number: int, way: int) -> int:
        """What one more unit costs along an edge (way 1), or against it (way -1)."""
        flow, steps = self.flows[number], self.session.steps
        return self.edges[number].weight * (steps(flow + way) - steps(flow))

    def nearest(self, start: int) -> tuple[dict[int, int], dict[int, tuple[int, int, int]], int]:
        """How far nodes are from one with an excess, by which arcs, and the nearest that lacks."""
        far, done = {start: 0}, set()
        by: dict[int, tuple[int, int, int]] = {}
        queue = [(0, start)]
        while True:
            distance, node = heapq.heappop(queue)
            if node in done:
                continue
            done.add(node)
            if self.excess[node] < 0:
                return far, by, node
            for other, number, way in self.arcs[node]:
                there = distance + self.cost(number, way) + self.potentials[node] - self.potentials[other]
                if other not in far or there < far[other]:
                    far[other], by[other] = there, (node, number, way)
                    heapq.heappush(queue, (there, other))

    def send(self, start: int) -> None:
        """Sends one unit from a node with an excess to the nearest that lacks."""
        far, by, end = self.nearest(start)
        limit = far[end]
        self.potentials = [old + min(far.get(node, limit), limit) for node, old in enumerate(self.potentials)]
        self.excess[start] -= 1
        self.excess[end] += 1
        while end != start:
            end, number, way = by[end]
            self.flows[number] += way

    def faces(self) -> list[int]:
        return [self.potentials[-1] - potential for potential in self.potentials[:-1]]

    def values(self) -> list[int]:
        """The surface, anchored, in row order."""
        session, found = self.session, list(self.session.phase)
        for (x, y, u, v), flow in zip(session.edges(), self.flows):
            if u == x or y == 0:
                here = session.at(found, x, y)
                found[v * session.width + u] = here + session.difference(x, y, u, v) + CYCLE * flow
        first = session.opened.index(1) if 1 in session.opened else 0
        turns = found[first] - session.phase[first]
        return [value - turns if opened else NODATA for value, opened in zip(found, session.opened)]

    def total(self) -> int:
        return sum(edge.weight * self.session.steps(flow) for edge, flow in zip(self.edges, self.flows))


def head_of(session: Session) -> list[str]:
    """The first five lines of a whole text."""
    ramp = f"ramp {session.ramp[0]} {session.ramp[1]}"
    return ["insar-whole 1", f"size {session.width} {session.height}", f"rule {session.rule}", ramp, f"steep {session.steep}"]


def rows_of(numbers: Sequence[int], width: int) -> Iterator[str]:
    """The lines of numbers in row order."""
    for start in range(0, len(numbers), width):
        yield " ".join(map(str, numbers[start : start + width]))


def grid_of(values: Sequence[int], width: int) -> list[str]:
    """The lines of a grid of values in row order."""
    head = [f"ncols {width}", f"nrows {len(values) // width}", "xllcorner 0", "yllcorner 0", "cellsize 1", f"NODATA_value {NODATA}"]
    return [*head, *rows_of(values, width)]


def text_of(session: Session, cost: int, values: list[int], faces: list[int]) -> bytes:
    """A whole text of a surface."""
    lines = [*head_of(session), f"cost {cost}", *grid_of(values, session.width)]
    if faces:
        lines += [f"faces {row}" for row in rows_of(faces, session.width - 1)]
    return ("\n".join([*lines, "end"]) + "\n").encode()


def whole_text(session: Session) -> bytes:
    """The whole text of a surface of a session that is least of all for its first mask."""
    least = Least(session)
    return text_of(session, least.total(), least.values(), least.faces())
