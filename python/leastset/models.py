"""Well-known problems: each function says one as an instance, solves it, and tells what it comes to.

A graph is one of networkx, or a list of edges (u, v) or (u, v, weight); an edge without a weight has 1. A picture is an array of
numpy, or a list of rows. Numbers are whole.
"""
from __future__ import annotations

from fractions import Fraction
from typing import Any, FrozenSet, Iterable, List, Mapping, NamedTuple, Optional, Tuple

from .answer import Answer
from .calls import solve, weigh
from .instance import Element, Instance, Number, whole


class Density(NamedTuple):
    """The density of a part of a graph, and the vertices of the part."""

    density: Fraction
    vertices: FrozenSet[Element]


class Strength(NamedTuple):
    """The strength of a network, and the edges that an attacker cuts."""

    strength: Fraction
    cut: List[Tuple[Any, Any]]


class Choice(NamedTuple):
    """What projects bring together, and the projects."""

    gain: int
    projects: FrozenSet[Element]


def edges_of(graph: Any) -> List[Tuple[Any, Any, int]]:
    """The edges of a graph, with their weights."""
    edges = graph.edges(data="weight", default=1) if hasattr(graph, "edges") else graph
    return [(edge[0], edge[1], whole(edge[2], f"the weight of {edge[:2]}") if len(edge) > 2 else 1) for edge in edges]


def pairs_of(graph: Any) -> List[Tuple[Any, Any]]:
    """The arcs of a networkx.DiGraph, or of a list of pairs."""
    return [(arc[0], arc[1]) for arc in (graph.edges() if hasattr(graph, "edges") else graph)]


def arcs_of(graph: Any) -> List[Tuple[Any, Any]]:
    """The same, where directions count: a networkx.Graph has none.

    >>> class Roads:
    ...     edges = staticmethod(lambda: [("a", "b")])
    ...     is_directed = staticmethod(lambda: False)
    >>> arcs_of(Roads())
    Traceback (most recent call last):
    ValueError: this graph has no directions: take a networkx.DiGraph, or pairs
    """
    if hasattr(graph, "is_directed") and not graph.is_directed():
        raise ValueError("this graph has no directions: take a networkx.DiGraph, or pairs")
    return pairs_of(graph)


def segmentation(greys: Any, level: Number, border: Number, bright: bool = False) -> Answer:
    """The pixels (row, column) of an object that is darker than the level, or brighter, in a grey picture.

    A pixel weighs its grey less the level, and a border between two neighbours costs `border`; `least` is the object. Where the
    object is dark, a pixel's slope, added to the level, is its grey in the picture made smooth (total variation).

    >>> sorted(segmentation([[9, 8, 0], [9, 4, 1], [8, 9, 9]], level=5, border=2).least)
    [(0, 2), (1, 2)]
    """
    rows, columns = len(greys), len(greys[0])
    places = [(row, column) for row in range(rows) for column in range(columns)]
    middle, sign = whole(level, "the level"), -1 if bright else 1
    picture = Instance(places)
    picture.weight({place: sign * (whole(greys[place[0]][place[1]], "a grey") - middle) for place in places})
    for row, column in places:
        for other in ((row, column + 1), (row + 1, column)):
            if other in picture.names:
                picture.border(border, (row, column), other)
    return solve(picture)


def densest_part(graph: Any, sizes: Optional[Mapping[Element, Number]] = None) -> Density:
    """The part of a graph with the most weight of edges within it for the size of its vertices, which is 1 where none is said. Of
    several it is the greatest.

    >>> part = densest_part([("a", "b"), ("b", "c"), ("a", "c"), ("c", "d")])
    >>> part.density, sorted(part.vertices)
    (Fraction(1, 1), ['a', 'b', 'c', 'd'])
    >>> part = densest_part([("a", "b", 4), ("b", "c", 1)], sizes={"c": 2})
    >>> part.density, sorted(part.vertices)
    (Fraction(2, 1), ['a', 'b'])
    """
    edges = edges_of(graph)
    vertices = dict.fromkeys(getattr(graph, "nodes", ()))
    vertices.update(dict.fromkeys(vertex for edge in edges for vertex in edge[:2]))
    if not vertices:
        raise ValueError("there is no vertex")
    parts = Instance(vertices)
    for u, v, weight in edges:
        if u == v:
            parts.weight({u: -weight})
        else:
            parts.concave([0, -weight], [u, v])
    slope, part = weigh(parts, sizes or {}).slopes[0]
    return Density(-slope, part)


def strength(graph: Any) -> Strength:
    """The least weight of edges that must be cut for each further piece, and the edges of such a cut.

    >>> strength([("a", "b", 3), ("b", "c", 3), ("a", "c", 3), ("c", "d", 2)])
    Strength(strength=Fraction(2, 1), cut=[('c', 'd')])
    """
    edges = edges_of(graph)
    if not any(u != v for u, v, _ in edges):
        raise ValueError("there is no edge between two vertices")
    network = Instance(range(len(edges)))
    network.rank_graphic(1, {place: edge[:2] for place, edge in enumerate(edges)})
    last = weigh(network, {place: weight for place, (_, _, weight) in enumerate(edges)}).steps[-1]
    return Strength(1 / last.slope, [edges[place][:2] for place in last.new])


def closure(worth: Mapping[Element, Number], needs: Any) -> Choice:
    """The projects that bring most together, each with all that it needs. What costs has a worth below 0; `needs` are pairs of a
    project and one that it needs, or a networkx.DiGraph. Of several choices it is the smallest.

    >>> choice = closure({"mill": 9, "dam": -6, "inn": 2, "road": -5}, [("mill", "dam"), ("inn", "road")])
    >>> choice.gain, sorted(choice.projects)
    (3, ['dam', 'mill'])
    """
    choice = Instance(worth)
    choice.weight({project: -whole(number, f"the worth of {project!r}") for project, number in worth.items()})
    for project, other in arcs_of(needs):
        choice.need(project, other)
    answer = solve(choice)
    return Choice(-answer.minimum, answer.least)


def sidney_groups(jobs: Mapping[Element, Tuple[Number, Number]], after: Any = ()) -> List[FrozenSet[Element]]:
    """Groups of jobs in the order in which they are done: some best order does the groups one after another (Sidney).

    A job has its time, from 1, and what each unit of time costs until it is done; `after` are pairs of a job and one that has to
    be done before, or a networkx.DiGraph. What is least is the sum of these costs times the times at which jobs are done. In which
    order to do the jobs of one group is not told; any that `after` allows costs at most twice the least.

    >>> [sorted(group) for group in sidney_groups({"dig": (2, 1), "pour": (1, 8), "paint": (4, 1)}, [("pour", "dig")])]
    [['dig', 'pour'], ['paint']]
    """
    order = Instance(jobs)
    order.weight({job: -whole(cost, f"the cost of {job!r}") for job, (_, cost) in jobs.items()})
    for job, before in arcs_of(after):
        order.need(job, before)
    return [frozenset(step.new) for step in weigh(order, {job: time for job, (time, _) in jobs.items()}).steps]
