"""Tests of the well-known problems: also over graphs of networkx and arrays of numpy, where these are there, beside least cuts that
networkx finds, and densities and strengths that are found by every set."""
import importlib.util
import random
import unittest
from fractions import Fraction
from itertools import combinations

from common import Test
import leastset
from leastset import models

needs_networkx = unittest.skipUnless(importlib.util.find_spec("networkx"), "there is no networkx")
needs_numpy = unittest.skipUnless(importlib.util.find_spec("numpy"), "there is no numpy")


def choices(things):
    """All choices of one or more."""
    return (chosen for count in range(1, len(things) + 1) for chosen in combinations(things, count))


def least_cut(worth, arcs):
    """The least worth of a set, by networkx: a set pays for each arc (u, v, number) of which it has u and not v, and None for the
    number forbids that."""
    import networkx

    graph = networkx.DiGraph([("in", "out", {"capacity": 0})])
    for thing, number in worth.items():
        graph.add_edge("in", thing, capacity=max(0, -number))
        graph.add_edge(thing, "out", capacity=max(0, number))
    for u, v, number in arcs:
        graph.add_edge(u, v, **({} if number is None else {"capacity": number}))
    return networkx.minimum_cut_value(graph, "in", "out") + sum(min(0, number) for number in worth.values())


def random_graph(rng):
    """A graph of networkx over six vertices, with weights that are numbers of Python or of numpy."""
    import networkx

    graph = networkx.gnm_random_graph(6, 9, seed=rng.randrange(10**6))
    kinds = [int, float, Fraction]
    if importlib.util.find_spec("numpy"):
        import numpy

        kinds += [numpy.uint8, numpy.int64, numpy.float32]
    for u, v in graph.edges():
        graph[u][v]["weight"] = rng.choice(kinds)(rng.randint(1, 9))
    return graph


class Models(Test):
    def test_graphs_of_such_a_form(self):
        class Graph:
            nodes = ["a", "b", "c"]

            def edges(self, data=None, default=None):
                return [("a", "b", 3)] if data else [("a", "b")]

        self.assertEqual(models.densest_part(Graph()), (Fraction(3, 2), {"a", "b"}))
        self.assertEqual(models.closure({"a": 3, "b": -1}, Graph()), (2, {"a", "b"}))
        self.assertRaises(ValueError, models.strength, [("a", "a")])

    @needs_networkx
    def test_well_known_graphs_of_networkx(self):
        import networkx

        self.assertEqual(models.strength(networkx.petersen_graph()).strength, Fraction(5, 3))
        self.assertEqual(models.strength(networkx.complete_graph(6)).strength, 3)
        self.assertEqual(models.densest_part(networkx.complete_graph(7)), (3, frozenset(range(7))))
        club = networkx.karate_club_graph()
        self.assertEqual(models.densest_part(club), models.densest_part(club.edges(data="weight")))
        self.assertEqual(models.closure({"mill": 9, "dam": -6}, networkx.DiGraph([("mill", "dam")])).gain, 3)

    @needs_networkx
    def test_vertices_without_edges_and_edges_side_by_side(self):
        import networkx

        graph = networkx.MultiGraph([("a", "b"), ("a", "b"), ("b", "c")])
        graph.add_node("d")
        self.assertEqual(models.densest_part(graph), (1, {"a", "b", "c"}))
        self.assertEqual(models.strength(graph), (1, [("b", "c")]))
        alone = networkx.empty_graph(3)
        self.assertEqual(models.densest_part(alone), (0, {0, 1, 2}))
        self.assertRaises(ValueError, models.strength, alone)
        self.assertRaises(ValueError, models.densest_part, networkx.Graph())
        graph.add_edge("c", "d", weight=1.5)
        self.assertRaises(ValueError, models.densest_part, graph)

    @needs_networkx
    def test_densities_and_strengths_of_networkx_are_as_found_by_every_set(self):
        import networkx

        rng = random.Random(4)
        for _ in range(8):
            graph = random_graph(rng)
            weights = {edge: int(weight) for *edge, weight in graph.edges(data="weight") for edge in [tuple(edge)]}
            inside = {part: sum(w for (u, v), w in weights.items() if u in part and v in part) for part in choices(graph.nodes)}
            best = max(Fraction(weight, len(part)) for part, weight in inside.items())
            greatest = frozenset().union(*(part for part, weight in inside.items() if Fraction(weight, len(part)) == best))
            self.assertEqual(models.densest_part(graph), (best, greatest))
            pieces, ratios = networkx.number_connected_components(graph), []
            for cut in choices(list(weights)):
                rest = graph.copy()
                rest.remove_edges_from(cut)
                more = networkx.number_connected_components(rest) - pieces
                if more > 0:
                    ratios.append(Fraction(sum(weights[edge] for edge in cut), more))
            found = models.strength(graph)
            self.assertEqual(found.strength, min(ratios))
            graph.remove_edges_from(found.cut)
            more = networkx.number_connected_components(graph) - pieces
            self.assertEqual(Fraction(sum(weights[edge] for edge in found.cut), more), found.strength)

    @needs_networkx
    def test_choices_of_projects_are_least_cuts_of_networkx(self):
        import networkx

        rng = random.Random(5)
        for _ in range(20):
            worth = {project: rng.randint(-9, 9) for project in range(9)}
            needs = networkx.gnp_random_graph(9, 0.15, seed=rng.randrange(10**6), directed=True)
            choice = models.closure(worth, needs)
            least = least_cut({project: -number for project, number in worth.items()}, [(u, v, None) for u, v in needs.edges()])
            self.assertEqual(choice.gain, -least)
            self.assertEqual(choice.gain, sum(worth[project] for project in choice.projects))
            self.assertTrue(all(v in choice.projects for u, v in needs.edges() if u in choice.projects))
            self.assertEqual(choice, models.closure(worth, list(needs.edges())))

    @needs_networkx
    def test_orders_of_networkx(self):
        import networkx

        jobs = {"dig": (2, 1), "pour": (1, 8), "paint": (4, 1)}
        after = networkx.DiGraph([("pour", "dig")])
        self.assertEqual(models.sidney_groups(jobs, after), [{"dig", "pour"}, {"paint"}])

    @needs_numpy
    def test_pictures_of_numpy(self):
        import numpy

        greys = numpy.array([[9, 8, 0], [9, 4, 1], [8, 9, 9]], dtype=numpy.uint8)
        for kind in (numpy.uint8, numpy.int32, numpy.float64):
            self.assertEqual(models.segmentation(greys.astype(kind), kind(5), 2).least, {(0, 2), (1, 2)})
        self.assertEqual(models.segmentation(greys[:, ::-1].T, 5, 2).least, {(0, 0), (0, 1)})
        self.assertRaises(ValueError, models.segmentation, greys / 2, 5, 2)

    @needs_numpy
    @needs_networkx
    def test_pictures_of_numpy_are_least_cuts_of_networkx(self):
        import networkx
        import numpy

        greys = numpy.random.RandomState(7).randint(0, 256, size=(8, 9)).astype(numpy.uint8)
        borders = [(u, v, 40) for pair in networkx.grid_2d_graph(8, 9).edges() for u, v in (pair, pair[::-1])]
        for bright in (False, True):
            worth = {place: (int(greys[place]) - 128) * (-1 if bright else 1) for place in numpy.ndindex(greys.shape)}
            self.assertEqual(models.segmentation(greys, 128, 40, bright).minimum, least_cut(worth, borders))

    @needs_numpy
    def test_elements_and_numbers_of_numpy(self):
        import numpy

        made = leastset.Instance(numpy.arange(4))
        made.weight(dict(zip(range(4), numpy.array([-5, -5, -3, -1]))))
        made.cover(numpy.int16(7), numpy.array([0, 1]))
        made.concave(numpy.array([4.0, 4.0]), numpy.array([2, 3]))
        made.table(numpy.array([0, 1, 1, 2]), [0, 3])
        made.rank_uniform(numpy.uint32(2), numpy.int8(1), numpy.arange(2))
        plain = leastset.Instance(range(4))
        plain.weight({0: -5, 1: -5, 2: -3, 3: -1})
        plain.cover(7, [0, 1])
        plain.concave([4, 4], [2, 3])
        plain.table([0, 1, 1, 2], [0, 3])
        plain.rank_uniform(2, 1, [0, 1])
        self.assertEqual(made.text(), plain.text())
        self.assertEqual(leastset.solve(made).least, leastset.solve(plain).least)
        edges = numpy.array([[0, 1, 4], [1, 2, 1], [0, 2, 4]])
        self.assertEqual(models.densest_part(edges), models.densest_part([tuple(edge) for edge in edges.tolist()]))
        self.assertEqual(models.strength(edges).strength, models.strength([tuple(edge) for edge in edges.tolist()]).strength)
