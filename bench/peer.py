#!/usr/bin/python3
"""A task as a user of igraph or networkx would do it: reads a graph file, writes the bare text.

    bench/peer.py igraph|networkx distances|cores FILE SOURCE

The seconds of reading, of making the library's graph and of its computing go to standard error. It ends with 3 where the
library can't do the task on the graph: networkx has no cores of graphs with repeated edges or edges from a vertex to itself.
"""
import sys
import time


def read(file):
    """The number of vertices and the edges of a weighted graph file, as lists of sources, targets and weights."""
    with open(file, "rb") as text:
        _, n, m, *numbers = text.read().split()
    n, m, numbers = int(n), int(m), list(map(int, numbers))
    sources = []
    for u, (begin, end) in enumerate(zip(numbers[:n], numbers[1:n] + [m])):
        sources += [u] * (end - begin)
    return n, sources, numbers[n:n + m], numbers[n + m:]


def igraph_graph(n, sources, targets, weights):
    """The graph with each place as an edge with a direction."""
    import igraph
    graph = igraph.Graph(n=n, edges=list(zip(sources, targets)), directed=True)
    graph.es["weight"] = weights
    return graph


def igraph_distances(graph, source):
    """Distances as whole numbers, None where a vertex isn't reached."""
    found = graph.distances(source=source, weights="weight", mode="out")[0]
    return [None if distance == float("inf") else int(distance) for distance in found]


def igraph_cores(graph, _):
    """Cores that count each place."""
    return graph.coreness(mode="in")


def networkx_graph(n, sources, targets, weights):
    """The graph with the least of repeated edges; its attribute tells whether there were any."""
    import networkx
    graph = networkx.DiGraph()
    graph.add_nodes_from(range(n))
    for u, v, weight in zip(sources, targets, weights):
        if not graph.has_edge(u, v) or weight < graph[u][v]["weight"]:
            graph.add_edge(u, v, weight=weight)
    graph.graph["simple"] = graph.number_of_edges() == len(sources) and networkx.number_of_selfloops(graph) == 0
    return graph


def networkx_distances(graph, source):
    """Distances, None where a vertex isn't reached."""
    import networkx
    found = networkx.single_source_dijkstra_path_length(graph, source)
    return [found.get(vertex) for vertex in range(len(graph))]


def networkx_cores(graph, _):
    """Cores of a simple symmetric graph."""
    import networkx
    if not graph.graph["simple"]:
        sys.exit(3)
    found = networkx.core_number(graph.to_undirected())
    return [found[vertex] for vertex in range(len(graph))]


CALLS = {
    ("igraph", "distances"): (igraph_graph, igraph_distances),
    ("igraph", "cores"): (igraph_graph, igraph_cores),
    ("networkx", "distances"): (networkx_graph, networkx_distances),
    ("networkx", "cores"): (networkx_graph, networkx_cores),
}


def main(library, task, file, source):
    """Does the task and tells its times."""
    make, call = CALLS[library, task]
    times = [time.perf_counter()]
    columns = read(file)
    times.append(time.perf_counter())
    graph = make(*columns)
    times.append(time.perf_counter())
    found = call(graph, int(source))
    times.append(time.perf_counter())
    sys.stdout.write("".join("-\n" if number is None else f"{number}\n" for number in found))
    sys.stdout.flush()
    print(*(f"{end - begin:.6f}" for begin, end in zip(times, times[1:])), file=sys.stderr)


if __name__ == "__main__":
    main(*sys.argv[1:])
