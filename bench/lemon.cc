// LEMON's network simplex method, as functions that Rust can call.
#define LEMON_ONLY_TEMPLATES
#include <lemon/network_simplex.h>
#include <lemon/smart_graph.h>
#include <vector>

typedef lemon::SmartDigraph Graph;
typedef lemon::NetworkSimplex<Graph> Simplex;

// A network as lists: by arc, and the supplies by node.
struct Lists {
    int nodes;
    int arcs;
    const int *tails;
    const int *heads;
    const int *lowers;
    const int *uppers;
    const int *costs;
    const int *supplies;
};

// The graph's nodes and arcs, with the arcs in order.
static std::vector<Graph::Arc> fill(Graph &graph, const Lists &lists) {
    std::vector<Graph::Arc> arcs;
    graph.reserveNode(lists.nodes);
    graph.reserveArc(lists.arcs);
    arcs.reserve(lists.arcs);
    for (int v = 0; v < lists.nodes; v++)
        graph.addNode();
    for (int a = 0; a < lists.arcs; a++) {
        Graph::Node tail = graph.nodeFromId(lists.tails[a]);
        Graph::Node head = graph.nodeFromId(lists.heads[a]);
        arcs.push_back(graph.addArc(tail, head));
    }
    return arcs;
}

// The lists as a LEMON graph with its maps. An upper bound below 0 is none.
struct Built {
    Graph graph;
    std::vector<Graph::Arc> arcs;
    Graph::ArcMap<int> lowers, uppers, costs;
    Graph::NodeMap<int> supplies;

    explicit Built(const Lists &lists)
        : arcs(fill(graph, lists)), lowers(graph), uppers(graph), costs(graph), supplies(graph) {
        const int none = std::numeric_limits<int>::max();
        for (int v = 0; v < lists.nodes; v++)
            supplies[graph.nodeFromId(v)] = lists.supplies[v];
        for (int a = 0; a < lists.arcs; a++) {
            lowers[arcs[a]] = lists.lowers[a];
            uppers[arcs[a]] = lists.uppers[a] < 0 ? none : lists.uppers[a];
            costs[arcs[a]] = lists.costs[a];
        }
    }
};

// More than any number of units on one arc of a cheapest flow.
const int BIG = 4096;

// Finds the first of the cheapest flows, one arc after another.
struct Settling {
    Built built;
    Simplex simplex;
    std::vector<int> flows;

    explicit Settling(const Lists &lists)
        : built(lists), simplex(built.graph), flows(lists.arcs) {
        for (Graph::Arc arc : built.arcs)
            built.costs[arc] *= BIG;
        simplex.supplyMap(built.supplies);
    }

    bool solve() {
        simplex.lowerMap(built.lowers).upperMap(built.uppers).costMap(built.costs);
        if (simplex.run() != Simplex::OPTIMAL)
            return false;
        for (size_t a = 0; a < flows.size(); a++)
            flows[a] = simplex.flow(built.arcs[a]);
        return true;
    }

    // The least units on one arc among the cheapest flows; they stay fixed.
    bool settle(size_t a, bool skip) {
        Graph::Arc arc = built.arcs[a];
        if (!skip || flows[a] > built.lowers[arc]) {
            built.costs[arc] += 1;
            if (!solve())
                return false;
            built.costs[arc] -= 1;
        }
        built.lowers[arc] = built.uppers[arc] = flows[a];
        return true;
    }
};

extern "C" Built *lemon_build(const Lists *lists) { return new Built(*lists); }

extern "C" void lemon_free(Built *built) { delete built; }

// The least cost of a flow, or -1 if there is no flow.
extern "C" int lemon_least_cost(const Built *built) {
    Simplex simplex(built->graph);
    simplex.lowerMap(built->lowers).upperMap(built->uppers);
    simplex.costMap(built->costs).supplyMap(built->supplies);
    if (simplex.run() != Simplex::OPTIMAL)
        return -1;
    return simplex.totalCost();
}

// The first of the cheapest flows, with one solve for each arc. With `skip`
// an arc that already carries its least is fixed without a solve.
extern "C" bool lemon_first_flow(const Lists *lists, bool skip, int *flows) {
    Settling settling(*lists);
    if (skip && !settling.solve())
        return false;
    for (int a = 0; a < lists->arcs; a++)
        if (!settling.settle(a, skip))
            return false;
    for (int a = 0; a < lists->arcs; a++)
        flows[a] = settling.flows[a];
    return true;
}
