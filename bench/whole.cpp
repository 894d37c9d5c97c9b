// The whole raster without proofs, over LEMON: reads planes of phase, weights and mask from standard input, solves one network over
// all cells by LEMON's network simplex, and writes the whole text of what it found: surface, faces and cost. The words are the
// slopes to the right and downwards that are expected, if there are, then how many times as much as the first cycle of a departure
// each further one costs, and then the rule of weights.
#include <charconv>

#include <lemon/network_simplex.h>
#include <lemon/smart_graph.h>

#include "planes.hpp"

using Graph = lemon::SmartDigraph;
using Simplex = lemon::NetworkSimplex<Graph, std::int64_t, std::int64_t>;

struct Arc {
  std::int64_t cost, capacity;
};

// One arc each way across each edge, between the cells on its two sides, or two if further units cost more than the first; the
// outside is one node, the last.
class Network {
  const Scene &scene;
  int columns, rows;
  Graph graph;
  std::vector<Arc> arcs;

  Graph::Node cell(int x, int y) const {
    bool is_inside = x >= 0 && x < columns && y >= 0 && y < rows;
    return graph.nodeFromId(is_inside ? y * columns + x : columns * rows);
  }

  void add(Graph::Node from, Graph::Node to, std::int64_t cost, std::int64_t capacity) {
    graph.addArc(from, to);
    graph.addArc(to, from);
    arcs.push_back({cost, capacity});
  }

  void cross(Graph::Node from, Graph::Node to, std::int64_t weight) {
    std::int64_t many = std::int64_t(columns) * rows + 1;
    add(from, to, weight, scene.steep > 1 ? 1 : many);
    if (scene.steep > 1) add(from, to, scene.steep * weight, many);
  }

 public:
  // The departures of the edges to the right and downwards by their first pixels, the faces, and what it costs.
  std::vector<std::int64_t> right, down, faces;
  std::int64_t total = 0;

  explicit Network(const Scene &scene) : scene(scene), columns(scene.width - 1), rows(scene.height - 1) {
    right.assign(scene.phase.samples.size(), 0);
    down = right;
    if (columns == 0 || rows == 0) return;
    int nodes = columns * rows + 1;
    graph.reserveNode(nodes);
    graph.reserveArc((scene.steep > 1 ? 8 : 4) * scene.phase.samples.size());
    for (int k = 0; k < nodes; ++k) graph.addNode();
    each_edge([&](int x, int y, bool is_right) {
      std::size_t p = scene.at(x, y);
      if (is_right) cross(cell(x, y - 1), cell(x, y), scene.weight(p, p + 1));
      else cross(cell(x, y), cell(x - 1, y), scene.weight(p, p + scene.width));
    });
    solve(nodes);
  }

 private:
  template <typename Visit>
  void each_edge(Visit visit) const {
    for (int y = 0; y <= rows; ++y)
      for (int x = 0; x <= columns; ++x) {
        if (x < columns) visit(x, y, true);
        if (y < rows) visit(x, y, false);
      }
  }

  void solve(int nodes) {
    Graph::NodeMap<std::int64_t> supplies(graph, 0);
    for (int y = 0; y < rows; ++y)
      for (int x = 0; x < columns; ++x) {
        supplies[cell(x, y)] = scene.residue(x, y);
        supplies[graph.nodeFromId(nodes - 1)] -= scene.residue(x, y);
      }
    Graph::ArcMap<std::int64_t> costs(graph), capacities(graph);
    for (std::size_t k = 0; k < 2 * arcs.size(); ++k) {
      costs[graph.arcFromId(int(k))] = arcs[k / 2].cost;
      capacities[graph.arcFromId(int(k))] = arcs[k / 2].capacity;
    }
    Simplex simplex(graph);
    if (scene.steep > 1) simplex.upperMap(capacities);
    if (simplex.costMap(costs).supplyMap(supplies).run() != Simplex::OPTIMAL) std::exit(1);
    total = simplex.totalCost<std::int64_t>();
    std::size_t k = 0;
    each_edge([&](int x, int y, bool is_right) {
      for (int lane = 0; lane < (scene.steep > 1 ? 2 : 1); ++lane, ++k)
        (is_right ? right : down)[scene.at(x, y)] +=
            simplex.flow(graph.arcFromId(int(2 * k))) - simplex.flow(graph.arcFromId(int(2 * k + 1)));
    });
    std::int64_t outside = simplex.potential(graph.nodeFromId(nodes - 1));
    for (int node = 0; node + 1 < nodes; ++node) faces.push_back(outside - simplex.potential(graph.nodeFromId(node)));
  }
};

// The surface, anchored, with the NODATA value at masked pixels.
static std::vector<std::int64_t> surface_of(const Scene &scene, const Network &network) {
  std::size_t pixels = scene.phase.samples.size(), first = 0;
  std::vector<std::int64_t> found(pixels);
  found[0] = scene.phase.samples[0];
  for (std::size_t p = 1; p < pixels; ++p) {
    bool is_in_top = p < std::size_t(scene.width);
    std::size_t before = is_in_top ? p - 1 : p - scene.width;
    found[p] = found[before] + scene.difference(before, p) + 65536 * (is_in_top ? network.right : network.down)[before];
  }
  while (first + 1 < pixels && !scene.is_open(first)) ++first;
  std::int64_t turns = found[first] - scene.phase.samples[first];
  for (std::size_t p = 0; p < pixels; ++p) found[p] = scene.is_open(p) ? found[p] - turns : INT64_MIN;
  return found;
}

// A text that grows.
class Text {
  std::string text;

 public:
  void add(const std::string &words) { text += words; }

  // Rows of so many numbers, each after a label.
  void add_rows(const std::vector<std::int64_t> &numbers, std::size_t width, const char *label) {
    char digits[24];
    for (std::size_t k = 0; k < numbers.size(); ++k) {
      if (k % width == 0) text += label;
      else text += ' ';
      text.append(digits, std::to_chars(digits, digits + sizeof digits, numbers[k]).ptr);
      if ((k + 1) % width == 0) text += '\n';
    }
  }

  bool write() const { return std::fwrite(text.data(), 1, text.size(), stdout) == text.size(); }
};

int main(int count, char **words) {
  Scene scene;
  scene.read(count - 1, words + 1);
  Network network(scene);
  const char *rules[] = {"least", "mean", "product"};
  Text text;
  text.add("insar-whole 1\nsize " + std::to_string(scene.width) + " " + std::to_string(scene.height));
  text.add(std::string("\nrule ") + rules[scene.rule == 'l' ? 0 : scene.rule == 'm' ? 1 : 2]);
  text.add("\nramp " + std::to_string(scene.across) + " " + std::to_string(scene.down));
  text.add("\nsteep " + std::to_string(scene.steep) + "\ncost " + std::to_string(network.total) + "\n");
  text.add(grid_head(scene.width, scene.height));
  text.add_rows(surface_of(scene, network), scene.width, "");
  text.add_rows(network.faces, scene.width - 1, "faces ");
  text.add("end\n");
  return text.write() ? 0 : 6;
}
