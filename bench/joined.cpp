// The same job without proofs, over LEMON: reads planes of phase, weights and mask from standard input, solves the network of
// each tile and then that of the seams by LEMON's network simplex on the same costs, and writes the grid. The words are the
// tile side, the slopes to the right and downwards that are expected, if there are, then how many times as much as the first
// cycle of a departure each further one costs, and then the rule of weights. Times go to standard error.
#include <charconv>
#include <chrono>
#include <tuple>

#include <lemon/network_simplex.h>
#include <lemon/smart_graph.h>

#include "planes.hpp"

using Graph = lemon::SmartDigraph;
using Simplex = lemon::NetworkSimplex<Graph, std::int64_t, std::int64_t>;

// What is known of the surface so far: cycles within the tile, and the region of each open pixel.
struct Raster : Scene {
  int side;
  std::vector<std::int32_t> cycles;
  std::vector<std::int32_t> regions;
  int region_count = 0;
};

struct Window {
  int left, top, right, bottom;  // the last two are outside
  int columns() const { return right - left - 1; }
  int rows() const { return bottom - top - 1; }
};

// Corrections of a tile's edges, by the window's pixels: `right` and `down` of each.
struct Corrections {
  std::vector<std::int32_t> right, down;
};

// One arc each way across each inner edge, between the cells on its two sides, or two if further units cost more than the first;
// beyond the window lies one node.
static void correct(const Raster &raster, const Window &w, Corrections &corrections) {
  int columns = w.columns(), rows = w.rows(), width = w.right - w.left;
  corrections.right.assign(std::size_t(width) * (w.bottom - w.top), 0);
  corrections.down = corrections.right;
  std::vector<std::int64_t> supply(std::size_t(columns) * rows + 1, 0);
  std::size_t outside = supply.size() - 1;
  bool is_flat = true;
  for (int y = 0; y < rows; ++y)
    for (int x = 0; x < columns; ++x) {
      int residue = raster.residue(w.left + x, w.top + y);
      supply[std::size_t(y) * columns + x] = residue;
      supply[outside] -= residue;
      is_flat &= residue == 0;
    }
  if (is_flat) return;
  Graph graph;
  graph.reserveNode(supply.size());
  for (std::size_t k = 0; k < supply.size(); ++k) graph.addNode();
  auto cell = [&](int x, int y) {
    bool is_inside = x >= 0 && x < columns && y >= 0 && y < rows;
    return graph.nodeFromId(is_inside ? y * columns + x : int(outside));
  };
  std::vector<int> costs;
  std::vector<std::int64_t> capacities;
  std::vector<std::int32_t *> places;
  auto pair = [&](Graph::Node from, Graph::Node to, int cost, std::int64_t capacity, std::int32_t &place) {
    graph.addArc(from, to);
    graph.addArc(to, from);
    costs.push_back(cost);
    capacities.push_back(capacity);
    places.push_back(&place);
  };
  std::int64_t many = std::int64_t(supply.size());
  auto cross = [&](Graph::Node from, Graph::Node to, int weight, std::int32_t &place) {
    bool is_steep = raster.steep > 1 && weight > 0;
    pair(from, to, weight, is_steep ? 1 : many, place);
    if (is_steep) pair(from, to, raster.steep * weight, many, place);
  };
  for (int y = 0; y <= rows; ++y)
    for (int x = 0; x <= columns; ++x) {
      std::size_t p = raster.at(w.left + x, w.top + y), here = std::size_t(y) * width + x;
      if (x < columns) cross(cell(x, y - 1), cell(x, y), raster.weight(p, p + 1), corrections.right[here]);
      if (y < rows) cross(cell(x, y), cell(x - 1, y), raster.weight(p, p + raster.width), corrections.down[here]);
    }
  Graph::NodeMap<std::int64_t> supplies(graph);
  for (std::size_t k = 0; k < supply.size(); ++k) supplies[graph.nodeFromId(k)] = supply[k];
  Graph::ArcMap<std::int64_t> arc_costs(graph), arc_capacities(graph);
  for (std::size_t k = 0; k < costs.size(); ++k) {
    arc_costs[graph.arcFromId(2 * k)] = arc_costs[graph.arcFromId(2 * k + 1)] = costs[k];
    arc_capacities[graph.arcFromId(2 * k)] = arc_capacities[graph.arcFromId(2 * k + 1)] = capacities[k];
  }
  Simplex simplex(graph);
  if (raster.steep > 1) simplex.upperMap(arc_capacities);
  if (simplex.costMap(arc_costs).supplyMap(supplies).run() != Simplex::OPTIMAL) std::exit(1);
  for (std::size_t k = 0; k < costs.size(); ++k)
    *places[k] += std::int32_t(simplex.flow(graph.arcFromId(2 * k)) - simplex.flow(graph.arcFromId(2 * k + 1)));
}

// Whole cycles of a tile whose departures are the corrections, 0 at its first pixel.
static void integrate(Raster &raster, const Window &w, const Corrections &corrections) {
  int width = w.right - w.left;
  auto step = [&](std::size_t p, std::size_t q, int correction) {
    raster.cycles[q] = raster.cycles[p] + raster.turns(p, q) + correction;
  };
  raster.cycles[raster.at(w.left, w.top)] = 0;
  for (int y = w.top; y < w.bottom; ++y) {
    std::size_t here = std::size_t(y - w.top) * width, p = raster.at(w.left, y);
    if (y > w.top) step(p - raster.width, p, corrections.down[here - width]);
    for (int x = w.left + 1; x < w.right; ++x, ++here, ++p) step(p, p + 1, corrections.right[here]);
  }
}

// Numbers the regions: open pixels that walks through open pixels of one tile join.
static void flood(Raster &raster) {
  raster.regions.assign(raster.cycles.size(), -1);
  std::vector<std::size_t> heap;
  for (std::size_t first = 0; first < raster.cycles.size(); ++first) {
    if (!raster.is_open(first) || raster.regions[first] >= 0) continue;
    int region = raster.region_count++;
    raster.regions[first] = region;
    heap.push_back(first);
    while (!heap.empty()) {
      std::size_t p = heap.back();
      heap.pop_back();
      int x = int(p % raster.width), y = int(p / raster.width);
      auto visit = [&](std::size_t q) {
        if (!raster.is_open(q) || raster.regions[q] >= 0) return;
        raster.regions[q] = region;
        heap.push_back(q);
      };
      if (x % raster.side != 0) visit(p - 1);
      if (x + 1 < raster.width && (x + 1) % raster.side != 0) visit(p + 1);
      if (y % raster.side != 0) visit(p - raster.width);
      if (y + 1 < raster.height && (y + 1) % raster.side != 0) visit(p + raster.width);
    }
  }
}

// Seam edges between two regions, the lower-numbered first, whose surfaces differ by the same cycles: as many as weigh this
// together.
struct Seam {
  int from, to;
  std::int64_t departure, weight;
  auto key() const { return std::tie(from, to, departure); }
};

static std::vector<Seam> seams_of(const Raster &raster) {
  std::vector<Seam> seams;
  auto add = [&](std::size_t p, std::size_t q) {
    if (!raster.is_open(p) || !raster.is_open(q)) return;
    std::int64_t departure = std::int64_t(raster.cycles[q]) - raster.cycles[p] - raster.turns(p, q);
    int from = raster.regions[p], to = raster.regions[q];
    if (from > to) std::swap(from, to), departure = -departure;
    seams.push_back({from, to, departure, raster.weight(p, q)});
  };
  for (int y = 0; y < raster.height; ++y)
    for (int x = 0; x < raster.width; ++x) {
      std::size_t p = raster.at(x, y);
      if (x + 1 < raster.width && (x + 1) % raster.side == 0) add(p, p + 1);
      if (y + 1 < raster.height && (y + 1) % raster.side == 0) add(p, p + raster.width);
    }
  std::sort(seams.begin(), seams.end(), [](const Seam &a, const Seam &b) { return a.key() < b.key(); });
  std::vector<Seam> joined;
  for (const Seam &seam : seams)
    if (joined.empty() || joined.back().key() != seam.key()) joined.push_back(seam);
    else joined.back().weight += seam.weight;
  return joined;
}

// The flow of a seam lies from minus its weight to its weight, and each unit costs the departure; up to Q times the weight, for the
// steepness Q, a unit costs one less or one more. It starts at the end at which it costs least, counted as supply, so that no arc
// costs less than 0; where the surface does not depart it starts at 0. The offsets are the potentials.
static std::vector<std::int64_t> offsets_of(const Raster &raster) {
  std::vector<Seam> seams = seams_of(raster);
  std::vector<std::int64_t> offsets(raster.region_count, 0), supply(raster.region_count, 0);
  if (raster.region_count < 2 || seams.empty()) return offsets;
  struct Arc {
    int from, to;
    std::int64_t cost, capacity;
  };
  std::vector<Arc> arcs;
  for (const Seam &seam : seams) {
    int from = seam.departure > 0 ? seam.to : seam.from, to = seam.departure > 0 ? seam.from : seam.to;
    std::int64_t cycles = std::abs(seam.departure), further = (raster.steep - 1) * seam.weight;
    auto lane = [&](int tail, int head, std::int64_t cost, std::int64_t capacity) {
      if (capacity > 0) arcs.push_back({tail, head, cost, capacity});
    };
    if (cycles == 0) {
      lane(from, to, 0, seam.weight), lane(to, from, 0, seam.weight);
      lane(from, to, 1, further), lane(to, from, 1, further);
    } else {
      lane(from, to, cycles, 2 * seam.weight);
      lane(from, to, cycles - 1, further), lane(from, to, cycles + 1, further);
      supply[from] += seam.weight + further;
      supply[to] -= seam.weight + further;
    }
  }
  std::sort(arcs.begin(), arcs.end(), [](const Arc &a, const Arc &b) { return std::tie(a.from, a.to) < std::tie(b.from, b.to); });
  Graph graph;
  graph.reserveNode(raster.region_count);
  graph.reserveArc(arcs.size());
  for (int k = 0; k < raster.region_count; ++k) graph.addNode();
  for (const Arc &arc : arcs) graph.addArc(graph.nodeFromId(arc.from), graph.nodeFromId(arc.to));
  Graph::ArcMap<std::int64_t> capacities(graph), costs(graph);
  for (std::size_t k = 0; k < arcs.size(); ++k) {
    capacities[graph.arcFromId(int(k))] = arcs[k].capacity;
    costs[graph.arcFromId(int(k))] = arcs[k].cost;
  }
  Graph::NodeMap<std::int64_t> supplies(graph);
  for (int k = 0; k < raster.region_count; ++k) supplies[graph.nodeFromId(k)] = supply[k];
  Simplex simplex(graph);
  if (simplex.upperMap(capacities).costMap(costs).supplyMap(supplies).run() != Simplex::OPTIMAL) std::exit(1);
  for (int k = 0; k < raster.region_count; ++k) offsets[k] = simplex.potential(graph.nodeFromId(k));
  return offsets;
}

static bool write_grid(const Raster &raster, const std::vector<std::int64_t> &offsets) {
  std::string text = grid_head(raster.width, raster.height);
  std::size_t used = text.size(), first = 0;
  text.resize(used + raster.cycles.size() * 21);
  while (first < raster.cycles.size() && !raster.is_open(first)) ++first;
  std::int64_t anchor = first == raster.cycles.size() ? 0 : raster.cycles[first] + offsets[raster.regions[first]];
  for (std::size_t p = 0; p < raster.cycles.size(); ++p) {
    std::int64_t value = INT64_MIN;
    if (raster.is_open(p))
      value = raster.phase.samples[p] + 65536 * (raster.cycles[p] + offsets[raster.regions[p]] - anchor);
    used = std::to_chars(text.data() + used, text.data() + text.size(), value).ptr - text.data();
    text[used++] = (p + 1) % raster.width == 0 ? '\n' : ' ';
  }
  return std::fwrite(text.data(), 1, used, stdout) == used;
}

int main(int count, char **words) {
  auto start = std::chrono::steady_clock::now();
  auto tell = [&](const char *part) {
    std::chrono::duration<double, std::milli> took = std::chrono::steady_clock::now() - start;
    std::fprintf(stderr, "%s %.1f ms\n", part, took.count());
  };
  Raster raster;
  raster.side = count > 1 ? std::atoi(words[1]) : 64;
  raster.read(count - 2, words + 2);
  raster.cycles.resize(raster.phase.samples.size());
  tell("read");
  Corrections corrections;
  for (int top = 0; top < raster.height; top += raster.side)
    for (int left = 0; left < raster.width; left += raster.side) {
      Window window{left, top, std::min(left + raster.side, raster.width), std::min(top + raster.side, raster.height)};
      correct(raster, window, corrections);
      integrate(raster, window, corrections);
    }
  tell("tiles");
  flood(raster);
  std::vector<std::int64_t> offsets = offsets_of(raster);
  tell("seams");
  bool is_written = write_grid(raster, offsets);
  tell("written");
  return is_written ? 0 : 6;
}
