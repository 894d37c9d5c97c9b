// PGM planes from standard input, for the C++ programs that the benchmarks compare with, and what they say of edges and cells. They
// trust their input.
#pragma once
#include <algorithm>
#include <cstdint>
#include <cstdio>
#include <cstdlib>
#include <string>
#include <vector>

struct Plane {
  int width = 0, height = 0, maxval = 1;
  std::vector<std::uint16_t> samples;
};

// The next byte that is no white space.
static int next_byte() {
  int byte = getchar_unlocked();
  while (byte <= ' ' && byte >= 0) byte = getchar_unlocked();
  if (byte < 0) std::exit(3);
  return byte;
}

static void read_plain(Plane &plane) {
  for (auto &sample : plane.samples) {
    unsigned value = 0;
    for (int byte = next_byte(); byte >= '0'; byte = getchar_unlocked()) value = 10 * value + unsigned(byte - '0');
    sample = std::uint16_t(value);
  }
}

static void read_raw(Plane &plane) {
  std::size_t count = plane.samples.size(), size = plane.maxval < 256 ? 1 : 2;
  std::vector<unsigned char> bytes(count * size);
  if (std::fread(bytes.data(), 1, bytes.size(), stdin) != bytes.size()) std::exit(3);
  for (std::size_t k = 0; k < count; ++k)
    plane.samples[k] = size == 1 ? bytes[k] : std::uint16_t(bytes[2 * k] * 256 + bytes[2 * k + 1]);
}

// Reads the next plane; false if the input does not go on with one.
static bool read_plane(Plane &plane) {
  char kind;
  if (std::scanf("P%c %d %d %d", &kind, &plane.width, &plane.height, &plane.maxval) != 4) return false;
  std::getchar();
  plane.samples.resize(std::size_t(plane.width) * plane.height);
  if (kind == '2') read_plain(plane);
  else read_raw(plane);
  return true;
}

inline int wrapped(int from, int to) { return static_cast<std::int16_t>(static_cast<std::uint16_t>(to - from)); }

// Planes of one size, and the terms of costs.
struct Scene {
  int width, height;
  int across = 0, down = 0;  // the expected slopes
  int steep = 1;
  char rule = 'l';  // the first letter of the rule of weights: least, mean or product
  Plane phase, weights, mask;

  std::size_t at(int x, int y) const { return std::size_t(y) * width + x; }
  bool is_open(std::size_t p) const { return mask.samples[p] != 0; }
  // Wrapped to the half cycles about the expected slope, from a pixel to its right or lower neighbour.
  int difference(std::size_t p, std::size_t q) const {
    int slope = q == p + std::size_t(width) ? down : across;
    return slope + wrapped(phase.samples[p], phase.samples[q] - slope);
  }
  // Whole cycles from one pixel to the next where nothing is corrected.
  int turns(std::size_t p, std::size_t q) const {
    return (difference(p, q) - (phase.samples[q] - phase.samples[p])) / 65536;
  }
  int weight(std::size_t p, std::size_t q) const {
    std::uint32_t a = weights.samples[p], b = weights.samples[q];
    if (!is_open(p) || !is_open(q)) return 0;
    return rule == 'l' ? std::min(a, b) : rule == 'm' ? (a + b) / 2 : a * b / weights.maxval;
  }
  int residue(int x, int y) const {
    std::size_t a = at(x, y), b = a + 1, c = a + width, d = c + 1;
    return (difference(a, b) + difference(b, d) - difference(c, d) - difference(a, c)) / 65536;
  }

  // Reads the planes that the input has. The words are, as many as there are: two slopes, the steepness, and the rule.
  void read(int count, char **words) {
    if (count > 1) across = std::atoi(words[0]), down = std::atoi(words[1]);
    if (count > 2) steep = std::atoi(words[2]);
    if (count > 3) rule = words[3][0];
    if (!read_plane(phase)) std::exit(3);
    width = phase.width;
    height = phase.height;
    if (!read_plane(weights)) weights.samples.assign(phase.samples.size(), 1);
    if (!read_plane(mask)) mask.samples.assign(phase.samples.size(), 1);
  }
};

// The first lines of a grid.
inline std::string grid_head(int width, int height) {
  return "ncols " + std::to_string(width) + "\nnrows " + std::to_string(height) +
         "\nxllcorner 0\nyllcorner 0\ncellsize 1\nNODATA_value -9223372036854775808\n";
}
