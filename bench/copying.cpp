// What any program must do that reads and writes as much as one of the commands does:
//   copying screen                      reads a session's three raw planes into arrays and writes the session
//   copying closure                     reads three grids, and writes of each pixel what is left around the loop and its whole
//                                       cycles, without looking for patches
//   copying displacement LENGTH BLOCK   reads a grid, and writes a value for each block, as long as the displacement: that of its
//                                       first pixel
// The input is read at once, numbers are read by hand, and all is written through one buffer. It trusts its input, and sums and
// products to fit 64 bits.
#include <sys/stat.h>
#include <unistd.h>

#include <algorithm>
#include <charconv>
#include <cstdint>
#include <cstdlib>
#include <cstring>
#include <memory>
#include <string_view>

using Value = std::int64_t;
constexpr Value NO_DATA = INT64_MIN, CYCLE = 65536;

// All bytes of standard input, with a 0 after them.
struct Input {
  std::size_t size = 0;
  std::unique_ptr<char[]> bytes;
  const char *at;

  Input() {
    struct stat about;
    if (fstat(0, &about) != 0 || !S_ISREG(about.st_mode)) std::exit(3);
    bytes.reset(new char[std::size_t(about.st_size) + 1]);
    for (ssize_t more; (more = read(0, bytes.get() + size, std::size_t(about.st_size) - size)) > 0;) size += std::size_t(more);
    bytes[size] = 0;
    at = bytes.get();
  }
  const char *end() const { return bytes.get() + size; }

  Value number() {
    while (*at != '-' && (*at < '0' || *at > '9')) ++at;
    bool is_negative = *at == '-';
    at += is_negative;
    std::uint64_t value = 0;
    for (; *at >= '0' && *at <= '9'; ++at) value = 10 * value + std::uint64_t(*at - '0');
    return Value(is_negative ? 0 - value : value);
  }
};

// The buffer that all is written through.
struct Output {
  static constexpr std::size_t SIZE = 1 << 16;
  std::unique_ptr<char[]> bytes{new char[SIZE]};
  char *at = bytes.get();

  void flush() {
    const char *from = bytes.get();
    while (from < at) {
      ssize_t count = write(1, from, std::size_t(at - from));
      if (count <= 0) std::exit(6);
      from += count;
    }
    at = bytes.get();
  }
  void room(std::size_t size) {
    if (std::size_t(bytes.get() + SIZE - at) < size) flush();
  }
  void text(std::string_view piece) {
    while (!piece.empty()) {
      room(1);
      std::size_t count = std::min(piece.size(), std::size_t(bytes.get() + SIZE - at));
      std::memcpy(at, piece.data(), count);
      at += count;
      piece.remove_prefix(count);
    }
  }
  void number(Value value) {
    room(24);
    at = std::to_chars(at, at + 24, value).ptr;
  }
};

struct Plane {
  int width = 0, height = 0, maxval = 1;
  std::unique_ptr<std::uint16_t[]> samples;
  std::size_t pixels() const { return std::size_t(width) * std::size_t(height); }
};

static void read_plane(Input &input, Plane &plane) {
  if (input.at + 2 > input.end() || input.at[0] != 'P' || input.at[1] != '5') std::exit(3);
  input.at += 2;
  plane.width = int(input.number()), plane.height = int(input.number()), plane.maxval = int(input.number());
  const auto *from = reinterpret_cast<const unsigned char *>(++input.at);
  std::size_t count = plane.pixels();
  plane.samples.reset(new std::uint16_t[count]);
  auto *to = plane.samples.get();
  if (plane.maxval < 256)
    for (std::size_t k = 0; k < count; ++k) to[k] = from[k];
  else
    for (std::size_t k = 0; k < count; ++k) to[k] = std::uint16_t(from[2 * k] << 8 | from[2 * k + 1]);
  input.at += plane.maxval < 256 ? count : 2 * count;
}

static void write_plane(Output &output, const Plane &plane) {
  output.text("P5\n"), output.number(plane.width), output.text(" "), output.number(plane.height);
  output.text("\n"), output.number(plane.maxval), output.text("\n");
  const auto *from = plane.samples.get();
  std::size_t size = plane.maxval < 256 ? 1 : 2, count = plane.pixels();
  for (std::size_t k = 0; k < count;) {
    output.room(size * 1024);
    std::size_t piece = std::min<std::size_t>(count - k, 1024);
    auto *to = reinterpret_cast<unsigned char *>(output.at);
    if (size == 1)
      for (std::size_t i = 0; i < piece; ++i) to[i] = static_cast<unsigned char>(from[k + i]);
    else
      for (std::size_t i = 0; i < piece; ++i)
        to[2 * i] = static_cast<unsigned char>(from[k + i] >> 8), to[2 * i + 1] = static_cast<unsigned char>(from[k + i]);
    output.at += size * piece, k += piece;
  }
}

static void copy_session(Input &input, Output &output) {
  Plane planes[3];
  for (auto &plane : planes) read_plane(input, plane);
  for (std::size_t k = 0; k < planes[2].pixels(); ++k) planes[2].samples[k] = planes[2].samples[k] != 0;
  planes[2].maxval = 1;
  for (const auto &plane : planes) write_plane(output, plane);
  std::string_view script(input.at, std::size_t(input.end() - input.at));
  output.text(script.empty() ? "analyst\nsettle\nshow\nend\n" : script);
}

struct Grid {
  int width, height;
  std::unique_ptr<Value[]> values;

  Grid(int columns, int rows) : width(columns), height(rows), values(new Value[std::size_t(columns) * std::size_t(rows)]) {}
  std::size_t pixels() const { return std::size_t(width) * std::size_t(height); }
};

static Grid read_grid(Input &input) {
  int width = int(input.number()), height = int(input.number());
  for (int line = 0; line < 4; ++line) input.number();
  Grid grid(width, height);
  auto *to = grid.values.get();
  for (std::size_t k = 0; k < grid.pixels(); ++k) to[k] = input.number();
  return grid;
}

static void write_grid(Output &output, const Grid &grid) {
  output.text("ncols "), output.number(grid.width), output.text("\nnrows "), output.number(grid.height);
  output.text("\nxllcorner 0\nyllcorner 0\ncellsize 1\nNODATA_value "), output.number(NO_DATA), output.text("\n");
  const auto *from = grid.values.get();
  for (int y = 0; y < grid.height; ++y)
    for (int x = 0; x < grid.width; ++x) {
      output.number(*from++);
      *output.at++ = x + 1 == grid.width ? '\n' : ' ';
    }
}

static void copy_loop(Input &input, Output &output) {
  Grid a = read_grid(input), b = read_grid(input), c = read_grid(input);
  for (std::size_t k = 0; k < a.pixels(); ++k) {
    Value &left = a.values[k], &cycles = b.values[k], other = c.values[k];
    bool is_there = left != NO_DATA && cycles != NO_DATA && other != NO_DATA;
    left = is_there ? left + cycles - other : NO_DATA;
    cycles = is_there ? (left + CYCLE / 2) >> 16 : NO_DATA;
  }
  write_grid(output, a), write_grid(output, b);
}

static void copy_blocks(Input &input, Output &output, Value length, int block) {
  Grid grid = read_grid(input), made((grid.width + block - 1) / block, (grid.height + block - 1) / block);
  for (int y = 0; y < made.height; ++y)
    for (int x = 0; x < made.width; ++x) {
      Value value = grid.values[std::size_t(y) * std::size_t(block) * std::size_t(grid.width) + std::size_t(x) * std::size_t(block)];
      made.values[std::size_t(y) * std::size_t(made.width) + std::size_t(x)] = value == NO_DATA ? value : (value * length) >> 17;
    }
  write_grid(output, made);
}

int main(int count, char **words) {
  std::string_view command = count > 1 ? words[1] : "";
  Input input;
  Output output;
  if (command == "screen") copy_session(input, output);
  else if (command == "closure") copy_loop(input, output);
  else if (command == "displacement" && count == 4) copy_blocks(input, output, std::atoll(words[2]), std::atoi(words[3]));
  else return 2;
  output.flush();
}
