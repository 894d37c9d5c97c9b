// Reads PGM planes from standard input into arrays and writes COUNT decimal numbers, samples of the first plane over and over,
// through one buffer: what any program must do that reads the same planes and writes a text as long. It leaves what comes after
// the planes or, with the word `text` behind COUNT, reads all numbers there into an array of 64 bits each, as a checker must.
#include <charconv>
#include <string>

#include "planes.hpp"

// The numbers of the rest of the input, in which no number takes more than 64 bytes.
static std::vector<std::int64_t> read_numbers() {
  std::vector<std::int64_t> numbers;
  std::string block(1 << 20, ' ');
  std::size_t kept = 0, count;
  while ((count = std::fread(block.data() + kept, 1, block.size() - kept, stdin)) > 0) {
    const char *next = block.data(), *end = next + kept + count, *last = end;
    // A number that the block cuts is read with the next one.
    while (last > next && last[-1] > ' ') --last;
    while (next < last) {
      bool below = *next == '-';
      const char *first = next + below;
      std::int64_t number = 0;
      for (next = first; *next >= '0' && *next <= '9'; ++next) number = 10 * number + (*next - '0');
      if (next > first) numbers.push_back(below ? -number : number);
      else if (!below) ++next;
    }
    kept = std::size_t(end - last);
    std::copy(last, end, block.begin());
  }
  return numbers;
}

int main(int count_of_words, char **words) {
  std::vector<Plane> planes(3);
  std::size_t read = 0;
  while (read < planes.size() && read_plane(planes[read])) ++read;
  if (read == 0) return 3;
  if (count_of_words > 2 && read_numbers().empty()) return 3;
  std::size_t count = std::strtoull(words[1], nullptr, 10), used = 0;
  const auto &first = planes[0].samples;
  std::string text(count * 6, ' ');
  for (std::size_t k = 0; k < count; ++k) {
    used = std::size_t(std::to_chars(text.data() + used, text.data() + text.size(), first[k % first.size()]).ptr - text.data());
    text[used++] = (k + 1) % std::size_t(planes[0].width) == 0 ? '\n' : ' ';
  }
  return std::fwrite(text.data(), 1, used, stdout) == used ? 0 : 6;
}
