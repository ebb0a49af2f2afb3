// Counts rows as `scuba mem count FROM TO` does, by simdjson: a peer of the benchmark. It reads each document whole and looks at each of its members, so that it
// refuses what is no row; it does not tell at which line, and takes several rows on one line.
#include <cstdint>
#include <cstdio>
#include <cstdlib>
#include <simdjson.h>
#include <string>

using namespace simdjson;

// Whether a document is a row, whose time it gives. Of a name that is given twice the last value counts, of times alone here: cells are not kept.
static bool row(dom::element document, int64_t &time) {
  dom::object members;
  if (document.get_object().get(members)) return false;
  bool timed = false;
  size_t cells = 0;
  for (auto member : members) {
    if (member.key == "time") {
      timed = !member.value.get_int64().get(time) && time >= 0;
      continue;
    }
    if (member.key.empty() || member.key.size() > 255) return false;
    switch (member.value.type()) {
      case dom::element_type::NULL_VALUE: break;
      case dom::element_type::INT64: cells++; break;
      case dom::element_type::STRING: {
        if (member.value.get_string().value_unsafe().size() > 65535) return false;
        cells++;
        break;
      }
      default: return false;
    }
  }
  return timed && cells <= 1024;
}

int main(int count, char **words) {
  if (count != 3) {
    fprintf(stderr, "count_simdjson: the words are the first and the last time\n");
    return 2;
  }
  const int64_t from = strtoll(words[1], nullptr, 10), to = strtoll(words[2], nullptr, 10);
  std::string text;
  char piece[65536];
  for (size_t n; (n = fread(piece, 1, sizeof piece, stdin)) > 0;) text.append(piece, n);
  text.reserve(text.size() + SIMDJSON_PADDING);
  dom::parser parser;
  dom::document_stream documents;
  if (parser.parse_many(text).get(documents)) return 3;
  uint64_t rows = 0;
  int64_t time;
  for (auto document : documents) {
    dom::element element;
    if (document.get(element) || !row(element, time)) {
      fprintf(stderr, "count_simdjson: a line is no row\n");
      return 3;
    }
    if (from <= time && time <= to) rows++;
  }
  if (documents.truncated_bytes() != 0) return 3;
  printf("count %llu\n", (unsigned long long)rows);
}
