// pugixml: a document is made, written, read back, asked by XPath and changed; another one has a fault.
#include <stdio.h>
#include <string.h>

#include "port.h"
#include "pugixml.hpp"

namespace {
class Summing : public pugi::xml_writer {
  public:
    unsigned sum = 0;
    void write(const void *data, size_t size) override { sum = sum_of(sum, data, size); }
};

class Buffer : public pugi::xml_writer {
  public:
    char text[1 << 17];
    size_t length = 0;
    void write(const void *data, size_t size) override {
        memcpy(text + length, data, size);
        length += size;
    }
};
} // namespace

/* clang-format off */
static const char *const QUERIES[] = {
    "count(//row[@odd='true'])", "sum(/rows/row/@number) div 7", "string(/rows/row[last()]/text)",
    "count(//row[position() mod 3 = 1]/text)", "concat(name(/*), '-', substring('abcdef', 2, 3))", "round(sum(//@part) * 100) div 100",
    "boolean(//row[@number > 199])"};
/* clang-format on */
static Buffer buffer;

static void make(pugi::xml_document &document) {
    unsigned state = 1;
    pugi::xml_node root = document.append_child("rows");
    for (int k = 0; k < 200; k++) {
        pugi::xml_node row = root.append_child("row");
        row.append_attribute("number") = k;
        row.append_attribute("part") = next_of(&state, 1000) / 8.0;
        row.append_attribute("odd") = k % 2 == 1;
        row.append_child("text").text() = k % 3 ? "plain" : "<quoted> & \"more\" \xc3\xa9";
        row.append_child(k % 4 ? pugi::node_pcdata : pugi::node_cdata).set_value("raw text");
    }
}

static unsigned work(unsigned sum, bool shows) {
    pugi::xml_document document, back;
    Summing writer;
    make(document);
    buffer.length = 0;
    document.save(buffer, "  ");
    pugi::xml_parse_result status = back.load_buffer(buffer.text, buffer.length, pugi::parse_full);
    for (const char *query : QUERIES) {
        char text[100];
        pugi::xpath_query(query).evaluate_string(text, sizeof text, back);
        sum = sum_of(sum, text, strlen(text));
        if (shows) printf("%s = %s\n", query, text);
    }
    for (pugi::xpath_node found : back.select_nodes("//row[@odd='false']")) found.node().remove_child("text");
    back.save(writer, "", pugi::format_raw, pugi::encoding_utf16_le);
    sum = sum_of(sum_of(sum, &status.status, sizeof status.status), buffer.text, buffer.length);
    return sum_of(sum, &writer.sum, sizeof writer.sum);
}

int main(int argc, char **argv) {
    unsigned sum = 0;
    for (int k = rounds_of(argc, argv); k > 0; k--) sum = work(sum, k == 1);
    pugi::xml_document bad;
    pugi::xml_parse_result status = bad.load_string("<a><b x='1'>&#65;</c></a>");
    printf("%08x %s, at %d\n", sum, status.description(), (int)status.offset);
    return 0;
}
