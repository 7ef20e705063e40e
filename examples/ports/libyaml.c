/* libyaml: a stream is parsed and emitted again in block and in flow style; another one has a fault. */
#include <stdio.h>
#include <string.h>

#include "port.h"
#include "yaml.h"

enum { ROOM = 1 << 18 };
static unsigned char in[ROOM], out[ROOM];
static const char HEAD[] =
    "%YAML 1.1\n---\n&top !!map {list: [1, 'two', \"th\\u00e9 \\x41\"], ? [a, b] : !local c}\n--- >-\n  folded\n  text\n\n  more\n"
    "--- |+\n literal\n  text\n\n---\nbase: &base\n  - x\n  - y: ~\nuse: *base\n";

static size_t write_stream(void) {
    size_t size = sprintf((char *)in, "%s---\n", HEAD);
    for (int k = 0; k < 400; k++) {
        static const char ITEM[] = "- key %d: &a%d value %d # a comment\n  'quoted': \"\\t%d\"\n  list: [%d, {x: *a%d}]\n";
        size += sprintf((char *)in + size, ITEM, k, k, k, k, k, k);
    }
    return size;
}

/* What becomes of the input: the number of bytes that are emitted, or less than 0 where it has a fault. */
static int reformatted(size_t size, yaml_parser_t *parser, yaml_mapping_style_t style) {
    yaml_emitter_t emitter;
    yaml_event_t event = {.type = YAML_NO_EVENT};
    size_t written = 0;
    int good = 1;
    yaml_parser_set_input_string(parser, in, size);
    yaml_emitter_initialize(&emitter);
    yaml_emitter_set_output_string(&emitter, out, ROOM, &written);
    yaml_emitter_set_unicode(&emitter, style == YAML_FLOW_MAPPING_STYLE);
    yaml_emitter_set_width(&emitter, 60);
    for (int ended = 0; good && !ended;) {
        good = yaml_parser_parse(parser, &event);
        ended = event.type == YAML_STREAM_END_EVENT;
        if (event.type == YAML_MAPPING_START_EVENT) event.data.mapping_start.style = style;
        good = good && yaml_emitter_emit(&emitter, &event); /* which deletes the event */
    }
    yaml_emitter_delete(&emitter);
    return good ? (int)written : -1;
}

static unsigned work(unsigned sum, size_t size, yaml_mapping_style_t style) {
    yaml_parser_t parser;
    yaml_parser_initialize(&parser);
    int count = reformatted(size, &parser, style);
    yaml_parser_delete(&parser);
    return sum_of(sum_of(sum, &count, sizeof count), out, count > 0 ? count : 0);
}

int main(int argc, char **argv) {
    unsigned sum = 0;
    size_t size = write_stream();
    for (int k = rounds_of(argc, argv); k > 0; k--) {
        sum = work(work(sum, size, YAML_BLOCK_MAPPING_STYLE), size, YAML_FLOW_MAPPING_STYLE);
    }
    printf("%s %u bytes, %08x\n%.300s\n", yaml_get_version_string(), (unsigned)size, sum, out);
    yaml_parser_t parser;
    yaml_parser_initialize(&parser);
    size = sprintf((char *)in, "a: [1, 2\nb: }\n");
    printf("%d: ", reformatted(size, &parser, YAML_ANY_MAPPING_STYLE));
    printf("%s, line %u: %s\n", parser.context, (unsigned)parser.problem_mark.line, parser.problem);
    yaml_parser_delete(&parser);
    return 0;
}
