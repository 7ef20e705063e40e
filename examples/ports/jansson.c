/* jansson: values are packed, printed, read back, unpacked and compared. */
#include <stdio.h>
#include <string.h>

#include "jansson.h"
#include "port.h"

static json_t *document(int rows) {
    json_t *all = json_object(), *list = json_array();
    unsigned state = 1;
    for (int k = 0; k < rows; k++) {
        unsigned part = next_of(&state, 1000);
        json_array_append_new(list, json_pack("{s:i, s:f, s:s, s:[b, n, {s:I}]}", "number", k, "part", part / 9.0, "text",
                                              k % 3 ? "plain" : "\"quoted\"\n\xe2\x82\xac", "list", k % 2, "deep", (json_int_t)k << 40));
    }
    json_object_set_new(all, "rows", list);
    json_object_set_new(all, "count", json_integer(rows));
    return all;
}

/* A checksum of what is printed, and of what is read back and unpacked. */
static unsigned work(unsigned sum) {
    json_t *first = document(150), *copy = json_deep_copy(first);
    char *pretty = json_dumps(first, JSON_INDENT(2) | JSON_SORT_KEYS), *plain = json_dumps(first, JSON_COMPACT | JSON_ENSURE_ASCII);
    json_error_t error;
    json_t *back = json_loads(pretty, JSON_REJECT_DUPLICATES, &error), *row;
    size_t index;
    double total = 0;
    json_array_foreach(json_object_get(back, "rows"), index, row) {
        double part = 0;
        json_int_t deep = 0;
        json_unpack(row, "{s:f, s:[b, n, {s:I}]}", "part", &part, "list", &(int){0}, "deep", &deep);
        total += part + (double)(deep >> 38);
    }
    json_object_set_new(copy, "more", json_true());
    int equal = json_equal(first, back) + 2 * json_equal(first, copy);
    sum = sum_of(sum_of(sum, pretty, strlen(pretty)), plain, strlen(plain));
    sum = sum_of(sum_of(sum, &total, sizeof total), &equal, sizeof equal);
    free(pretty), free(plain);
    json_decref(first), json_decref(copy), json_decref(back);
    return sum;
}

int main(int argc, char **argv) {
    json_error_t error;
    unsigned sum = 0;
    json_object_seed(42);
    for (int k = rounds_of(argc, argv); k > 0; k--) sum = work(sum);
    printf("%s %08x\n", jansson_version_str(), sum);
    printf("%d: ", json_loads("{\"a\": [1, 2,, 3]}", 0, &error) == NULL);
    printf("line %d, column %d: %s\n", error.line, error.column, error.text);
    json_t *reals = json_loads("[1e-5, 123456789.125, 1.7976931348623157e308, 0.1]", 0, &error);
    char *text = json_dumps(reals, JSON_REAL_PRECISION(12));
    printf("%s\n", text);
    free(text);
    json_decref(reals);
    return 0;
}
