/* Prints the elements of XML documents in parentheses, as expat finds them in a box: host DOCUMENT.ELF FILE.. */
#include "../library.h"

enum { MEMORY = 32 << 20, HEAP = 16 << 20, WORDS_MAX = 32, FINAL = 1 };

static void print(NcsBox *box, const char *before, uint32_t at) {
    char text[64];
    printf("%s%s", before, ncs_text(box, text, sizeof text, (NcsAt){at}) < 0 ? "" : text);
}

/* The arguments are expat's: user data, a name, and the words of the attributes up to a 0. No address is trusted, nor that the 0 comes. */
static uint64_t on_start(NcsBox *box, void *user, const uint32_t *args) {
    print(box, "(", args[1]);
    for (uint32_t word, k = 0; k < WORDS_MAX && ncs_get(box, &word, (NcsAt){args[2] + 4 * k}, sizeof word) && word != 0; k++) {
        print(box, k % 2 == 0 ? " " : "=", word);
    }
    return user != NULL;
}

static uint64_t on_end(NcsBox *box, void *user, const uint32_t *args) {
    (void)box, (void)user, (void)args;
    return (uint64_t)putchar(')');
}

int main(int argc, char **argv) {
    Library xml = library_open(argc > 1 ? argv[1] : "", MEMORY, 2000);
    NcsAt start = ncs_callback(xml.box, on_start, NULL, 3), end = ncs_callback(xml.box, on_end, NULL, 2);
    static char file[8 << 20];
    for (int k = 2; k < argc; k++) {
        library_begin(&xml, HEAP);
        uint32_t len = read_file(argv[k], file, sizeof file), parser = library_call(&xml, "XML_ParserCreate", NCS_ARGS(0));
        printf("%s: ", argv[k]);
        (void)library_call(&xml, "XML_SetElementHandler", NCS_ARGS(parser, start.at, end.at));
        (void)library_call(&xml, "XML_Parse", NCS_ARGS(parser, ncs_put(xml.box, file, len).at, len, FINAL));
        print(xml.box, " ", library_call(&xml, "XML_ErrorString", NCS_ARGS(library_call(&xml, "XML_GetErrorCode", NCS_ARGS(parser)))));
        printf(" %s\n", ncs_how(xml.end.how));
    }
    return library_close(&xml);
}
