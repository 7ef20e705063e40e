/* expat: parses a document, with call-backs for elements and texts. */
#include "unit.h"

#include "expat.h"

static uint32_t total;

static void XMLCALL on_element(void *user, const XML_Char *name, const XML_Char **attributes) {
    (void)user;
    total = total * 31 + (unsigned char)name[0];
    for (; *attributes != NULL; attributes += 2) {
        total += (uint32_t)strlen(attributes[1]);
    }
}

static void XMLCALL on_text(void *user, const XML_Char *text, int len) {
    (void)user, (void)text;
    total += (uint32_t)len;
}

static void parse(void) {
    XML_Parser parser = XML_ParserCreate(NULL);
    need(parser != NULL);
    total = 0;
    XML_SetElementHandler(parser, on_element, NULL);
    XML_SetCharacterDataHandler(parser, on_text);
    need(XML_Parse(parser, (char *)in, (int)in_len, 1) == XML_STATUS_OK);
    XML_ParserFree(parser);
    made_number(total);
}

void unit_prepare(void) {}

UNIT_OPERATIONS(parse)
