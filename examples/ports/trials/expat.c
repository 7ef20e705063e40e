/* Expat: entities, name spaces, sections of characters, an error's place, a long document. */
#include <stdio.h>
#include <string.h>
#include "expat.h"

static void begin(void *data, const char *name, const char **attributes) {
    (void)data;
    printf("<%s", name);
    for (; *attributes; attributes += 2) printf(" %s=%s", attributes[0], attributes[1]);
    printf(">");
}

static void end(void *data, const char *name) {
    (void)data;
    printf("</%s>\n", name);
}

static void text(void *data, const char *characters, int count) {
    (void)data;
    printf("[%.*s]", count, characters);
}

static void parse(XML_Parser parser, const char *source) {
    XML_SetElementHandler(parser, begin, end);
    XML_SetCharacterDataHandler(parser, text);
    int status = XML_Parse(parser, source, (int)strlen(source), 1);
    printf("status %d, %s, %lu:%lu\n", status, XML_ErrorString(XML_GetErrorCode(parser)), (unsigned long)XML_GetCurrentLineNumber(parser),
           (unsigned long)XML_GetCurrentColumnNumber(parser));
    XML_ParserFree(parser);
}

static void count(void *data, const char *name, const char **attributes) {
    unsigned *counted = data;
    for (; *name; name++) *counted = *counted * 31 + (unsigned char)*name;
    for (; *attributes; attributes++) *counted += (unsigned char)**attributes;
}

static void parse_long(void) {
    enum { ELEMENTS = 20000 };
    static char document[100 * ELEMENTS];
    unsigned counted = 0;
    int length = sprintf(document, "<all>");
    for (int i = 0; i < ELEMENTS; i++) {
        length += sprintf(document + length, "<item%d number='%d' name=\"n&amp;%d\">text &lt; %d</item%d>\n", i % 50, i, i * 7, i, i % 50);
    }
    length += sprintf(document + length, "</all>");
    XML_Parser parser = XML_ParserCreate(NULL);
    XML_SetUserData(parser, &counted);
    XML_SetStartElementHandler(parser, count);
    int status = XML_Parse(parser, document, length, 1);
    printf("long: %d, %u\n", status, counted);
    XML_ParserFree(parser);
}

int main(void) {
    parse(XML_ParserCreate(NULL), "<?xml version='1.0' encoding='utf-8'?><!DOCTYPE r [<!ENTITY e 'one &lt; two'><!ELEMENT r ANY>]>\n"
                                  "<r a='1' b=\"&amp;x\"><c>&e; h\xc3\xa9llo</c><![CDATA[raw <>]]><d/></r>");
    parse(XML_ParserCreateNS("iso-8859-1", '|'), "<a xmlns='u:x'>\n<b></a>");
    parse_long();
    return 0;
}
