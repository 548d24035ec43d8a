/* Expat: parses a document of its own tests in pieces of 4 KiB, without namespaces and with them. */
#include <stdio.h>
#include <string.h>

#include "embed.h"
#include "expat.h"

EMBED(text, "nes96.xml");

struct seen {
    unsigned elements, attributes, characters, others, deepest, depth, sum;
};

static void begin(void *user, const XML_Char *name, const XML_Char **attributes) {
    struct seen *it = user;
    it->elements++;
    it->sum = sum_of(it->sum, name, strlen(name));
    for (; *attributes; attributes += 2) {
        it->attributes++;
        it->sum = sum_of(it->sum, attributes[1], strlen(attributes[1]));
    }
    if (++it->depth > it->deepest) {
        it->deepest = it->depth;
    }
}

static void end(void *user, const XML_Char *name) {
    struct seen *it = user;
    (void)name;
    it->depth--;
}

static void characters(void *user, const XML_Char *text, int length) {
    struct seen *it = user;
    (void)text;
    it->characters += length;
}

static void comment(void *user, const XML_Char *text) {
    struct seen *it = user;
    it->others++;
    it->sum = sum_of(it->sum, text, strlen(text));
}

static int parse(XML_Parser parser, const char *how) {
    struct seen it = {.sum = SUM_START};
    XML_SetHashSalt(parser, 1);
    XML_SetUserData(parser, &it);
    XML_SetElementHandler(parser, begin, end);
    XML_SetCharacterDataHandler(parser, characters);
    XML_SetCommentHandler(parser, comment);
    for (unsigned long at = 0; at < LENGTH(text);) {
        unsigned long left = LENGTH(text) - at, piece = left < 4096 ? left : 4096;
        if (XML_Parse(parser, text + at, (int)piece, piece == left) != XML_STATUS_OK) {
            printf("%s: %s in line %lu\n", how, XML_ErrorString(XML_GetErrorCode(parser)), (unsigned long)XML_GetCurrentLineNumber(parser));
            return 1;
        }
        at += piece;
    }
    printf("%s: %u elements, %u attributes, %u characters, %u comments, depth %u, sum %08x\n", how, it.elements, it.attributes,
        it.characters, it.others, it.deepest, it.sum);
    XML_ParserFree(parser);
    return 0;
}

int main(void) {
    return parse(XML_ParserCreate(NULL), "plain") || parse(XML_ParserCreateNS(NULL, '|'), "namespaces");
}
