/* Holds every line `VECTOR => WHAT` of standard input against hiredis's reader: prints the lines on which the two differ, with what hiredis says, and how many
   agree. hiredis reads a vector where its reader answers one reply and has no byte left. How to build it: README.md. */
#include <stdio.h>
#include <string.h>
#include "hiredis.h"

/* by hiredis's numbers of kinds */
static const char *kinds[] = {"?", "blob string", "array", "number", "null", "simple string", "simple error", "double",
                              "boolean", "map", "set", "attribute", "push", "big number", "verbatim string"};

/* the bytes that a vector spells */
static size_t unescape(const char *line, size_t len, char *b) {
    size_t n = 0;
    for (size_t i = 0; i < len; i++) {
        char c = line[i];
        if (c == '\\') {
            c = line[++i];
            c = c == 'r' ? '\r' : c == 'n' ? '\n' : c;
        }
        b[n++] = c;
    }
    return n;
}

int main(void) {
    char line[8192], b[8192];
    int agree = 0, differ = 0;
    while (fgets(line, sizeof line, stdin)) {
        line[strcspn(line, "\n")] = 0;
        char *what = strstr(line, " => ");
        if (!what) continue;
        size_t n = unescape(line, what - line, b);
        redisReader *r = redisReaderCreate();
        void *reply = NULL;
        redisReaderFeed(r, b, n);
        const char *says = redisReaderGetReply(r, &reply) != REDIS_OK ? r->errstr
                           : !reply                                    ? "it ends early"
                           : r->pos != r->len                          ? "bytes trail"
                                                                       : NULL;
        const char *kind = says ? "refused" : kinds[((redisReply *)reply)->type];
        if (!strncmp(what + 4, kind, strlen(kind)))
            agree++;
        else {
            differ++;
            printf("%s; hiredis: %s%s%s\n", line, kind, says ? ": " : "", says ? says : "");
        }
        if (reply) freeReplyObject(reply);
        redisReaderFree(r);
    }
    printf("%d agree, %d differ\n", agree, differ);
    return 0;
}
