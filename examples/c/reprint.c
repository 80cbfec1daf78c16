/*
 * Reprints a profile: reprint FILE [THRESHOLD]
 * It prints the file's tree in house style, its lines broken at the threshold (72, if none is named), and names on standard error what is lost: the
 * comments, each with its line. All else is kept, atoms byte for byte. A reprint at the same threshold is printed as it is.
 */
#include <errno.h>
#include <inttypes.h>
#include <stdio.h>
#include <stdlib.h>
#include <string.h>

#include "sise.h"

/* Memory for so many elements, and never NULL: the library wants a pointer for none of them too. */
static void *memory(size_t count, size_t size) {
    void *block = calloc(count + 1, size);
    if (block == NULL) {
        fputs("reprint: no memory\n", stderr);
        exit(2);
    }
    return block;
}

/* Ends the program with what was refused. */
static void refuse(const char *name, uint32_t number, const uint64_t values[2]) {
    fprintf(stderr, "%s: refused with %" PRIu32, name, number);
    if (number <= SISE_ILL_FORMED_CHR) {
        fprintf(stderr, " at byte %" PRIu64, values[0]);
    }
    fputc('\n', stderr);
    exit(1);
}

/* The file's bytes, one more than the longest text at most, so that a longer one is refused and not cut off. */
static uint8_t *read_text(const char *name, size_t *len) {
    FILE *file = fopen(name, "rb");
    if (file == NULL) {
        fprintf(stderr, "%s: %s\n", name, strerror(errno));
        exit(2);
    }
    uint8_t *text = memory(SISE_LONGEST + 1, 1);
    *len = fread(text, 1, SISE_LONGEST + 1, file);
    fclose(file);
    return text;
}

/* Names the comments: a `;` begins one, up to the line's end, where it is in no atom. The table says where the atoms lie. */
static void name_comments(const char *name, const uint8_t *text, size_t len, const uint32_t *table, size_t nodes) {
    size_t node = 0, line = 1, comments = 0;
    for (size_t at = 0; at < len; at++) {
        while (node < nodes && (table[4 * node] == 0 || table[4 * node + 1] < at)) {
            node++;
        }
        if (node < nodes && table[4 * node + 1] == at) {
            at += table[4 * node + 2] - 1;
        } else if (text[at] == ';') {
            size_t end = at;
            while (end < len && text[end] != '\n' && text[end] != '\r') {
                end++;
            }
            fprintf(stderr, "%s:%zu: lost: %.*s\n", name, line, (int)(end - at), (const char *)text + at);
            comments++;
            at = end - 1;
        } else if (text[at] == '\n') {
            line++;
        }
    }
    fprintf(stderr, "%s: %zu comments lost\n", name, comments);
}

int main(int argc, char **argv) {
    if (argc < 2) {
        fputs("reprint FILE [THRESHOLD]\n", stderr);
        return 2;
    }
    const char *name = argv[1];
    uint64_t threshold = argc > 2 ? strtoull(argv[2], NULL, 10) : SISE_HOUSE_THRESHOLD;
    size_t len;
    uint8_t *text = read_text(name, &len);
    uint32_t *table = memory(4 * len, sizeof(uint32_t));
    uint8_t *buf = memory(SISE_LONGEST, 1);
    uint64_t values[2];
    uint32_t number = sise_parse_tree(text, len, table, 4 * len, values);
    if (number != SISE_OK) {
        refuse(name, number, values);
    }
    size_t nodes = (size_t)values[0];
    number = sise_serialize_tree((const uint8_t *)"\n", 1, (const uint8_t *)"  ", 2, buf, SISE_LONGEST, text, len, table,
                                 4 * nodes, threshold, true, values);
    if (number != SISE_OK) {
        refuse(name, number, values);
    }
    fwrite(buf, 1, (size_t)values[0], stdout);
    name_comments(name, text, len, table, nodes);
    free(buf);
    free(table);
    free(text);
    return 0;
}
