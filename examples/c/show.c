/*
 * Shows a profile: show FILE [CHILD...]
 * It checks the file, prints the node at the end of the path of children, counted from 0, and the whole with every line broken,
 * the size of each before it. Then the profile is emptied between the size and the text, and is not written.
 */
#include <errno.h>
#include <stdio.h>
#include <stdlib.h>
#include <string.h>

#include "sise.h"

/* A text, and the table of its nodes. */
struct profile {
    uint8_t *text;
    size_t text_len;
    uint32_t *table;
    size_t table_len;
};

/* Memory for so many elements, and never NULL: the library wants a pointer for none of them too. */
static void *memory(size_t count, size_t size) {
    void *block = calloc(count + 1, size);
    if (block == NULL) {
        fputs("show: no memory\n", stderr);
        exit(2);
    }
    return block;
}

/* What a refusal says, by its number. */
static const char *reason(uint32_t number) {
    switch (number) {
    case SISE_ILLEGAL_CHR: return "a character that begins nothing";
    case SISE_ILLEGAL_CHR_IN_STRING: return "a character that may not stand in a string";
    case SISE_ILLEGAL_CHR_IN_COMMENT: return "a character that may not stand in a comment";
    case SISE_UNFINISHED_STRING: return "the text ends inside a string";
    case SISE_UNEXPECTED_EOF: return "the text ends too early";
    case SISE_UNEXPECTED_RIGHT_PAREN: return "a ) that closes no list";
    case SISE_EXPECTED_EOF: return "more than one list or atom";
    case SISE_ILL_FORMED_CHR: return "bytes that are not UTF-8";
    case SISE_TEXT_TOO_LONG: return "too long";
    case SISE_NO_SUCH_NODE: return "no such node";
    case SISE_NO_ROOM: return "too long to be written";
    case SISE_SIZE_CHANGED: return "its size has changed";
    default: return "refused";
    }
}

/* Ends the program with what was refused. */
static void refuse(const char *what, uint32_t number, const uint64_t values[2]) {
    printf("%s: refused with %u", what, (unsigned)number);
    if (number <= SISE_ILL_FORMED_CHR) {
        printf(" at byte %llu", (unsigned long long)values[0]);
    }
    printf(": %s", reason(number));
    if (number <= SISE_ILLEGAL_CHR_IN_COMMENT) {
        printf(", U+%04llX", (unsigned long long)values[1]);
    }
    putchar('\n');
    exit(1);
}

static void read_text(const char *name, struct profile *profile) {
    FILE *file = fopen(name, "rb");
    if (file == NULL) {
        fprintf(stderr, "%s: %s\n", name, strerror(errno));
        exit(2);
    }
    /* One byte more than the longest text, so that a longer one is refused and not cut off. */
    profile->text = memory(SISE_LONGEST + 1, 1);
    profile->text_len = fread(profile->text, 1, SISE_LONGEST + 1, file);
    fclose(file);
}

/* Reads the text into a table of four words a byte, which is always enough. */
static uint64_t parse(const char *name, struct profile *profile) {
    uint64_t values[2];
    profile->table_len = 4 * profile->text_len;
    profile->table = memory(profile->table_len, sizeof(uint32_t));
    uint32_t number = sise_parse_tree(profile->text, profile->text_len, profile->table, profile->table_len, values);
    if (number != SISE_OK) {
        refuse(name, number, values);
    }
    return values[0];
}

/* The index of the node at the end of the path. */
static size_t find(const struct profile *profile, const uint64_t *path, size_t path_len) {
    uint64_t values[2];
    uint32_t number =
        sise_index_path(profile->table, profile->table_len, profile->text, profile->text_len, path, path_len, values);
    if (number != SISE_OK) {
        refuse("path", number, values);
    }
    return (size_t)values[0];
}

/* Every line is at least that long: each is broken. */
static const uint64_t EVERY_LINE = 0;

static const uint8_t LINE_BREAK[] = {'\n'}, INDENTATION[] = {' ', ' '};

/* The size of the text of a node's subtree, its lines broken at a threshold. */
static void measure(const struct profile *profile, size_t node, uint64_t threshold, uint64_t size[3]) {
    uint32_t number = sise_measure_tree(LINE_BREAK, sizeof(LINE_BREAK), INDENTATION, sizeof(INDENTATION), SISE_LONGEST,
                                        profile->text, profile->text_len, profile->table + 4 * node,
                                        profile->table_len - 4 * node, threshold, true, size);
    if (number != SISE_OK) {
        refuse("writing", number, size);
    }
}

/* Prints that text, if it is still of this size. */
static uint32_t commit(const struct profile *profile, size_t node, uint64_t threshold, const uint64_t size[3]) {
    uint64_t values[2];
    uint8_t *buf = memory((size_t)size[0], 1);
    uint32_t number = sise_commit_tree(LINE_BREAK, sizeof(LINE_BREAK), INDENTATION, sizeof(INDENTATION), buf,
                                       (size_t)size[0], profile->text, profile->text_len, profile->table + 4 * node,
                                       profile->table_len - 4 * node, threshold, true, size, values);
    if (number == SISE_OK) {
        fwrite(buf, 1, (size_t)values[0], stdout);
    }
    free(buf);
    return number;
}

/* Shows a text's size, and then the text. */
static void print(const struct profile *profile, size_t node, uint64_t threshold) {
    uint64_t size[3];
    measure(profile, node, threshold, size);
    printf("%llu bytes, %llu line breaks, %llu indentations\n", (unsigned long long)size[0], (unsigned long long)size[1],
           (unsigned long long)size[2]);
    uint32_t number = commit(profile, node, threshold, size);
    if (number != SISE_OK) {
        refuse("writing", number, size);
    }
}

/* Another program empties the profile after its size was shown: nothing is written. */
static void print_emptied(const struct profile *profile) {
    uint64_t size[3];
    measure(profile, 0, EVERY_LINE, size);
    uint8_t text[2] = {'(', ')'};
    struct profile emptied = {text, sizeof(text), NULL, 0};
    parse("emptied", &emptied);
    uint32_t number = commit(&emptied, 0, EVERY_LINE, size);
    if (number != SISE_OK) {
        printf("emptied: refused with %u: %s\n", (unsigned)number, reason(number));
    }
    free(emptied.table);
}

int main(int argc, char **argv) {
    if (argc < 2) {
        fputs("show FILE [CHILD...]\n", stderr);
        return 2;
    }
    size_t path_len = (size_t)argc - 2;
    uint64_t *path = memory(path_len, sizeof(uint64_t));
    for (size_t step = 0; step < path_len; step++) {
        path[step] = strtoull(argv[2 + step], NULL, 10);
    }
    struct profile profile;
    read_text(argv[1], &profile);
    printf("%s: %llu nodes\n", argv[1], (unsigned long long)parse(argv[1], &profile));
    print(&profile, find(&profile, path, path_len), SISE_ONE_LINE);
    print(&profile, 0, EVERY_LINE);
    print_emptied(&profile);
    free(profile.table);
    free(profile.text);
    free(path);
    return 0;
}
