/*
 * Makes each call of the library with arguments that all differ, and prints all that it answers and writes. A call whose
 * arguments came in another order would print something else. The texts at the limit come last.
 */
#include <stdio.h>
#include <stdlib.h>
#include <string.h>

#include "sise.h"

/* A string's bytes and their number, as two arguments. */
#define BYTES(string) (const uint8_t *)(string), sizeof(string) - 1

/* The style: two strings of different lengths. */
#define LINE_BREAK BYTES("\r\n")
#define INDENTATION BYTES("\t\t\t")

#define PROFILE "(stage (x -57.5) y)"

enum { NODES = 6, ITEMS = 8, BUFFER = 48 };

/* What stands in lent memory before a call. */
enum { UNTOUCHED = 46 };

static void print_result(const char *call, uint32_t number, const uint64_t values[2]) {
    printf("%s: %u, %llu %llu\n", call, (unsigned)number, (unsigned long long)values[0], (unsigned long long)values[1]);
}

static void print_bytes(const uint8_t *bytes, size_t len) {
    for (size_t i = 0; i < len; i++) {
        switch (bytes[i]) {
        case '\r': fputs("\\r", stdout); break;
        case '\n': fputs("\\n", stdout); break;
        case '\t': fputs("\\t", stdout); break;
        default: putchar(bytes[i]);
        }
    }
    putchar('\n');
}

/* Prints the words in a line, behind the call's number. */
static void print_line(const char *call, uint32_t number, const uint64_t *words, size_t len) {
    printf("%s: %u,", call, (unsigned)number);
    for (size_t i = 0; i < len; i++) {
        printf(" %llu", (unsigned long long)words[i]);
    }
    putchar('\n');
}

/* Prints the words, four a line. */
static void print_words(const uint64_t *words, size_t len) {
    for (size_t i = 0; i < len; i++) {
        printf("%llu%c", (unsigned long long)words[i], i % 4 == 3 || i + 1 == len ? '\n' : ' ');
    }
}

static void print_table(const uint32_t *table, size_t len) {
    for (size_t i = 0; i < len; i++) {
        printf("%lu%c", (unsigned long)table[i], i % 4 == 3 || i + 1 == len ? '\n' : ' ');
    }
}

static void check_atoms(void) {
    printf("sise_check_atom: %u\n", (unsigned)sise_check_atom(BYTES("x\" \"")));
    printf("sise_check_atom: %u\n", (unsigned)sise_check_atom(BYTES("x y")));
}

/* An atom of each kind, and no atom. */
static void print_kinds(void) {
    printf("sise_atom_kind: %u\n", (unsigned)sise_atom_kind(BYTES("x")));
    printf("sise_atom_kind: %u\n", (unsigned)sise_atom_kind(BYTES("\"a b\"")));
    printf("sise_atom_kind: %u\n", (unsigned)sise_atom_kind(BYTES("x\"y\"")));
    printf("sise_atom_kind: %u\n", (unsigned)sise_atom_kind(BYTES("x y")));
}

/* Reads the profile into the table, and a text that is refused into none of it. */
static void read_table(uint32_t table[4 * NODES + 1]) {
    uint64_t values[2] = {UNTOUCHED, UNTOUCHED};
    for (size_t i = 0; i < 4 * NODES + 1; i++) {
        table[i] = UNTOUCHED;
    }
    uint32_t number = sise_parse_tree(BYTES("(a ,)"), table, 4 * NODES + 1, values);
    print_result("sise_parse_tree", number, values);
    number = sise_parse_tree(BYTES(PROFILE), table, 4 * NODES + 1, values);
    print_result("sise_parse_tree", number, values);
    print_table(table, 4 * NODES + 1);
}

static void find_node(const uint32_t *table) {
    uint64_t values[2] = {UNTOUCHED, UNTOUCHED};
    const uint64_t path[2] = {1, 0};
    uint32_t number = sise_index_path(table, 4 * NODES, BYTES(PROFILE), path, 2, values);
    print_result("sise_index_path", number, values);
    values[0] = values[1] = UNTOUCHED;
    number = sise_find_path(table, 4 * NODES, BYTES(PROFILE), path, 2, values);
    print_result("sise_find_path", number, values);
}

static void write_table(const uint32_t *table) {
    uint64_t values[2] = {UNTOUCHED, UNTOUCHED};
    uint8_t buf[BUFFER];
    memset(buf, UNTOUCHED, BUFFER);
    uint32_t number =
        sise_serialize_tree(LINE_BREAK, INDENTATION, buf, BUFFER, BYTES(PROFILE), table, 4 * NODES, 9, true, values);
    print_result("sise_serialize_tree", number, values);
    print_bytes(buf, BUFFER);
}

static void print_size(uint32_t number, const uint64_t size[3]) {
    printf("sise_measure_tree: %u, %llu %llu %llu\n", (unsigned)number, (unsigned long long)size[0],
           (unsigned long long)size[1], (unsigned long long)size[2]);
}

static void print_committed(const uint32_t *table, uint8_t *buf, const uint64_t size[3]) {
    uint64_t values[2] = {UNTOUCHED, UNTOUCHED};
    uint32_t number = sise_commit_tree(LINE_BREAK, INDENTATION, buf, BUFFER, BYTES(PROFILE), table, 4 * NODES, 9, true, size,
                                       values);
    print_result("sise_commit_tree", number, values);
    print_bytes(buf, BUFFER);
}

/* Measures the profile in a buffer that is a byte short, and in one that holds it; commits it with that size, and with breaks
 * and indents exchanged. */
static void commit_table(const uint32_t *table) {
    uint64_t size[3] = {UNTOUCHED, UNTOUCHED, UNTOUCHED};
    uint8_t buf[BUFFER];
    memset(buf, UNTOUCHED, BUFFER);
    print_size(sise_measure_tree(LINE_BREAK, INDENTATION, 34, BYTES(PROFILE), table, 4 * NODES, 9, true, size), size);
    print_size(sise_measure_tree(LINE_BREAK, INDENTATION, BUFFER, BYTES(PROFILE), table, 4 * NODES, 9, true, size), size);
    const uint64_t exchanged[3] = {size[0], size[2], size[1]};
    print_committed(table, buf, exchanged);
    print_committed(table, buf, size);
}

/* Reads a profile of more than one line, and prints it in house style. */
static void write_house(void) {
    static const char text[] = "(stage (x -57.5 57.5) (y -40.0 40.0) (z 0.0 25.0) (speed 12.5 12.5 0.8) (name \"bench 3\"))";
    uint64_t values[2] = {UNTOUCHED, UNTOUCHED};
    uint32_t table[4 * sizeof(text)];
    uint8_t buf[2 * sizeof(text)];
    print_result("a profile", sise_parse_tree(BYTES(text), table, 4 * sizeof(text), values), values);
    uint32_t number = sise_serialize_tree(BYTES("\n"), BYTES("  "), buf, sizeof(buf), BYTES(text), table, 4 * sizeof(text),
                                          SISE_HOUSE_THRESHOLD, true, values);
    print_result("in house style", number, values);
    fwrite(buf, 1, (size_t)values[0], stdout);
}

/* Reads the profile's items, makes them calls at the threshold 9 with a finish behind them, and writes them again. */
static void write_items(void) {
    uint64_t values[2] = {UNTOUCHED, UNTOUCHED};
    uint64_t words[4 * ITEMS + 4], answers[ITEMS + 2];
    uint8_t buf[BUFFER];
    memset(buf, UNTOUCHED, BUFFER);
    for (size_t i = 0; i < 4 * ITEMS + 4; i++) {
        words[i] = UNTOUCHED;
    }
    for (size_t i = 0; i < ITEMS + 2; i++) {
        answers[i] = UNTOUCHED;
    }
    uint32_t number = sise_read_items(BYTES("(a ,)"), words, 4 * ITEMS + 4, values);
    print_result("sise_read_items", number, values);
    number = sise_read_items(BYTES(PROFILE), words, 4 * ITEMS + 4, values);
    print_result("sise_read_items", number, values);
    print_words(words, 4 * ITEMS + 4);
    for (size_t i = 0; i < ITEMS; i++) {
        words[4 * i + 3] = 9;
    }
    words[4 * ITEMS] = 4;
    uint64_t ran[1] = {UNTOUCHED};
    uint64_t written = sise_write_calls(words, 4 * ITEMS + 4, BYTES(PROFILE), LINE_BREAK, INDENTATION, buf, BUFFER, answers,
                                        ITEMS + 2, ran);
    printf("sise_write_calls: %llu, %llu\n", (unsigned long long)written, (unsigned long long)ran[0]);
    print_words(answers, ITEMS + 2);
    print_bytes(buf, BUFFER);
}

/* Reads a text item by item up to its first refusal, reads on behind that, and asks twice whether the text ends. */
static void read_one_by_one(void) {
    uint64_t record[3] = {0}, item[3] = {UNTOUCHED, UNTOUCHED, UNTOUCHED}, values[2] = {UNTOUCHED, UNTOUCHED};
    for (int i = 0; i < 5; i++) {
        uint32_t number = sise_next_item(BYTES("(ab ,) c"), record, item);
        print_line("sise_next_item", number, item, 3);
        print_line("its record", number, record, 3);
        number = sise_finish_reading(BYTES("(ab ,) c"), record, values);
        print_result("sise_finish_reading", number, values);
    }
}

/* Reads a list's children as trees, past a refusal, up to its `)`. */
static void read_children(void) {
    uint64_t record[3] = {0}, item[3] = {UNTOUCHED, UNTOUCHED, UNTOUCHED}, values[2] = {UNTOUCHED, UNTOUCHED};
    uint32_t table[14];
    uint32_t number = sise_next_item(BYTES("((ab c) ,d)"), record, item);
    print_line("sise_next_item", number, item, 3);
    for (int i = 0; i < 5; i++) {
        for (size_t k = 0; k < 14; k++) {
            table[k] = UNTOUCHED;
        }
        number = sise_next_tree(BYTES("((ab c) ,d)"), record, table, i == 0 ? 11 : 14, values);
        print_result("sise_next_tree", number, values);
        print_line("its record", number, record, 3);
        print_table(table, 14);
    }
}

/* Prints what a call answers, and the record and the buffer that it leaves. */
static void print_call(const char *call, uint32_t number, const uint64_t values[2], const uint64_t record[9], const uint8_t *buf) {
    print_result(call, number, values);
    print_line("its record", number, record, 9);
    print_bytes(buf, BUFFER);
}

/* Writes a list one call after the other. */
static void write_one_by_one(void) {
    uint64_t record[9] = {0}, values[2] = {UNTOUCHED, UNTOUCHED};
    uint8_t buf[BUFFER];
    memset(buf, UNTOUCHED, BUFFER);
    uint32_t number = sise_begin_list(LINE_BREAK, INDENTATION, buf, BUFFER, 7, record, values);
    print_call("sise_begin_list", number, values, record, buf);
    number = sise_put_atom(LINE_BREAK, INDENTATION, buf, BUFFER, BYTES("abcdef"), 7, record, values);
    print_call("sise_put_atom", number, values, record, buf);
    number = sise_begin_list(LINE_BREAK, INDENTATION, buf, BUFFER, 7, record, values);
    print_call("sise_begin_list", number, values, record, buf);
    number = sise_put_atom(LINE_BREAK, INDENTATION, buf, BUFFER, BYTES("g h"), 7, record, values);
    print_call("sise_put_atom", number, values, record, buf);
    for (int i = 0; i < 3; i++) {
        number = sise_end_list(LINE_BREAK, INDENTATION, buf, BUFFER, record, values);
        print_call("sise_end_list", number, values, record, buf);
    }
    number = sise_finish_writing(LINE_BREAK, INDENTATION, buf, BUFFER, true, record, values);
    print_call("sise_finish_writing", number, values, record, buf);
    record[4] = 2;
    number = sise_end_list(LINE_BREAK, INDENTATION, buf, BUFFER, record, values);
    print_call("sise_end_list", number, values, record, buf);
}

/* Puts a subtree of the profile into a list, until it has no room. */
static void put_children(const uint32_t *table) {
    uint64_t record[9] = {0}, values[2] = {UNTOUCHED, UNTOUCHED};
    uint8_t buf[BUFFER];
    memset(buf, UNTOUCHED, BUFFER);
    uint32_t number = sise_begin_list(LINE_BREAK, INDENTATION, buf, BUFFER, 7, record, values);
    print_call("sise_begin_list", number, values, record, buf);
    for (int i = 0; i < 4; i++) {
        number = sise_put_tree(LINE_BREAK, INDENTATION, buf, BUFFER, BYTES(PROFILE), table + 8, 4 * NODES + 1 - 8, 7, record,
                               values);
        print_call("sise_put_tree", number, values, record, buf);
    }
}

/* A text of spaces as long as a tree call reads, and one of a byte more: row 13 of document 01. */
static void read_longest(void) {
    uint64_t values[2] = {UNTOUCHED, UNTOUCHED};
    uint32_t table[4] = {0};
    uint8_t *text = malloc(SISE_LONGEST + 1);
    if (text == NULL) {
        fputs("calls: no memory\n", stderr);
        exit(2);
    }
    memset(text, ' ', SISE_LONGEST + 1);
    print_result("16777216 spaces", sise_parse_tree(text, SISE_LONGEST, table, 4, values), values);
    values[0] = values[1] = UNTOUCHED;
    print_result("16777217 spaces", sise_parse_tree(text, SISE_LONGEST + 1, table, 4, values), values);
    free(text);
}

int main(void) {
    uint32_t table[4 * NODES + 1];
    check_atoms();
    print_kinds();
    read_table(table);
    find_node(table);
    write_table(table);
    commit_table(table);
    write_house();
    write_items();
    read_one_by_one();
    write_one_by_one();
    read_children();
    put_children(table);
    read_longest();
    return 0;
}
