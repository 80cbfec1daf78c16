/*
 * SISE profiles, proved: the calls of the static library sise_c for programs in C. C11.
 *
 *     tools/build sise_c                                         writes target/staticlib/libsise_c.a (Linux on x86-64)
 *     cc -I include program.c target/staticlib/libsise_c.a       links it; it needs no other library
 *
 * A text is bytes: one node, which is an atom or a list of nodes, as in (stage (x -12.5 "a b")). Space, tab, LF and CR may stand
 * between them, and so may a comment, from `;` to the line's end. Most calls do a whole job: they check an atom or say its
 * kind, read a text into a table, find a node in a table, write a table's tree as a text, or measure it first and then commit
 * it, read a text's items into words, or run a list of writer calls. The last eight are the reader's and the writer's own
 * calls, item by item or a node at a time. examples/c/show.c is a small program over them; examples/c/calls.c makes each call
 * with all that it takes and prints all that it gives.
 *
 * Memory. The caller owns all memory and lends it for the time of the call: no call allocates, keeps a pointer, has a state
 * of its own, recurses, or touches a byte outside of what it was lent. Lent memory crosses as a pointer and a number of
 * elements, bytes of a uint8_t pointer, words of a uint32_t or uint64_t pointer; where the number stands in the declaration,
 * as in values[2], as a pointer alone. The caller owes three things, without which the behaviour is undefined:
 *   - The pointer is aligned and points to at least so many elements. With the number 0 it may be any pointer, NULL too.
 *   - What the call writes (a pointer that is not to const) overlaps nothing else that the same call is lent.
 *   - No other thread writes what is lent while the call runs, or reads what the call writes.
 * Nothing else is undefined: any bytes may be lent as a text, an atom or a style, and any words as a table, a path, a list of
 * calls or a record. What they are is tested, and refused by a number.
 *
 * Costs. A call takes time in proportion to what is said of it, and a fixed amount of stack, whatever it is lent.
 *
 * Results. A call that returns uint32_t returns 0, or a refusal's number (below); of a refusal nothing is written but `values`,
 * by sise_next_item its item and its record, and by sise_next_tree its record. Only sise_atom_kind, which refuses nothing,
 * returns a kind there. `values` are two words, which a call that takes them always writes. Where it is not refused, values[0]
 * is what it answers and values[1] is 0; only sise_find_path answers in both. Of a refusal in the text (1 to 8, 12), values[0]
 * is the place, a byte's offset from 0, and values[1] the code point found there (of 1 to 3, else 0). Of any other refusal both
 * are 0. Where a call has several reasons to refuse, it gives the first in the order that is said of it.
 *
 * From fault to fault. The place of 1, 2, 3 and 8 is that of a character's first byte. A character that is cut off or broken
 * is one fault, as in an editor: it has the bytes from there on that are a start of a well-formed character, at least one, and
 * the next place to look at is the byte behind them. After 0xE2 0x82 that is two bytes on, after 0xC0 one.
 *
 * Reprints. A text is reprinted by sise_parse_tree and then sise_serialize_tree in house style (below), at a threshold that is
 * kept to. Its comments are lost, and nothing else but its layout. Reprinted again at the same threshold, a reprint is the same,
 * byte for byte; and two texts reprint alike exactly if their trees are equal, atoms by their bytes. examples/c/reprint.c.
 *
 * Tables. A tree is held in a table of 32-bit words, four a node, a list's children after it in order:
 *     an atom:  its kind 1, 2 or 3, place of its first byte in the text, number of bytes, 1
 *     a list:   0, number of children, distance in nodes back to its parent, number of nodes in it with itself
 * The kind is what sise_atom_kind says of the atom's bytes: 1 plain, 2 one whole string, 3 any other atom. A table with another
 * first word holds no tree over the text; where the bytes are no atom, each of the three may stand there.
 * A list's parent is the list that it stands in: if the list is node i and its distance d, the parent is node i - d. The text's
 * own list has no parent, and 0 there. A table has no text of its own: the calls want the text beside it. In the first node that
 * is lent the distance is not looked at, and neither are the words after that node's own, so the subtree of node i is the table
 * from word 4 * i on. The tree calls but sise_find_path look at the whole table before they trust it, whoever wrote it. A text
 * of n bytes has at most n nodes: 4 * n words are always enough. Lists may nest as deep as the text is long.
 */
#ifndef SISE_H
#define SISE_H

#include <stdbool.h>
#include <stddef.h>
#include <stdint.h>

#ifdef __cplusplus
extern "C" {
#endif

/* The most bytes of a text that a tree call reads, and the most that any call writes. */
#define SISE_LONGEST 16777216

/* The largest threshold: no line is ever broken. */
#define SISE_ONE_LINE UINT64_MAX

/* The threshold of the house style. */
#define SISE_HOUSE_THRESHOLD 72

/* Refusals. 21 is no longer given. */
enum sise_refusal {
    SISE_OK = 0,
    /* In a text, with a place. */
    SISE_ILLEGAL_CHR = 1,            /* a character that begins no token; its code point */
    SISE_ILLEGAL_CHR_IN_STRING = 2,  /* a character that may not stand in a string; its code point */
    SISE_ILLEGAL_CHR_IN_COMMENT = 3, /* a character that may not stand in a comment; its code point */
    SISE_UNFINISHED_STRING = 4,      /* the text ends inside a string */
    SISE_UNEXPECTED_EOF = 5,         /* the text ends where an item is due */
    SISE_UNEXPECTED_RIGHT_PAREN = 6, /* a `)` where no list is open */
    SISE_EXPECTED_EOF = 7,           /* something stands behind the text's one node */
    SISE_ILL_FORMED_CHR = 8,         /* a broken character: bytes that are not UTF-8 (RFC 3629) */
    /* Of a record; without a place. */
    SISE_PARSING_FINISHED = 9,      /* the last item is read */
    SISE_PARSING_NOT_FINISHED = 10, /* finish before the last item is read */
    SISE_UNSOUND_RECORD = 11,       /* words that cannot stand in a record, or not beside each other */
    /* Of a node that is read in the middle of a text; with a place. */
    SISE_NODE_EXPECTED = 12, /* a list closes where a node is due */
    /* Of what is lent. */
    SISE_TEXT_TOO_LONG = 13, /* the text has more than SISE_LONGEST bytes */
    SISE_TABLE_FULL = 14,    /* the memory has no room for what was read */
    SISE_NOT_A_TREE = 15,    /* the table holds no tree over this text, as one with the first word 4 */
    SISE_NO_SUCH_NODE = 16,  /* no node at the end of the path */
    SISE_INVALID_ATOM = 17,  /* the bytes are no atom */
    /* Of the writer. */
    SISE_NO_LIST_TO_END = 18,       /* no list is open yet */
    SISE_WRITING_FINISHED = 19,     /* the node is whole, or finish was called */
    SISE_WRITING_NOT_FINISHED = 20, /* finish before the node is whole */
    SISE_NO_ROOM = 22,              /* the text would pass the buffer's end, or SISE_LONGEST */
    SISE_SIZE_CHANGED = 23          /* the size handed to sise_commit_tree is not that of its text */
};

/*
 * Whether the bytes are an atom: one or more of letters, digits, ! # $ % & * + - . / : < = > ? @ _ ~ and strings. A string
 * stands between two `"`: bytes from space to `~`, where a `\` takes the byte behind it along, and a `"` stands only so.
 * Refused: 17. Cost: the bytes.
 */
uint32_t sise_check_atom(const uint8_t *atom, size_t atom_len);

/*
 * Which atom the bytes are, as a program that colours strings wants to know: 1 plain, with no `"` in it, as x; 2 one whole
 * string, as "a b" or "\""; 3 any other atom, as x"y" or "a""b"; 0 no atom, where sise_check_atom gives 17. It is the first
 * word of such an atom in a table. Cost: the bytes.
 */
uint32_t sise_atom_kind(const uint8_t *atom, size_t atom_len);

/*
 * Reads a whole text, which is one node with blanks and comments around it, into the first words of the table; the words
 * after them stay as they are. Answers the number of nodes.
 * Refused: 13; the first refusal in the text (1 to 8); 14, if the table has fewer than four words a node.
 * Cost: the text's bytes.
 */
uint32_t sise_parse_tree(const uint8_t *text, size_t text_len, uint32_t *table, size_t table_len, uint64_t values[2]);

/*
 * Finds the node that a path leads to from the table's first node, each step a child's number from 0. Answers the node's
 * index i: its words are table[4 * i] to table[4 * i + 3]. A path of no steps leads to node 0, the first.
 * Refused: 13; 15; 16, if a list has too few children, or a step goes into an atom.
 * Cost: the nodes of the table's first node, all of which are tested, and the bytes of their atoms.
 */
uint32_t sise_index_path(const uint32_t *table, size_t table_len, const uint8_t *text, size_t text_len, const uint64_t *path,
                         size_t path_len, uint64_t values[2]);

/*
 * Finds the same node, but reads only the nodes on the way to it: the first, then at each list its children up to the wanted
 * one. Answers the node's index in values[0], and in values[1] the number of nodes looked at: 1, and s + 1 for each step s.
 * Which of the two to take: sise_index_path looks at every node of the table and at the bytes of every atom before it answers,
 * so it takes a table from anyone, and its time grows with the table. sise_find_path does not test the table: it is for one
 * that sise_parse_tree has filled or another tree call has accepted, and that nobody has changed since. There both find the
 * same, and the time of this one grows with values[1] alone, which is at most the index + 1. In any other table it follows the
 * words as they stand, inside the table, and what it finds may be no node of a tree: each first word but 0 is an atom's, a
 * child is passed by its fourth word, and third words are not looked at. Of the text only the length is looked at.
 * Refused: 13; then whichever is met first on the way: 15, where a node to be read is not whole inside the table, or a child is
 * to be passed by 0 nodes; 16, where a step goes into an atom, or its number is not below the list's number of children, of
 * which none is read then.
 */
uint32_t sise_find_path(const uint32_t *table, size_t table_len, const uint8_t *text, size_t text_len, const uint64_t *path,
                        size_t path_len, uint64_t values[2]);

/*
 * Writes the tree of the table's first node to the start of the buffer; the bytes after it stay as they are. Answers the
 * number of bytes written.
 * In a list, an atom or a list goes to a new line, behind one indentation for each open list, where the line is break_line_at
 * bytes long or longer; else behind a space, a first child behind none. A first child that is an atom stays on the line of its
 * `(`. A list that has a line broken in it closes on a line of its own. 0 breaks every line, SISE_ONE_LINE none.
 * With final_break a line_break is written behind the tree. House style is "\n", "  ", SISE_HOUSE_THRESHOLD and true; a program
 * that wants every line broken names 0. Both strings are written as they are: only if they are blank (space, tab, LF, CR) and
 * line_break is not empty does the text read back as this tree.
 * Refused: 13; 15; 17, if what the table calls an atom is none; 22, which sise_measure_tree says beforehand.
 * Cost: the nodes, the bytes of their atoms, and the bytes written.
 */
uint32_t sise_serialize_tree(const uint8_t *line_break, size_t line_break_len, const uint8_t *indentation,
                             size_t indentation_len, uint8_t *buf, size_t buf_len, const uint8_t *text, size_t text_len,
                             const uint32_t *table, size_t table_len, uint64_t break_line_at, bool final_break,
                             uint64_t values[2]);

/*
 * Size first: what sise_serialize_tree would write of the same tree in the same layout, with a buffer of buf_len bytes. size[0]
 * is the number of bytes, size[1] that of line breaks and size[2] that of indentations; of a refusal all three are 0. Nothing
 * else is written. In every buffer that holds the text its size is the same: a program that has no buffer yet asks with
 * SISE_LONGEST and lends one of size[0] bytes.
 * Refused: 13; 15; 17; 22, where the text would pass buf_len or SISE_LONGEST.
 * Cost: the nodes, and the bytes of their atoms.
 */
uint32_t sise_measure_tree(const uint8_t *line_break, size_t line_break_len, const uint8_t *indentation,
                           size_t indentation_len, size_t buf_len, const uint8_t *text, size_t text_len,
                           const uint32_t *table, size_t table_len, uint64_t break_line_at, bool final_break,
                           uint64_t size[3]);

/*
 * Then the text: writes the tree as sise_serialize_tree does, and answers the same, if the size is what sise_measure_tree
 * gives now with a buffer of this length. If it is another one, as where the profile or the layout has changed since, the
 * commit is refused with 23, and nothing is written. The three words of a refused sise_measure_tree are no size.
 * Refused: 13; 15; 17; 22; 23.
 * Cost: that of sise_serialize_tree.
 */
uint32_t sise_commit_tree(const uint8_t *line_break, size_t line_break_len, const uint8_t *indentation,
                          size_t indentation_len, uint8_t *buf, size_t buf_len, const uint8_t *text, size_t text_len,
                          const uint32_t *table, size_t table_len, uint64_t break_line_at, bool final_break,
                          const uint64_t size[3], uint64_t values[2]);

/*
 * Reads the items of a whole text into the first words, four an item; the words after them stay as they are. Answers the number
 * of items. A text of n bytes has at most n items: 4 * n words are always enough.
 *     an atom:      0, place of its first byte, number of bytes, 0
 *     a list start: 1, place of its `(`, 0, 0
 *     a list end:   2, place of its `)`, 0, 0
 * These are the words of the calls that write the items again: with a threshold in the fourth word of each, and the four of a
 * finish behind them, sise_write_calls takes them, with the text for its atoms.
 * Refused: the first refusal in the text (1 to 8); 14, if there are fewer than four words an item.
 * Cost: the text's bytes.
 */
uint32_t sise_read_items(const uint8_t *text, size_t text_len, uint64_t *words, size_t words_len, uint64_t values[2]);

/*
 * Runs a list of writer calls from the start of the buffer, and returns how many bytes are written; ran[0] is how many calls
 * ran. A call is four words:
 *     0, place, length, threshold    put_atom: the atom is so many bytes of atoms, from that place on
 *     1, 0, 0, threshold             begin_list
 *     2, 0, 0, 0                     end_list
 *     3 or 4, 0, 0, 0                finish: without, or with a line_break behind the text
 * (a word that is shown as 0 is not looked at). A threshold is one call's break_line_at. It stops at a first word above 4, at
 * a rest of fewer than four words, and where no answer word is left. Call k, counted from 0, writes answers[k]: the
 * offset of what it wrote, or 2^32 plus the number of its refusal, which leaves the buffer as it was; the next call runs all the
 * same.
 * Refused: put_atom 17, 19, 22; begin_list 19, 22; end_list 18 or 19, 22; finish 20 or 19, 22.
 * Cost: the calls, the bytes of their atoms, and the bytes written.
 */
uint64_t sise_write_calls(const uint64_t *words, size_t words_len, const uint8_t *atoms, size_t atoms_len,
                          const uint8_t *line_break, size_t line_break_len, const uint8_t *indentation,
                          size_t indentation_len, uint8_t *buf, size_t buf_len, uint64_t *answers, size_t answers_len,
                          uint64_t ran[1]);

/*
 * Item by item, or a node at a time. These calls take a record: words that the caller keeps, all 0 before the first call, and
 * lends to each call with the same text, or the same buffer. A call finds there where the last one stopped, and leaves where it
 * stopped itself; which call comes next is the caller's choice. A program that has several texts under way has a record for each.
 * Any words may be lent as a record. If one is out of its range, or they cannot stand beside each other, the call is refused
 * with 11 before anything else but 13, and the words stay as they are. What the calls leave is never refused so.
 */

/*
 * Reads the next item. The record:
 *     record[0]  position in the text, at most text_len
 *     record[1]  phase: 0 before the first item, 1 inside the outermost list, 2 after the last item
 *     record[2]  open lists, at most the position; at least 1 in phase 1, else 0
 * On 0, item is the kind (0 an atom, 1 a list start, 2 a list end), the place and, of an atom, the number of bytes, else 0.
 * On a refusal item is 0, the place and the code point, as `values` have them. A refusal in the text leaves phase and lists,
 * and the next call reads on behind it: 1 to 3 move past the character, 8 past the broken one, 6 past the `)`, 4 and 5 to the
 * end. 9 and 11 move nothing.
 * Refused: 11; 9; the text's (1 to 6, 8). Cost: the bytes from the position to the one that is left.
 */
uint32_t sise_next_item(const uint8_t *text, size_t text_len, uint64_t record[3], uint64_t item[3]);

/*
 * Reads the node due, which is an atom or a list to its end, into the first words of the table; the words after them stay as
 * they are. Answers the number of nodes. The record is that of sise_next_item, and serves in the middle of a list too: the node
 * is then the list's next child. In the table it is a tree of its own; its atoms' places are those in the whole text, which is
 * to be lent beside the table.
 * On a refusal the table stays as it is. 12 and one in the text (1 to 6, 8) leave the record as the sise_next_item left it that
 * met the refusal: what was read of the node before is passed, and its lists are open. 12 moves past the `)` of the list that
 * was open before. 9, 11, 13 and 14 move nothing: after 14 the call may be made again with a longer table.
 * Refused: 13; 11; 9; the first refusal in the text (1 to 6, 8) or 12; 14, if the table has fewer than four words a node.
 * Cost: the bytes from the position to the one that is left, or of 14 to the node's end.
 */
uint32_t sise_next_tree(const uint8_t *text, size_t text_len, uint64_t record[3], uint32_t *table, size_t table_len,
                        uint64_t values[2]);

/*
 * Whether nothing but blanks and comments stands behind the last item. Answers 0. The record is as the last call left it.
 * Refused: 11; 10; the text's (1 to 4, 8); 7, with the place of what was found. Cost: the bytes from the position on, up to
 * what is found there.
 */
uint32_t sise_finish_reading(const uint8_t *text, size_t text_len, const uint64_t record[3], uint64_t values[2]);

/*
 * The writer's record:
 *     record[0]  position: how many bytes of the buffer are written, at most SISE_LONGEST
 *     record[1]  phase: 0 before the first item, 1 inside the outermost list, 2 the node is whole, 3 finish was called
 *     record[2]  open lists, at most the position; at least 1 in phase 1, else 0
 *     record[3]  how many of them, from the outermost, have a line break in them
 *     record[4]  1 if the last item is a list start, else 0
 *     record[5]  length of the line, at most the position
 *     record[6]  spaces, record[7] line breaks, record[8] indentations written so far: the first two at most the position
 *                (breaks one more in phase 3), the third at most position * (position + 1)
 * A call writes from the position on. It answers the offset of what it wrote, and leaves all other bytes; refused, it leaves
 * record and buffer as they are. What the style and the threshold break_line_at do is said at sise_serialize_tree, but that a
 * first child has no rule of its own here: each item goes by its own threshold.
 * The style and the buffer may change from call to call; for a text that reads back they stay the same.
 */

/* Puts an atom. Refused: 11; 17; 19; 22. Cost: the atom's bytes and the bytes written. */
uint32_t sise_put_atom(const uint8_t *line_break, size_t line_break_len, const uint8_t *indentation, size_t indentation_len,
                       uint8_t *buf, size_t buf_len, const uint8_t *atom, size_t atom_len, uint64_t break_line_at,
                       uint64_t record[9], uint64_t values[2]);

/* Begins a list. Refused: 11; 19; 22. Cost: the indentation's bytes and the bytes written. */
uint32_t sise_begin_list(const uint8_t *line_break, size_t line_break_len, const uint8_t *indentation, size_t indentation_len,
                         uint8_t *buf, size_t buf_len, uint64_t break_line_at, uint64_t record[9], uint64_t values[2]);

/* Ends the innermost open list. Refused: 11; 18 or 19; 22. Cost: the indentation's bytes and the bytes written. */
uint32_t sise_end_list(const uint8_t *line_break, size_t line_break_len, const uint8_t *indentation, size_t indentation_len,
                       uint8_t *buf, size_t buf_len, uint64_t record[9], uint64_t values[2]);

/*
 * Puts the tree of the table's first node, by the items' calls one after the other: as sise_serialize_tree lays it out, behind
 * what the record has written, with each item at the threshold break_line_at but a first child that is an atom, which stays on
 * the line of its `(`. Answers the offset of the first item. It is put whole or not at all: a refusal leaves record and buffer.
 * Refused: 13; 11; 15; 17; 19; 22. Cost: the nodes, the bytes of their atoms, and the bytes written.
 */
uint32_t sise_put_tree(const uint8_t *line_break, size_t line_break_len, const uint8_t *indentation, size_t indentation_len,
                       uint8_t *buf, size_t buf_len, const uint8_t *text, size_t text_len, const uint32_t *table,
                       size_t table_len, uint64_t break_line_at, uint64_t record[9], uint64_t values[2]);

/*
 * Ends the text: with final_break a line_break is written behind it. Answers the text's length, which is the position.
 * Refused: 11; 20 or 19; 22. Cost: the bytes written.
 */
uint32_t sise_finish_writing(const uint8_t *line_break, size_t line_break_len, const uint8_t *indentation,
                             size_t indentation_len, uint8_t *buf, size_t buf_len, bool final_break, uint64_t record[9],
                             uint64_t values[2]);

#ifdef __cplusplus
}
#endif

#endif
