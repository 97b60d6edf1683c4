/* Balthwyr: the part of a lexer generator that comes after the DFA, for C. A table (a DFA whose states have prioritised leaves) is built to a lexer
 * graph; texts are read and scanned by it, or by a plan of masks and comparisons made for it. Every function is proved to do what is said here.
 *
 * Results. Every function returns 0 if it answers, or the number of a refusal (`enum balthwyr_refusal`). What it answers goes to the numbers and
 * arrays that it is lent for that. On a refusal those numbers become 0, and every array, store and scan is as found. All that can be refused is
 * decided before the first word is written.
 *
 * Arrays. A pointer and the `size_t` after it are an array and the number of its elements (not bytes). Longer arrays than needed are taken; what is
 * not written stays as it is. The caller sees to it that no pointer is null, also where there are no elements (any other pointer will do then); that
 * it points to as many elements as are told, aligned as their type asks; and that what a call may write overlaps nothing else that the call is lent.
 *
 * Memory. Nothing is allocated, nothing is kept between calls, and there is no global state: calls on different memory may run at once. Stack, as
 * measured (examples/stack.c), in KB of 1,024 bytes and rounded up: balthwyr_build_image 335, balthwyr_build 271, balthwyr_priority 65,
 * balthwyr_scan_planned 45, balthwyr_run 45, balthwyr_plan 25, balthwyr_check_for_greedy_all 9, balthwyr_render_luts 8, every other function
 * less than 7.
 *
 * Time. Graph words are checked whole at every call that takes them, and so are store and plan: a call on a short text pays for all states of the
 * graph before it reads a byte. With 55 states a reading of ten bytes takes 0.13 million instructions by the graph and 1.3 million by the plan, with
 * 498 states 1.2 and 17 million (about 0.1 and 3 ms). For all tokens of a text use balthwyr_scan_list or balthwyr_scan_planned, which check once.
 *
 * The library is for x86-64 Linux, so `size_t` has 64 bits. */

#ifndef BALTHWYR_H
#define BALTHWYR_H

#include <stddef.h>
#include <stdint.h>

#ifdef __cplusplus
extern "C" {
#endif

/* The version of this interface. It grows with every change of a signature, a layout, a limit or the number of a refusal, and with every addition. */
#define BALTHWYR_VERSION 2

/* What a function returns. A function refuses with the first number of its own list, in the order given there, whose condition holds. */
enum balthwyr_refusal {
    BALTHWYR_ANSWERED = 0,         /* no refusal */
    BALTHWYR_TABLE_HEADER = 1,     /* the table has fewer than 4 words */
    BALTHWYR_TABLE_COUNTS = 2,     /* its number of states, leaves or match records is out of range */
    BALTHWYR_TABLE_LENGTH = 3,     /* its length is not the one that these numbers give */
    BALTHWYR_TABLE_START = 4,      /* its start is no state, and not BALTHWYR_NONE */
    BALTHWYR_TABLE_EMPTY_FLAG = 5, /* a leaf's third word is above 1 */
    BALTHWYR_TABLE_TARGET = 6,     /* a target is no state */
    BALTHWYR_TABLE_MATCHES = 7,    /* a chain's head is no record, or a record breaks its rule */
    BALTHWYR_GRAPH_ROOM = 8,       /* the graph buffer is below BALTHWYR_GRAPH_WORDS of the table's states */
    BALTHWYR_ERROR_ROOM = 9,       /* the error buffer is below the words of the errors; or error words end before their error does */
    BALTHWYR_TREE_FORM = 10,       /* the records are no pattern tree */
    BALTHWYR_PRIORITY_LIMIT = 11,  /* a priority in the tree is above 4,294,967,295 */
    BALTHWYR_GRAPH_FORM = 12,      /* the words are no graph */
    BALTHWYR_IMAGE_LENGTH = 13,    /* the image has an odd number of bytes, or more than BALTHWYR_MAX_IMAGE */
    BALTHWYR_PLAN_OR_OFFSET = 14,  /* the plan is too short, or not the one of this graph and store; or a scan's offset is past the text */
    BALTHWYR_STORE = 15,           /* the mask store is none, has a class twice, or has no room for what the call needs */
    BALTHWYR_SCAN_ENDED = 16,      /* the scan has already answered that it has ended */
    BALTHWYR_NO_ROOM = 29,         /* a text does not fit its buffer */
    BALTHWYR_SHORT = 255           /* a block is shorter than what the call would write to it */
};

/* ---- Limits and sizes */

#define BALTHWYR_MAX_STATES 1024       /* of a table or a graph */
#define BALTHWYR_MAX_LEAVES 255        /* of a table */
#define BALTHWYR_MAX_RECORDS 4095      /* match records of a table */
#define BALTHWYR_MAX_IMAGE 65536       /* bytes of an image: 126 states at most; a table with more is lent as words, to balthwyr_build */
#define BALTHWYR_MAX_MASKS 64          /* of a store */
#define BALTHWYR_MAX_TREE_RECORDS 1024 /* of a pattern tree */

/* The words of a table of n states, m leaves and r match records. */
#define BALTHWYR_TABLE_WORDS(n, m, r) (4 + 3 * (size_t)(m) + 258 * (size_t)(n) + 2 * (size_t)(r))

/* The words of a graph of n states: what a build of a table of n states needs as graph buffer. */
#define BALTHWYR_GRAPH_WORDS(n) (2 + 258 * (size_t)(n))

/* The most words that the errors of a table of n states and m leaves take. */
#define BALTHWYR_ERROR_WORDS(n, m) \
    ((size_t)(n) * (2 + (size_t)(m)) > 3 * (size_t)(m) ? (size_t)(n) * (2 + (size_t)(m)) : 3 * (size_t)(m))

/* The most bytes of the text of a graph of n states, and of the line of an error with this many leaves. */
#define BALTHWYR_TEXT_BYTES(n) (6477 * (size_t)(n))
#define BALTHWYR_LINE_BYTES(leaves) (11 + 6 * (size_t)(leaves))

/* The words of the plan of a graph of n states, and of this many entries of a list. */
#define BALTHWYR_PLAN_WORDS(n) (3 * (size_t)(n))
#define BALTHWYR_LIST_WORDS(entries) (3 * (size_t)(entries))

/* ---- Tables and graphs
 *
 * Table words: 0, the number of states n; 1, the start, or BALTHWYR_NONE if the DFA has no universal start; 2, the number of leaves m; 3, the number
 * of match records r. Then three words a leaf: low half and high half of its priority, and 1 if it can match empty text, else 0. Then 258 words a
 * state: the target of each byte 0 to 255, the target of the end of the text, and the head of its chain of match records, 0 if nothing matches there.
 * Then two words a record, numbered from 1: leaf, and the number of the next record, 0 if the chain ends. A record's leaf is below m, its next is
 * below its own number, and the leaf there is greater. A match is told one step late: a state that step k enters says that its leaves match the
 * first k - 1 bytes. Steps to state 0 are no edges.
 *
 * An image is a table's words as bytes, low byte first.
 *
 * Graph words: 0, the number of states; 1, the root; then 258 words a state: the target of each byte 0 to 255 and of the end, BALTHWYR_NONE where
 * there is no edge, and the marks: accept + 256 * early, each a leaf or BALTHWYR_NO_MARK. Accept says that a leaf has matched without the last byte,
 * early that it has matched with it. */

#define BALTHWYR_NONE 65535
#define BALTHWYR_NO_MARK 255

/* The place of word c of state s in graph words: c is a byte, BALTHWYR_AT_END for the end target, BALTHWYR_AT_MARKS for the marks. */
#define BALTHWYR_GRAPH_AT(s, c) (2 + 258 * (size_t)(s) + (size_t)(c))
#define BALTHWYR_AT_END 256
#define BALTHWYR_AT_MARKS 257

/* The leaves in a marks word, or BALTHWYR_NO_MARK. */
#define BALTHWYR_ACCEPT_OF(marks) ((marks) % 256)
#define BALTHWYR_EARLY_OF(marks) ((marks) / 256)

/* ---- Build
 *
 * The graph and the conflicts of a table. The graph goes to the front of `graph`; the words after it are 0 up to BALTHWYR_GRAPH_WORDS of the table's
 * states, and as found after that. The errors go to the front of `errors`, one behind the other: kind (a `balthwyr_error`), leaf count, and that many
 * leaves. So the error at place `at` takes 2 + errors[at + 1] words, and the next one begins behind it; all errors take *words.
 *
 * *states and *root are the graph's first two words, *count is the number of errors, *words how many words they take. A table with errors is built
 * all the same: 0 does not say that there are none. No start, or leaves that can match empty text, give a graph of no states; leaves that tie give a
 * graph in which the states where they tie have no leaf. BALTHWYR_GRAPH_WORDS(BALTHWYR_MAX_STATES), 264,194 words, and
 * BALTHWYR_ERROR_WORDS(BALTHWYR_MAX_STATES, BALTHWYR_MAX_LEAVES), 263,168 words, are enough for every table. */

enum balthwyr_error { BALTHWYR_NO_UNIVERSAL_START = 0, BALTHWYR_EMPTY_MATCH = 1, BALTHWYR_DISAMBIGUATION = 2 };

/* The build of table words. Refusals: 1 to 9. */
uint8_t balthwyr_build(const uint16_t *table, size_t table_len, uint16_t *graph, size_t graph_len, uint16_t *errors,
                       size_t errors_len, size_t *states, size_t *root, size_t *count, size_t *words);

/* The build of a table's image. Refusals: 13, then 1 to 9. */
uint8_t balthwyr_build_image(const uint8_t *image, size_t image_len, uint16_t *graph, size_t graph_len, uint16_t *errors,
                             size_t errors_len, size_t *states, size_t *root, size_t *count, size_t *words);

/* ---- Text
 *
 * A text goes to the front of `out`, the bytes after it as found. *length is its length; there is no zero byte behind it. A text that does not fit is
 * refused by BALTHWYR_NO_ROOM, and nothing of it is written. */

/* The text of a graph, as the original's Display gives it, no line end after its last line. BALTHWYR_TEXT_BYTES are enough. Refusals: 12, 29. */
uint8_t balthwyr_display(const uint16_t *graph, size_t graph_len, uint8_t *out, size_t out_len, size_t *length);

/* The line of the error that the words begin with, as `error 2 0 1`: kind, leaves. BALTHWYR_LINE_BYTES are enough. To get all lines of a build's
 * *words words, begin at 0 and go on 2 + errors[at + 1] words after each line while the place is below *words. Refusals: 9, 29. */
uint8_t balthwyr_error_line(const uint16_t *errors, size_t errors_len, uint8_t *out, size_t out_len, size_t *length);

/* ---- Readings
 *
 * The last match on the way through a text, from its beginning: the longest one, by the leaf of highest priority there. *found is 1 if there is one,
 * else 0; *leaf and *end are its leaf and where it ends, or 0; an end may be 0 too. Of a clean table (below), table, graph and plan read alike. */

/* The reading of a text by graph words. Refusals: 12. */
uint8_t balthwyr_read_graph(const uint16_t *graph, size_t graph_len, const uint8_t *text, size_t text_len, size_t *found,
                            size_t *leaf, size_t *end);

/* The reading of a text by table words. Refusals: 1 to 7. */
uint8_t balthwyr_read_table(const uint16_t *table, size_t table_len, const uint8_t *text, size_t text_len, size_t *found,
                            size_t *leaf, size_t *end);

/* ---- Clean
 *
 * The rules of a clean table: 1, the build has no error; 2, state 0 has no match and all its steps lead to 0; 3, a reached state whose 256 byte steps
 * all lead to states of one same leaf has an end step to a state other than 0. */

#define BALTHWYR_NO_STATE 65535

/* Whether a table is clean: *rule is the first rule that it breaks, 0 if none, and *state the lowest state where, or BALTHWYR_NO_STATE for an error of
 * the build that belongs to no state. Refusals: 1 to 7. */
uint8_t balthwyr_clean(const uint16_t *table, size_t table_len, size_t *rule, size_t *state);

/* ---- Scan
 *
 * A scan is a number that the caller holds: the offset that it is reading at, 0 at first, or BALTHWYR_ENDED once it has answered that it has ended.
 * From an offset below the length it gives a token, the reading of the rest of the text, or a gap of one byte where there is none or one of no bytes.
 *
 * A reading goes on as long as an edge fits, also where nothing will match: so where readings run far and find nothing, a scan takes the square of the
 * text's length. With the one pattern `x*y`, 65,536 bytes x take balthwyr_scan_list seconds (7 where it was measured). */

#define BALTHWYR_ENDED SIZE_MAX

enum balthwyr_kind { BALTHWYR_END = 0, BALTHWYR_TOKEN = 1, BALTHWYR_GAP = 2 };

/* The next token or gap of a text, or the end. *kind is a `balthwyr_kind`; *leaf is a token's leaf, else 0; *start and *end are where it starts and
 * ends, 0 at the end. The graph is checked at every call. Refusals: 12; 14 for an offset past the text; 16. */
uint8_t balthwyr_scan_next(const uint16_t *graph, size_t graph_len, const uint8_t *text, size_t text_len, size_t *scan,
                           size_t *kind, size_t *leaf, size_t *start, size_t *end);

/* As many of the next tokens and gaps as `out` has room for, three words each: start, end, and leaf, or BALTHWYR_NO_LEAF of a gap. *entries is their
 * number; the words after them are as found. *scan becomes BALTHWYR_ENDED where the text ends before the room does: so a list that leaves no room
 * leaves a scan that may have nothing more to list. A list of fewer than three words has room for no entry and moves nothing: a loop
 * `while (scan != BALTHWYR_ENDED)` around such a call never ends. Refusals: 12; 14 for an offset past the text; 16. */
#define BALTHWYR_NO_LEAF ((size_t)65535)

uint8_t balthwyr_scan_list(const uint16_t *graph, size_t graph_len, const uint8_t *text, size_t text_len, size_t *scan,
                           size_t *out, size_t out_len, size_t *entries);

/* ---- Classes
 *
 * A class is a set of bytes, as an array of flags: byte b is in it if flag b is there and not 0. So every array is a class, and 256 flags are enough.
 *
 * Ranges and comparisons go to the front of a block of bytes. The structs below have the layout of such a block; one is lent as its bytes:
 *
 *     struct balthwyr_range_parts parts;
 *     balthwyr_ranges(flags, 256, (uint8_t *)&parts, sizeof parts, &count);
 *
 * or, which is the same, balthwyr_ranges(flags, 256, BALTHWYR_BYTES_OF(parts), &count). */

#define BALTHWYR_BYTES_OF(object) ((uint8_t *)&(object)), (sizeof(object))

/* The cost of a class: the operations that its comparisons take. Refusals: none. */
uint8_t balthwyr_cost(const uint8_t *flags, size_t flags_len, size_t *cost);

/* The maximal ranges of a class, ascending: *count of them, the entries after them being 0. Refusals: BALTHWYR_SHORT. */
struct balthwyr_range_parts {
    uint8_t first[128];
    uint8_t last[128];
};

uint8_t balthwyr_ranges(const uint8_t *flags, size_t flags_len, uint8_t *parts, size_t parts_len, size_t *count);

/* The comparisons of a class, ascending, *count of them: comparison i holds of the bytes first[i] to last[i] but its holes[i] exceptions. The
 * exceptions of all stand one after another in `except`. Entries that are not in use are 0. Refusals: BALTHWYR_SHORT. */
struct balthwyr_cmp_parts {
    uint8_t first[128];
    uint8_t last[128];
    uint8_t holes[128];
    uint8_t except[128];
};

uint8_t balthwyr_impl_with_cmp(const uint8_t *flags, size_t flags_len, uint8_t *parts, size_t parts_len, size_t *count);

/* ---- Mask store
 *
 * A store is a block of BALTHWYR_TABLES bytes, eight tables of 256, and a count of masks: mask i is bit i mod 8 of table i / 8, so it has byte b if
 * tables[256 * (i / 8) + b] >> i % 8 & 1. Bits of masks from the count on mean nothing, so a store that counts 0 holds no class, whatever its bytes
 * are. A block of another length is no store, and gets 15.
 *
 * `struct balthwyr_mask_store` holds both; a call that grows it is lent `store.tables, sizeof store.tables, &store.count`, one that reads it
 * `store.tables, sizeof store.tables, store.count`. */

#define BALTHWYR_TABLES 2048

struct balthwyr_mask_store {
    uint8_t tables[BALTHWYR_TABLES];
    size_t count;
};

/* The number of a class in the store, which takes the class if it lacks it. Refusals: 15. */
uint8_t balthwyr_add_test_to_lut(uint8_t *tables, size_t tables_len, size_t *count, const uint8_t *flags, size_t flags_len,
                                 size_t *number);

/* The eight tables, unused bits 0, to the first BALTHWYR_TABLES bytes of `luts`; the rest is as found. Refusals: 15, BALTHWYR_SHORT. */
uint8_t balthwyr_render_luts(const uint8_t *tables, size_t tables_len, size_t count, uint8_t *luts, size_t luts_len);

/* ---- Plans
 *
 * The plan of a graph says how the next byte is tested in each state: three words a state. The first is 1 + the number of the mask of the state's edge
 * to itself, or 0 if it has none. The other two are for its byte edges in the order of their targets: 0 (absent, or the edge to itself), 1 (by
 * comparisons) or 2 + mask number; or BALTHWYR_TABLE in both, if there are more than two and the row's own targets lead on. Its masks are held by a
 * mask store, `tables` and count as above. */

#define BALTHWYR_TABLE ((uint16_t)65535)

/* The plan of graph words, three words a state, to the front of `plan`, the words after it as found. The store, which may hold masks of other plans,
 * gains the classes that the plan needs and it lacks: *added is their number, and *count becomes greater by it. Refusals: 12; 14 for a plan buffer
 * below three words a state; 15, also for a block that is no store. */
uint8_t balthwyr_plan(const uint16_t *graph, size_t graph_len, uint16_t *plan, size_t plan_len, uint8_t *tables,
                      size_t tables_len, size_t *count, size_t *added);

/* The reading of a text by graph words, their plan and a store that holds its masks: what `balthwyr_read_graph` answers. Refusals: 12; 14 for plan
 * words below three a state; 15, also for a block that is no store; 14 for words that are not the plan of this graph on this store, or name a mask
 * that the store does not hold. Graph, store and plan are checked at every call. */
uint8_t balthwyr_run(const uint16_t *graph, size_t graph_len, const uint16_t *plan, size_t plan_len, const uint8_t *tables,
                     size_t tables_len, size_t count, const uint8_t *text, size_t text_len, size_t *found, size_t *leaf,
                     size_t *end);

/* What `balthwyr_scan_list` answers, by such a plan and store, which are checked once for the whole list. Faster than the list where a text has long
 * runs in states that lead to themselves, slower where tokens are short. Refusals: 12; 14 for a scan offset past the text, then as `balthwyr_run`;
 * last 16. */
uint8_t balthwyr_scan_planned(const uint16_t *graph, size_t graph_len, const uint16_t *plan, size_t plan_len,
                              const uint8_t *tables, size_t tables_len, size_t count, const uint8_t *text, size_t text_len,
                              size_t *scan, size_t *out, size_t out_len, size_t *entries);

/* ---- Patterns
 *
 * A tree is an array of words, six a record, with the bytes of its literals beside it. Records are numbered from 1, the last is the root, and a record
 * names only records before it; every record but the root is named once. The words: kind (a `balthwyr_pattern`); a, where a literal's bytes begin, or
 * a repetition's least count; b, how many bytes a literal has; flags, 1 of a class that is a dot, 1 of a greedy repetition and 2 of an unbounded one,
 * which are added; the first child; the next child of the same parent, 0 for the last. What a kind has not is 0. Repetition and capture have one
 * child, concat and alternation any number, the others none. */

enum balthwyr_pattern {
    BALTHWYR_EMPTY = 0,
    BALTHWYR_LITERAL = 1,
    BALTHWYR_CLASS = 2,
    BALTHWYR_LOOK = 3,
    BALTHWYR_REPETITION = 4,
    BALTHWYR_CAPTURE = 5,
    BALTHWYR_CONCAT = 6,
    BALTHWYR_ALTERNATION = 7
};

/* The priority of a pattern: 2 for a class and for each code point of a literal (each byte, if it is no UTF-8), 0 for empty and look, least count
 * times child of a repetition, the sum of a concat, the least of an alternation. Refusals: 10, 11. */
uint8_t balthwyr_priority(const uint32_t *tree, size_t tree_len, const uint8_t *bytes, size_t bytes_len, size_t *value);

/* Whether a pattern has a greedy unbounded repetition of a dot that stands in no other repetition: *found is 1 or 0. Refusals: 10. */
uint8_t balthwyr_check_for_greedy_all(const uint32_t *tree, size_t tree_len, const uint8_t *bytes, size_t bytes_len,
                                      size_t *found);

/* ---- Angles
 *
 * An angle is a number of hundredths of a degree, from -18000 to 18000. Its text is an optional plus or hyphen, one to three digits, a point and one or
 * two digits, from -180.00 to 180.00: one digit after the point means tenths, so 1.5 is 150, and -0.00 is 0. Three hyphens are a missing angle, which
 * has no number. Every other text is not an angle. All bytes of a text count: none that is a space or a zero is passed over. */

enum balthwyr_angle { BALTHWYR_NOT_AN_ANGLE = 0, BALTHWYR_ANGLE = 1, BALTHWYR_MISSING = 2 };

/* The hundredths of what is no angle: a value that no angle has, and of which there is no text. */
#define BALTHWYR_NO_ANGLE INT32_MIN

/* The bytes that balthwyr_write_angle writes. */
#define BALTHWYR_ANGLE_BYTES 7

/* The angle that a text is: *kind is a `balthwyr_angle`, *hundredths the number of an angle, else BALTHWYR_NO_ANGLE. A text of more than seven bytes is
 * not looked into, so a call takes no longer on a longer one. Refusals: none. */
uint8_t balthwyr_read_angle(const uint8_t *text, size_t text_len, size_t *kind, int32_t *hundredths);

/* The text of an angle, to the front of `text`: a hyphen only below 0, no plus, no needless leading zero, two digits after the point. *length is its
 * length, 4 to 7, and the bytes after it are 0 up to BALTHWYR_ANGLE_BYTES; there is no zero byte behind a text of seven. A value out of range has no
 * text: *length is 0, and the seven bytes are 0. balthwyr_read_angle reads the text of an angle as that angle. Refusals: BALTHWYR_SHORT. */
uint8_t balthwyr_write_angle(int32_t hundredths, uint8_t *text, size_t text_len, size_t *length);

#ifdef __cplusplus
}
#endif

#endif
