/* Tree pattern containment under a path summary: the ten calls of the proved library, for C99 and C++ on x86-64.
 *
 * Link with libcadwezin.a, which `tools/archive` writes to target/staticlib/. It needs memcpy and memset and nothing else.
 *
 * Bytes. Every field is 16 bits, low byte first. A section is a count and as many records. A case is the section of the summary
 * (document 01: outline), records (parent, label, strong 0 or 1); the section of the first pattern (document 01: selection), records
 * (parent, label or 0 for any, edge 0 child or 1 descendant, position or 0, least figure accepted); and the set: a count of patterns, its
 * members, and as many sections like the first pattern's. A document (document 01: volume) is one section, records (parent, label,
 * figure). A list is bare fields with no count. Record 0 is the root, with parent 0; any other parent number is below its record's own.
 * Patterns have numbers: 1 is the first pattern, 1 + i the set's i-th member. A case in the old form, which only cadwezin_upgrade takes,
 * has one second pattern's section right after the first's, with no count of patterns between, and its pattern records have no figure.
 *
 * Figures. Each document node has a figure, 0 to 2,000, and an embedding takes a pattern node only to a document node whose figure is at
 * least the least one that the pattern node accepts. In a canonical document (document 01: trial) the nodes of the pattern itself, its
 * root among them, have just their least figure, and all others 0. Whether a document conforms to the summary, and what the placements
 * of a pattern are, has nothing to do with figures.
 *
 * Any bytes, any numbers and buffers and tables of any length may be given. Each call asks its questions in the order that its
 * paragraph gives, and the first one answered no refuses the call:
 *
 *    1  Is the limit 1 to 1,000,000?
 *    2  Has the answer buffer 8,192 bytes or more, or the table 1,024 records or more?
 *    3  Has the case at most 65,536 bytes, every count, announced record and announced member whole, and nothing after?
 *    4  Is the summary's count 1 to 64, and the first pattern's and every member's 1 to 16?
 *   14  Is the set's count 1 to 8? (Each call that asks question 4 asks this one right after it, but for cadwezin_upgrade.)
 *    5  Do all summary records keep the rules for parent, label (not 0) and strong (0 on the root)?
 *    6  Do siblings in the summary have different labels?
 *    7  Do all records of all patterns keep the rules for parent and edge (0 on the root), with positions at most 8?
 *   17  Is every figure of every pattern at most 2,000? (Each call that asks question 7 asks this one right after it, but for
 *       cadwezin_upgrade. Each call that asks question 10 asks it of the document right after that, and refuses with 17 too.)
 *    8  Has each pattern the positions 1 to k once each, k at least 1, the same k in all?
 *   16  Is the caller 0 to 7?
 *    9  Is the caller's tally plus the limit (of cadwezin_minimise, 120 times the limit) at most 1,000,000,000,000?
 *   10  Is the document whole, nothing after, with 1 to 1,024 nodes, parents by the rule and labels not 0?
 *   11  Is the list k fields, each below the document's count?
 *   12  Is the pattern's number 1 to 1 + the set's count and, where given, the position 1 to k?
 *   13  Is the list a placement of that pattern?
 *   15  Has the set one member and no more, and is every figure of both patterns 0?
 *
 * A refusal holds the question's number in `refused` and zero in every other field, and alters no lent byte, record or tally. Where a
 * call is accepted `refused` is 0, and what lies after what it writes keeps its contents.
 *
 * Pointers. A slice is a pointer and a length, of bytes or of records; the pointer is to as many that may be read, or written where it
 * is not const. With length 0 nothing is read or written, and the pointer may be null. The tallies and, with a length that is not 0,
 * the table must be there and aligned as their types ask. What a call writes (tallies, answer, table) must not overlap anything else
 * that the call is given. No pointer is kept, there is no state between calls, and nothing is allocated: several threads may call at
 * once, each with what it lends to be written for itself. A call takes at most 128 KiB of stack. */
#ifndef CADWEZIN_H
#define CADWEZIN_H

#include <stddef.h>
#include <stdint.h>

#if !defined(__x86_64__) || defined(__ILP32__)
#error "cadwezin: the library is for x86-64 with 64-bit pointers"
#endif

#ifdef __cplusplus
extern "C" {
#endif

#define CADWEZIN_ANSWER_BYTES 8192                     /* the least length of an answer buffer */
#define CADWEZIN_TABLE_RECORDS 1024                    /* the least length of a table */
#define CADWEZIN_LIMIT_MOST UINT64_C(1000000)          /* the greatest limit */
#define CADWEZIN_TALLY_MOST UINT64_C(1000000000000)    /* what tally and limit may come to */
#define CADWEZIN_MINIMISE_VERDICTS UINT64_C(120)       /* how many limits cadwezin_minimise asks room for in the tally */
#define CADWEZIN_CASE_BYTES_MOST 65536                 /* the greatest length of a case */
#define CADWEZIN_DOCUMENT_NODES_MOST 1024              /* the greatest count of a document */
#define CADWEZIN_PATTERN_NODES_MOST 16                 /* the greatest count of a pattern */
#define CADWEZIN_MEMBERS_MOST 8                        /* the greatest count of a set */
#define CADWEZIN_CALLERS 8                             /* how many callers there are, from 0 on */
#define CADWEZIN_FIGURE_MOST 2000                      /* the greatest figure */

/* The kind of a verdict. A refused one has kind 0. */
#define CADWEZIN_CONTAINED UINT64_C(1)     /* document 01: included */
#define CADWEZIN_NOT_CONTAINED UINT64_C(2) /* document 01: not included */
#define CADWEZIN_STOPPED UINT64_C(3)

/* For each caller, how many canonical documents (document 01: trials) were tried, over all of that caller's verdicts since it was set,
 * those that cadwezin_minimise makes among them. */
struct cadwezin_tallies {
  uint64_t counts[CADWEZIN_CALLERS];
};

struct cadwezin_verdict_answer {
  uint64_t refused;
  uint64_t kind;
  uint64_t tried;
};

/* struck is how many nodes were struck, tried the sum over all verdicts made. */
struct cadwezin_minimise_answer {
  uint64_t refused;
  uint64_t struck;
  uint64_t tried;
};

/* holds is 1 for yes, 0 for no. */
struct cadwezin_test_answer {
  uint64_t refused;
  uint64_t holds;
};

struct cadwezin_count_answer {
  uint64_t refused;
  uint64_t count;
};

/* For pattern node q, bit i of masks[q] says whether it takes summary node i in some placement; counts[q] is how many it takes.
 * Entries past the pattern's last node are 0. */
struct cadwezin_paths_answer {
  uint64_t refused;
  uint64_t masks[CADWEZIN_PATTERN_NODES_MOST];
  uint64_t counts[CADWEZIN_PATTERN_NODES_MOST];
};

/* A node of a laid-out document: the number of its parent in the document (0 for the root), the number in the summary of the node on
 * whose path it is, its label and its figure. The four bytes after the figure are padding and no part of the record: a call may leave
 * anything there, so compare records field by field. */
struct cadwezin_node_record {
  size_t parent;
  size_t at;
  uint16_t label;
  uint16_t figure;
};

/* Verdict: is the first pattern contained in the union of the set: in every document that conforms to the summary, with any figures, is
 * each of its results a result of at least one member? Takes a case, a limit on the canonical documents tried, a caller, the tallies and an answer
 * buffer. Questions 1 to 8, 16, 9. Answers CADWEZIN_CONTAINED (all pass; tried is how many there are, or 0 where there are none),
 * CADWEZIN_NOT_CONTAINED (one of the first `limit` does not pass; tried is the earliest one's rank, from 1) or CADWEZIN_STOPPED (the
 * first `limit` all pass and there are more; tried is the limit). One passes if its list is, as a whole, a result of some member; the
 * members' order does not matter. Adds tried to the caller's tally. The other seven may hold any numbers: they change nothing in the
 * answer, and are not altered. CADWEZIN_NOT_CONTAINED writes to the front of the answer buffer: the section of the document that does
 * not pass, then a count k and the k document nodes that are a result of the first pattern and of no member. The other two write nothing
 * there. */
struct cadwezin_verdict_answer cadwezin_verdict(const uint8_t *case_bytes, size_t case_length, uint64_t limit, uint64_t caller,
                                                struct cadwezin_tallies *tallies, uint8_t *answer, size_t answer_length);

/* Fits: does the document conform to the case's summary, whatever its figures are? Takes a case and a document. Questions 3 to 8, 10.
 * Answers holds. Writes nothing. */
struct cadwezin_test_answer cadwezin_fits(const uint8_t *case_bytes, size_t case_length, const uint8_t *document,
                                          size_t document_length);

/* Is it a result: does some embedding of the pattern into the document take the positions 1 to k to the nodes of the list? Takes a
 * case, a pattern's number, a document, which need not conform to the summary, and a list of document nodes. Questions 3 to 8, 10, 12,
 * 11, in this order. Answers holds. Writes nothing. */
struct cadwezin_test_answer cadwezin_result(const uint8_t *case_bytes, size_t case_length, uint64_t number,
                                            const uint8_t *document, size_t document_length, const uint8_t *list, size_t list_length);

/* Nodes at a position: which document nodes does the position have in any result? Takes a case, a pattern's number, a document, which
 * need not conform to the summary, a position and an answer buffer. Questions 2 to 8, 10, 12. Answers how many there are, and writes
 * their count and their numbers, ascending, to the front of the answer buffer; where there are none, the count 0. */
struct cadwezin_count_answer cadwezin_nodes(const uint8_t *case_bytes, size_t case_length, uint64_t number, const uint8_t *document,
                                            size_t document_length, uint64_t position, uint8_t *answer, size_t answer_length);

/* Paths of each node: which summary nodes does each pattern node take in some placement? Takes a case and a pattern's number.
 * Questions 3 to 8, 12. Answers masks and counts. Writes nothing. */
struct cadwezin_paths_answer cadwezin_paths(const uint8_t *case_bytes, size_t case_length, uint64_t number);

/* Lay out a canonical document. Takes a case, a pattern's number, a placement, which is a list of summary nodes, one for each pattern
 * node, and a table. Questions 2 to 8, 12, 13. Answers how many nodes the document has, at most 946, and writes their records to the
 * front of the table. */
struct cadwezin_count_answer cadwezin_layout(const uint8_t *case_bytes, size_t case_length, uint64_t number, const uint8_t *list,
                                             size_t list_length, struct cadwezin_node_record *table, size_t table_length);

/* From the old form to today's. Takes a case in the old form and an answer buffer. Question 2, then 3 to 8 about the two patterns that
 * the old form has; it has no set and no figures, so 14 and 17 are not asked. Answers how many bytes the case has as a set of one with
 * figures of 0, two more than it had and two for each pattern node, at most 712, and writes them to the front of the answer buffer.
 * cadwezin_downgrade gives the old bytes back. Bytes may be a case in both forms: what is moved already is not told from an old case. */
struct cadwezin_count_answer cadwezin_upgrade(const uint8_t *case_bytes, size_t case_length, uint8_t *answer, size_t answer_length);

/* From today's form back to the old one. Takes a case and an answer buffer. Questions 2 to 8, 15. Answers how many bytes the case has in
 * the old form, at most 646, and writes them to the front of the answer buffer. cadwezin_upgrade gives the case back. */
struct cadwezin_count_answer cadwezin_downgrade(const uint8_t *case_bytes, size_t case_length, uint8_t *answer, size_t answer_length);

/* Striking out: what need the first pattern not say? Takes a case, a limit, a caller, the tallies and an answer buffer, as the verdict
 * does. Questions 1 to 8, 16, 9, where 9 asks room for 120 times the limit. The set is asked about and not used. The pattern's leaves
 * that hold no position, the root excepted, are tried, lowest number first: a leaf is struck if the pattern without it is contained in
 * the pattern as it is now, by a verdict with this limit; then it starts over from the lowest, with the leaves that stayed too. A leaf
 * stays where the verdict is stopped or not contained. It ends when no leaf goes. So in every document that conforms to the summary
 * what is left has the results that the first pattern has. Answers how many nodes were struck and how many canonical documents all
 * these verdicts tried, also those after which a leaf stayed, and adds the latter to the caller's tally. Writes to the front of the
 * answer buffer: the section of what is left, records in their old order, with parents by their new numbers; then a count and the
 * struck nodes, by their numbers in the case, in the order in which they were struck. Nothing struck: the pattern as it was and a
 * count 0. At most 164 bytes. */
struct cadwezin_minimise_answer cadwezin_minimise(const uint8_t *case_bytes, size_t case_length, uint64_t limit, uint64_t caller,
                                                  struct cadwezin_tallies *tallies, uint8_t *answer, size_t answer_length);

/* One way of writing a case: the same bytes for all cases that are one but for the numbers of their nodes. Takes a case and an answer
 * buffer. Questions 2 to 8. Answers how many bytes are written, as many as the case has, at most 1,846, and writes them to the front of
 * the answer buffer: the case with the nodes of every tree in preorder. Siblings of the summary go by label. Siblings of a pattern go by
 * their subtrees: each, with its own siblings in order first, is the list of its nodes in preorder, of each its depth, label, edge,
 * position and figure; two lists are compared at their first difference, and one that the other begins with goes first. The set keeps its
 * order.
 * Two accepted cases are written alike exactly when renumbering nodes turns one into the other. What is written is accepted, and
 * written again it stays as it is; a verdict on it has the same kind where the limit is at least the number of placements. */
struct cadwezin_count_answer cadwezin_normalise(const uint8_t *case_bytes, size_t case_length, uint8_t *answer, size_t answer_length);

#ifdef __cplusplus
}
#endif

#endif
