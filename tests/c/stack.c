/* The stack that each of the ten calls takes. Each call has a stack of its own, painted beforehand, on which it runs with the heaviest
 * inputs there are and with every refusal; the lowest byte that has lost its paint tells how far down it went. Each answer is held to
 * what it should be, so that the heavy ways are really taken. Prints a line, and fails above what include/cadwezin.h promises. */
#define _XOPEN_SOURCE 700
#include "cadwezin.h"
#include <stdio.h>
#include <stdlib.h>
#include <string.h>
#include <ucontext.h>

#define PROMISED (128 * 1024)
#define ROOM (1024 * 1024)
#define PAINT 0xC5
#define SHOWN_MOST 946

enum call { VERDICT, FITS, RESULT, NODES, PATHS, LAYOUT, UPGRADE, DOWNGRADE, MINIMISE, NORMALISE, CALLS };
static const char *const names[CALLS] = {"verdict", "fits",    "result",    "nodes",    "paths",
                                         "layout",  "upgrade", "downgrade", "minimise", "normalise"};

/* Bytes in the making. */
struct bytes {
  uint8_t at[8192];
  size_t length;
};

/* What a call is asked and what it answers: value is the kind, holds, the count or how many were struck. */
static struct {
  enum call call;
  struct bytes given, document, list;
  uint64_t limit, caller, tally, number, position;
  size_t answer_length, table_length;
  uint64_t refused, value;
} asked;

static uint8_t rooms[CALLS][ROOM];
static uint8_t answer[CADWEZIN_ANSWER_BYTES];
static struct cadwezin_node_record table[CADWEZIN_TABLE_RECORDS];
static struct cadwezin_paths_answer paths;
static struct cadwezin_tallies tallies;
static ucontext_t outside, inside;
static unsigned held;

/* The figure of all nodes that are put, and whether pattern records are put in the old form, which has none. */
static unsigned figure;
static int old_form;

/* Runs on the painted stack, so it keeps everything that it can in static memory. */
static void make_call(void) {
  const uint8_t *given = asked.given.at, *document = asked.document.at, *list = asked.list.at;
  const size_t length = asked.given.length, document_length = asked.document.length, list_length = asked.list.length;
  if (asked.call == VERDICT) {
    const struct cadwezin_verdict_answer got =
        cadwezin_verdict(given, length, asked.limit, asked.caller, &tallies, answer, asked.answer_length);
    asked.refused = got.refused, asked.value = got.kind;
  } else if (asked.call == MINIMISE) {
    const struct cadwezin_minimise_answer got =
        cadwezin_minimise(given, length, asked.limit, asked.caller, &tallies, answer, asked.answer_length);
    asked.refused = got.refused, asked.value = got.struck;
  } else if (asked.call == FITS) {
    const struct cadwezin_test_answer got = cadwezin_fits(given, length, document, document_length);
    asked.refused = got.refused, asked.value = got.holds;
  } else if (asked.call == RESULT) {
    const struct cadwezin_test_answer got = cadwezin_result(given, length, asked.number, document, document_length, list, list_length);
    asked.refused = got.refused, asked.value = got.holds;
  } else if (asked.call == NODES) {
    const struct cadwezin_count_answer got =
        cadwezin_nodes(given, length, asked.number, document, document_length, asked.position, answer, asked.answer_length);
    asked.refused = got.refused, asked.value = got.count;
  } else if (asked.call == PATHS) {
    paths = cadwezin_paths(given, length, asked.number);
    asked.refused = paths.refused, asked.value = paths.counts[15];
  } else if (asked.call == UPGRADE) {
    const struct cadwezin_count_answer got = cadwezin_upgrade(given, length, answer, asked.answer_length);
    asked.refused = got.refused, asked.value = got.count;
  } else if (asked.call == DOWNGRADE) {
    const struct cadwezin_count_answer got = cadwezin_downgrade(given, length, answer, asked.answer_length);
    asked.refused = got.refused, asked.value = got.count;
  } else if (asked.call == NORMALISE) {
    const struct cadwezin_count_answer got = cadwezin_normalise(given, length, answer, asked.answer_length);
    asked.refused = got.refused, asked.value = got.count;
  } else {
    const struct cadwezin_count_answer got =
        cadwezin_layout(given, length, asked.number, list, list_length, table, asked.table_length);
    asked.refused = got.refused, asked.value = got.count;
  }
}

/* The call on its painted stack, with what is asked now. */
static void expect(enum call call, uint64_t refused, uint64_t value, const char *what) {
  asked.call = call;
  for (uint64_t caller = 0; caller < CADWEZIN_CALLERS; caller++) {
    tallies.counts[caller] = caller == asked.caller ? asked.tally : UINT64_MAX;
  }
  if (getcontext(&inside) != 0) {
    exit(1);
  }
  inside.uc_stack.ss_sp = rooms[call];
  inside.uc_stack.ss_size = ROOM;
  inside.uc_link = &outside;
  makecontext(&inside, make_call, 0);
  if (swapcontext(&outside, &inside) != 0 || asked.refused != refused || asked.value != value) {
    fprintf(stderr, "stack: %s: %s: refused %llu, value %llu\n", names[call], what, (unsigned long long)asked.refused,
            (unsigned long long)asked.value);
    exit(1);
  }
  held++;
}

static void put(struct bytes *to, unsigned field) {
  to->at[to->length++] = (uint8_t)(field & 0xFF);
  to->at[to->length++] = (uint8_t)(field >> 8);
}

static void put_node(unsigned parent, unsigned label, unsigned flag, unsigned position) {
  put(&asked.given, parent);
  put(&asked.given, label);
  put(&asked.given, flag);
  put(&asked.given, position);
  if (!old_form) {
    put(&asked.given, figure);
  }
}

/* A summary of 64 nodes in a line, with labels 1 to 64. */
static void put_line(unsigned strong) {
  asked.given.length = 0;
  put(&asked.given, 64);
  for (unsigned i = 0; i < 64; i++) {
    put(&asked.given, i == 0 ? 0 : i - 1);
    put(&asked.given, i + 1);
    put(&asked.given, i == 0 ? 0 : strong);
  }
}

/* A pattern of 16 nodes: the root, and nodes of one label that hang from it, or one from another, by descendant edges. Positions 1 to
 * 8 are at the first eight. */
static void put_pattern(unsigned label, int chained) {
  put(&asked.given, 16);
  for (unsigned q = 0; q < 16; q++) {
    put_node(q > 0 && chained ? q - 1 : 0, q == 0 ? 1 : label, q > 0, q < 8 ? q + 1 : 0);
  }
}

/* A set of so many members, all of that pattern. */
static void put_set(unsigned count, unsigned label, int chained) {
  put(&asked.given, count);
  for (unsigned i = 0; i < count; i++) {
    put_pattern(label, chained);
  }
}

/* A document of 1,024 nodes, labels 1 to 64 by depth: chains from the root that are so deep. */
static void put_document(unsigned deep) {
  asked.document.length = 0;
  put(&asked.document, CADWEZIN_DOCUMENT_NODES_MOST);
  for (unsigned v = 0; v < CADWEZIN_DOCUMENT_NODES_MOST; v++) {
    const unsigned above = v == 0 ? 0 : (v - 1) % deep;
    put(&asked.document, above == 0 ? 0 : v - 1);
    put(&asked.document, v == 0 ? 1 : 2 + above % 63);
    put(&asked.document, figure);
  }
}

static void put_list(unsigned count, unsigned first, unsigned other) {
  asked.list.length = 0;
  for (unsigned i = 0; i < count; i++) {
    put(&asked.list, i == 0 ? first : other);
  }
}

/* 64 + 16 + 8 x 16 nodes of which all trials pass, but by turns in two ways: the last node is the 901 that 903 is to have, or has a
 * strong child 901 itself. Only the last member asks for that; the others ask for a label that is not there. */
static void put_alternatives(void) {
  static const unsigned last[4][3] = {{0, 903, 0}, {60, 901, 0}, {60, 902, 0}, {62, 901, 1}};
  put_line(0);
  asked.given.length -= 6 * 4;
  for (unsigned i = 0; i < 12; i++) {
    put(&asked.given, last[i / 3][i % 3]);
  }
  put(&asked.given, 16);
  put_node(0, 1, 0, 1);
  for (unsigned q = 1; q < 14; q++) {
    put_node(0, q < 10 ? 60 : 0, 1, 0);
  }
  put_node(0, 903, 0, 0);
  put_node(14, 0, 0, 0);
  put(&asked.given, CADWEZIN_MEMBERS_MOST);
  for (unsigned i = 1; i <= CADWEZIN_MEMBERS_MOST; i++) {
    put(&asked.given, 16);
    put_node(0, 1, 0, 1);
    put_node(0, 0, 1, 0);
    put_node(1, i < CADWEZIN_MEMBERS_MOST ? 999 : 901, 0, 0);
    for (unsigned q = 3; q < 16; q++) {
      put_node(0, 0, 1, 0);
    }
  }
}

/* 64 + 16 + 8 x 2 nodes of which the first eight trials pass, each by another member, and the ninth does not. Nodes hang one from another
 * and the last one decides, so that each level asks in vain, the deepest one over the lists of all nodes. */
static void put_deep(void) {
  put_line(0);
  put(&asked.given, 16);
  for (unsigned q = 0; q < 16; q++) {
    put_node(q > 0 ? q - 1 : 0, q == 0 ? 1 : 0, q > 0, q == 15 ? 1 : 0);
  }
  put(&asked.given, CADWEZIN_MEMBERS_MOST);
  for (unsigned i = 0; i < CADWEZIN_MEMBERS_MOST; i++) {
    put(&asked.given, 2);
    put_node(0, 1, 0, 0);
    put_node(0, 16 + i, 1, 1);
  }
}

/* A pattern of 16 nodes with position 1 at the root: nodes that hang from it, or one from another. */
static void put_order(unsigned label, unsigned step, unsigned edge, int chained) {
  put(&asked.given, 16);
  for (unsigned q = 0; q < 16; q++) {
    put_node(q > 0 && chained ? q - 1 : 0, q == 0 ? 1 : label + step * q, q > 0 ? edge : 0, q == 0);
  }
}

/* A set of one, which has position 1 at its root. */
static void put_any_set(void) {
  put(&asked.given, 1);
  put(&asked.given, 1);
  put_node(0, 0, 0, 1);
}

/* What every call takes where nothing else is said. */
static void ask_whole(void) {
  asked.limit = CADWEZIN_LIMIT_MOST;
  asked.caller = CADWEZIN_CALLERS - 1;
  asked.tally = 0;
  asked.number = asked.position = 1;
  asked.answer_length = sizeof answer;
  asked.table_length = CADWEZIN_TABLE_RECORDS;
}

/* A verdict that shows as many nodes as can be, and the layout of the same placement. */
static void shown(unsigned strong, unsigned place) {
  ask_whole();
  put_line(strong);
  put_pattern(place + 1, 0);
  put_set(CADWEZIN_MEMBERS_MOST, 999, 0);
  put_list(16, 0, place);
  expect(VERDICT, 0, CADWEZIN_NOT_CONTAINED, "946 nodes shown");
  if ((answer[0] | answer[1] << 8) != SHOWN_MOST) {
    fprintf(stderr, "stack: verdict: %d nodes are shown\n", answer[0] | answer[1] << 8);
    exit(1);
  }
  expect(LAYOUT, 0, SHOWN_MOST, "946 nodes");
  expect(PATHS, 0, 1, "of a node with one");
}

static void stepped(void) {
  ask_whole();
  for (int chained = 0; chained <= 1; chained++) {
    put_line(1);
    put_pattern(0, chained);
    put_set(CADWEZIN_MEMBERS_MOST, 0, chained);
    expect(VERDICT, 0, CADWEZIN_STOPPED, "skipping");
    asked.number = 1 + CADWEZIN_MEMBERS_MOST;
    expect(PATHS, 0, chained ? 49 : 63, "of the last node");
  }
  /* A strong child has the figure 0. */
  put_alternatives();
  expect(VERDICT, 0, figure == 0 ? CADWEZIN_STOPPED : CADWEZIN_NOT_CONTAINED, "skipping by turns");
  put_deep();
  expect(VERDICT, 0, CADWEZIN_NOT_CONTAINED, "asking in vain");
}

/* Orders of 16 nodes: all that strong edges grant, one below another or at the bottom of the line; equal ones, of which one is left; a
 * chain that nothing grants; free ones, whose verdicts are stopped; and the patterns whose verdicts go deep. Of those by turns a free node
 * goes first, with 2 x 63^3 trials, and then all that says the same again. */
static void struck(void) {
  ask_whole();
  put_line(1);
  put_order(1, 1, 0, 1);
  put_any_set();
  expect(MINIMISE, 0, 15, "a granted chain");
  put_line(1);
  put_order(64, 0, 1, 0);
  put_any_set();
  expect(MINIMISE, 0, 15, "granted at the bottom");
  put_line(0);
  put_order(64, 0, 1, 0);
  put_any_set();
  expect(MINIMISE, 0, 14, "equal ones");
  put_line(0);
  put_order(1, 1, 0, 1);
  put_any_set();
  expect(MINIMISE, 0, 0, "a chain that stays");
  for (int chained = 0; chained <= 1; chained++) {
    put_line(1);
    put_order(0, 0, 1, chained);
    put_any_set();
    expect(MINIMISE, 0, 0, "stopped");
  }
  put_alternatives();
  expect(MINIMISE, 0, 12, "stopped, and then not, by turns");
  put_deep();
  expect(MINIMISE, 0, 0, "nothing but a position");
}

/* The calls over a document of 1,024 nodes: one chain, chains that fit the summary, and all below the root. Of a chained pattern the
 * eighth node has seven above it and eight below: in a chain of 63 there are 49 such nodes, in the last one, of 15, there is one. */
static void documents(void) {
  static const unsigned depths[] = {1023, 63, 1};
  static const uint64_t eighth[] = {1023 - 14, 16 * 49 + 1, 0};
  ask_whole();
  for (int chained = 0; chained <= 1; chained++) {
    put_line(0);
    put_pattern(0, chained);
    put_set(CADWEZIN_MEMBERS_MOST, 0, chained);
    for (size_t i = 0; i < 3; i++) {
      asked.number = i == 0 ? 1 : 1 + CADWEZIN_MEMBERS_MOST;
      put_document(depths[i]);
      put_list(8, 0, 1);
      expect(FITS, 0, depths[i] <= 63, "1,024 nodes");
      expect(RESULT, 0, !chained, "1,024 nodes");
      asked.position = 8;
      expect(NODES, 0, chained ? eighth[i] : 1023, "1,024 nodes");
      asked.position = 1;
      expect(NODES, 0, !chained || depths[i] > 1, "1,024 nodes");
    }
  }
}

/* The largest case that the call takes: the old form has a second pattern alone, and one member goes back to it. */
static void put_largest_for(enum call call) {
  old_form = call == UPGRADE;
  put_line(0);
  put_pattern(0, 0);
  if (call == UPGRADE) {
    put_pattern(0, 0);
  } else {
    put_set(call == DOWNGRADE ? 1 : CADWEZIN_MEMBERS_MOST, 0, 0);
  }
}

/* The largest case there is, out of the old form and back. */
static void moved(void) {
  static const uint64_t old_length = 2 + 64 * 6 + 2 * (2 + 16 * 8), length = 2 + 64 * 6 + 2 + 2 * (2 + 16 * 10);
  ask_whole();
  for (enum call call = UPGRADE; call <= DOWNGRADE; call++) {
    put_largest_for(call);
    expect(call, 0, call == UPGRADE ? length : old_length, "64, 16 and 16 nodes");
  }
}

/* The parent of a node in trees of several shapes: a star, a line, a heap, two by two, a comb, and branches of three. */
static unsigned above(unsigned shape, unsigned node) {
  switch (node == 0 ? 0 : shape) {
  case 1: return node - 1;
  case 2: return (node - 1) / 2;
  case 3: return node - (node > 1 ? 2 - node % 2 : 1);
  case 4: return node % 3 == 1 ? 0 : node - 1;
  default: return 0;
  }
}

/* A case of the most nodes, 64 and nine times 16, every tree of one shape; the labels of siblings fall, or, in the patterns, all nodes
 * are alike, so that no comparison ends before the last node. */
static void put_shape(unsigned shape, int alike) {
  asked.given.length = 0;
  put(&asked.given, 64);
  for (unsigned i = 0; i < 64; i++) {
    put(&asked.given, above(shape, i));
    put(&asked.given, 100 - i);
    put(&asked.given, i % 2);
  }
  for (unsigned pattern = 0; pattern <= CADWEZIN_MEMBERS_MOST; pattern++) {
    if (pattern == 1) {
      put(&asked.given, CADWEZIN_MEMBERS_MOST);
    }
    put(&asked.given, 16);
    for (unsigned q = 0; q < 16; q++) {
      put_node(above(shape, q), alike ? 7 : 100 - q, 0, q == (alike ? 15 : 0));
    }
  }
}

static void normal_forms(void) {
  static const uint64_t length = 2 + 64 * 6 + 2 + 9 * (2 + 16 * 10);
  ask_whole();
  for (unsigned shape = 0; shape < 5; shape++) {
    for (int alike = 0; alike <= 1; alike++) {
      put_shape(shape, alike);
      expect(NORMALISE, 0, length, "64 and nine times 16 nodes");
    }
  }
}

/* Question 17 about the document, to tell it from that about the patterns. */
#define DOCUMENT_FIGURE 1017

/* Alters what is asked so that this question is the first one answered no. */
static void break_question(unsigned question) {
  const size_t nodes = 16 * (old_form ? 8 : 10);
  uint8_t *second_node = asked.given.at + 2 + 2 * 6, *set = asked.given.at + 2 + 64 * 6 + 2 + nodes;
  uint8_t *last_root = asked.given.at + asked.given.length - nodes;
  switch (question) {
  case 1: asked.limit = 0; break;
  case 2: asked.answer_length--, asked.table_length--; break;
  case 3: asked.given.length--; break;
  case 4: memset(asked.given.at, 0, asked.given.length = 6); break;
  case 5: asked.given.at[2 + 4] = 1; break;
  case 6: second_node[0] = 0, second_node[2] = 2; break;
  case 7: last_root[4] = 1; break;
  case 8: last_root[6] = 0; break;
  case 9: asked.tally = CADWEZIN_TALLY_MOST; break;
  case 10: asked.document.length--; break;
  case 12: asked.number = 2 + CADWEZIN_MEMBERS_MOST; break;
  case 14:
    for (; *set <= CADWEZIN_MEMBERS_MOST; ++*set) {
      put_pattern(0, 0);
    }
    break;
  case 15: ++*set, put_pattern(0, 0); break;
  case 16: asked.caller = CADWEZIN_CALLERS; break;
  case 17: asked.given.at[asked.given.length - 1] = 8; break;
  case DOCUMENT_FIGURE: asked.document.at[asked.document.length - 1] = 8; break;
  default: asked.list.length -= 2;
  }
}

/* Each call's questions, each answered no. */
static void refusals(void) {
  static const unsigned questions[CALLS][14] = {
      {1, 2, 3, 4, 14, 5, 6, 7, 17, 8, 16, 9},
      {3, 4, 14, 5, 6, 7, 17, 8, 10, DOCUMENT_FIGURE},
      {3, 4, 14, 5, 6, 7, 17, 8, 10, DOCUMENT_FIGURE, 12, 11},
      {2, 3, 4, 14, 5, 6, 7, 17, 8, 10, DOCUMENT_FIGURE, 12},
      {3, 4, 14, 5, 6, 7, 17, 8, 12},
      {2, 3, 4, 14, 5, 6, 7, 17, 8, 12, 13},
      {2, 3, 4, 5, 6, 7, 8},
      {2, 3, 4, 14, 5, 6, 7, 17, 8, 15},
      {1, 2, 3, 4, 14, 5, 6, 7, 17, 8, 16, 9},
      {2, 3, 4, 14, 5, 6, 7, 17, 8}};
  for (enum call call = 0; call < CALLS; call++) {
    for (const unsigned *question = questions[call]; *question != 0; question++) {
      ask_whole();
      put_largest_for(call);
      put_document(63);
      put_list(call == LAYOUT ? 16 : 8, 0, 1);
      break_question(*question);
      expect(call, *question == DOCUMENT_FIGURE ? 17 : *question, 0, "a refusal");
    }
  }
}

/* How many bytes of a painted stack were used. */
static size_t used(const uint8_t *room) {
  size_t untouched = 0;
  while (untouched < ROOM && room[untouched] == PAINT) {
    untouched++;
  }
  return ROOM - untouched;
}

int main(void) {
  int kept = 1;
  memset(rooms, PAINT, sizeof rooms);
  for (figure = 0; figure <= CADWEZIN_FIGURE_MOST; figure += CADWEZIN_FIGURE_MOST) {
    shown(0, 63);
    shown(1, 1);
    stepped();
    documents();
    normal_forms();
  }
  figure = 0;
  struck();
  moved();
  refusals();
  printf("stack: %u answers;", held);
  for (enum call call = 0; call < CALLS; call++) {
    const size_t bytes = used(rooms[call]);
    kept = kept && bytes <= PROMISED;
    printf(" %s %.1f KiB%s", names[call], (double)bytes / 1024, call + 1 < CALLS ? "," : "");
  }
  printf("; %s %d KiB that are promised\n", kept ? "within the" : "MORE than the", PROMISED / 1024);
  return kept ? 0 : 1;
}
