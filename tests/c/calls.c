/* The ten calls from C, by include/cadwezin.h: E6 and E10 of document 01, a set of two, E6 out of the old form and back, callers and
 * their tallies, an order that is shortened, one case under three numberings, figures that decide, empty slices with a null pointer, and
 * refusals, which alter nothing. Prints how many answers were as they should be. */
#include "cadwezin.h"
#include <stdio.h>
#include <stdlib.h>
#include <string.h>

#define FILLING 0xAA
#define COUNT(array) (sizeof(array) / sizeof((array)[0]))

/* Summary r(a(b)); first pattern r//0, members r/0 and r//b, each with position 1 at the last node. The document is r(a(b)). */
#define SUMMARY 3, 0, 0, 0, 1, 0, 0, 0, 0, 0, 2, 0, 0, 0, 1, 0, 3, 0, 0, 0
#define FIELD(number) (uint8_t)((number) & 255), (uint8_t)((number) >> 8)
#define OLD_RECORD(parent, label, edge, position) parent, 0, label, 0, edge, 0, position, 0
#define FIGURED(parent, label, edge, position, figure) OLD_RECORD(parent, label, edge, position), FIELD(figure)
#define RECORD(parent, label, edge, position) FIGURED(parent, label, edge, position, 0)
#define FIRST 2, 0, RECORD(0, 1, 0, 0), RECORD(0, 0, 1, 1)
#define CHILD 2, 0, RECORD(0, 1, 0, 0), RECORD(0, 0, 0, 1)
#define BELOW 2, 0, RECORD(0, 1, 0, 0), RECORD(0, 3, 1, 1)
#define NODE(parent, label, figure) parent, 0, label, 0, FIELD(figure)
static const uint8_t e6[] = {SUMMARY, FIRST, 1, 0, CHILD};
static const uint8_t two[] = {SUMMARY, FIRST, 2, 0, CHILD, BELOW};
#define OLD_FIRST 2, 0, OLD_RECORD(0, 1, 0, 0), OLD_RECORD(0, 0, 1, 1)
static const uint8_t old[] = {SUMMARY, OLD_FIRST, 2, 0, OLD_RECORD(0, 1, 0, 0), OLD_RECORD(0, 0, 0, 1)};
static const uint8_t old_none[] = {SUMMARY, OLD_FIRST, 0, 0};
static const uint8_t none[] = {SUMMARY, FIRST, 0, 0};
static const uint8_t unheld[] = {SUMMARY, FIRST, 1, 0, 1, 0, RECORD(0, 1, 0, 0)};
static const uint8_t document[] = {3, 0, NODE(0, 1, 0), NODE(0, 2, 0), NODE(1, 3, 0)};
static const uint8_t node_2[] = {2, 0};
static const uint8_t placement[] = {0, 0, 2, 0};

/* Summary r(a(b), c), where b, and then a, is granted; first pattern r(a(b), c) with position 1 at the root. What is left is r(c). */
#define GRANTED 4, 0, 0, 0, 1, 0, 0, 0, 0, 0, 2, 0, 1, 0, 1, 0, 3, 0, 1, 0, 0, 0, 4, 0, 0, 0
#define WORDY 4, 0, RECORD(0, 1, 0, 1), RECORD(0, 2, 0, 0), RECORD(1, 3, 0, 0), RECORD(0, 4, 0, 0)
static const uint8_t order[] = {GRANTED, WORDY, 1, 0, 1, 0, RECORD(0, 1, 0, 1)};
static const uint8_t left_over[] = {2, 0, RECORD(0, 1, 0, 1), RECORD(0, 4, 0, 0), 2, 0, 2, 0, 1, 0};

/* Summary r(a(b), c), where b is granted; first pattern r(a(b(r)), a(b, c)) with position 1 at the root; the set is r(0, a) and r(a).
 * NORMAL is how it is written, the others are the same with other numbers. */
#define SUMMARY_NORMAL 4, 0, 0, 0, 1, 0, 0, 0, 0, 0, 2, 0, 0, 0, 1, 0, 3, 0, 1, 0, 0, 0, 4, 0, 0, 0
#define SUMMARY_OTHER 4, 0, 0, 0, 1, 0, 0, 0, 0, 0, 4, 0, 0, 0, 0, 0, 2, 0, 0, 0, 2, 0, 3, 0, 1, 0
#define ROOT RECORD(0, 1, 0, 1)
#define TREE_NORMAL                                                                                                                   \
  7, 0, ROOT, RECORD(0, 2, 0, 0), RECORD(1, 3, 0, 0), RECORD(1, 4, 0, 0), RECORD(0, 2, 0, 0), RECORD(4, 3, 0, 0), RECORD(5, 1, 0, 0)
#define TREE_AS_TYPED                                                                                                                 \
  7, 0, ROOT, RECORD(0, 2, 0, 0), RECORD(1, 3, 0, 0), RECORD(2, 1, 0, 0), RECORD(0, 2, 0, 0), RECORD(4, 3, 0, 0), RECORD(4, 4, 0, 0)
#define TREE_BY_LEVELS                                                                                                                \
  7, 0, ROOT, RECORD(0, 2, 0, 0), RECORD(0, 2, 0, 0), RECORD(1, 4, 0, 0), RECORD(2, 3, 0, 0), RECORD(1, 3, 0, 0), RECORD(4, 1, 0, 0)
#define SET_NORMAL 2, 0, 3, 0, ROOT, RECORD(0, 0, 1, 0), RECORD(0, 2, 0, 0), 2, 0, ROOT, RECORD(0, 2, 0, 0)
#define SET_OTHER 2, 0, 3, 0, ROOT, RECORD(0, 2, 0, 0), RECORD(0, 0, 1, 0), 2, 0, ROOT, RECORD(0, 2, 0, 0)
static const uint8_t normal[] = {SUMMARY_NORMAL, TREE_NORMAL, SET_NORMAL};
static const uint8_t numbered[][sizeof normal] = {
    {SUMMARY_NORMAL, TREE_NORMAL, SET_NORMAL}, {SUMMARY_OTHER, TREE_AS_TYPED, SET_OTHER}, {SUMMARY_OTHER, TREE_BY_LEVELS, SET_NORMAL}};

static uint8_t answer[CADWEZIN_ANSWER_BYTES + 1];
static struct cadwezin_node_record table[CADWEZIN_TABLE_RECORDS + 1];
/* The tallies lent, and what each is to hold after the calls so far. */
static struct cadwezin_tallies tallies, wanted;
static unsigned held;

static void hold(int right, const char *what) {
  if (!right) {
    fprintf(stderr, "calls: %s: not as it should be\n", what);
    exit(1);
  }
  held++;
}

/* Caller 0's tally is small. Those of the others are of all sizes, and no call of caller 0 has to do with them. */
static void fill(void) {
  static const struct cadwezin_tallies mixed = {
      {7, UINT64_MAX, CADWEZIN_TALLY_MOST, 0, CADWEZIN_TALLY_MOST + 1, UINT64_MAX - 1, 3, CADWEZIN_TALLY_MOST - 1}};
  memset(answer, FILLING, sizeof answer);
  memset(table, FILLING, sizeof table);
  tallies = wanted = mixed;
}

/* Field by field, since the bytes after the figure are free. */
static int same_record(const struct cadwezin_node_record *a, const struct cadwezin_node_record *b) {
  return a->parent == b->parent && a->at == b->at && a->label == b->label && a->figure == b->figure;
}

/* Whether everything lent is as fill left it, from these bytes and records on, and the tallies are as wanted. */
static int untouched(size_t bytes, size_t records) {
  struct cadwezin_node_record filled;
  int same = memcmp(&tallies, &wanted, sizeof tallies) == 0;
  memset(&filled, FILLING, sizeof filled);
  for (size_t i = bytes; i < sizeof answer; i++) {
    same = same && answer[i] == FILLING;
  }
  for (size_t i = records; i < COUNT(table); i++) {
    same = same && same_record(&table[i], &filled);
  }
  return same;
}

/* A verdict with all that is lent; tried is to be in the caller's tally, if there is such a caller. */
static struct cadwezin_verdict_answer verdict_on(const uint8_t *bytes, size_t length, uint64_t limit, uint64_t caller) {
  const struct cadwezin_verdict_answer got = cadwezin_verdict(bytes, length, limit, caller, &tallies, answer, sizeof answer);
  if (caller < CADWEZIN_CALLERS) {
    wanted.counts[caller] += got.tried;
  }
  return got;
}

static void judged(uint64_t limit, uint64_t kind, uint64_t tried, const uint8_t *shown, size_t length) {
  fill();
  const struct cadwezin_verdict_answer got = verdict_on(e6, sizeof e6, limit, 0);
  hold(got.refused == 0 && got.kind == kind && got.tried == tried, "a verdict");
  hold(length == 0 || memcmp(answer, shown, length) == 0, "what a verdict shows");
  hold(untouched(length, 0) && tallies.counts[0] == 7 + tried, "what a verdict leaves alone");
}

static void accepted(void) {
  static const uint8_t shown[] = {3, 0, NODE(0, 1, 0), NODE(0, 2, 0), NODE(1, 3, 0), 1, 0, 2, 0};
  static const uint8_t nodes[] = {2, 0, 1, 0, 2, 0};
  static const struct cadwezin_node_record laid[] = {{0, 0, 1, 0}, {0, 1, 2, 0}, {1, 2, 3, 0}};
  judged(1, CADWEZIN_STOPPED, 1, NULL, 0);
  judged(CADWEZIN_LIMIT_MOST, CADWEZIN_NOT_CONTAINED, 2, shown, sizeof shown);
  fill();
  const struct cadwezin_test_answer fits = cadwezin_fits(e6, sizeof e6, document, sizeof document);
  hold(fits.refused == 0 && fits.holds == 1, "fits");
  for (uint64_t number = 1; number <= 2; number++) {
    const struct cadwezin_test_answer result =
        cadwezin_result(e6, sizeof e6, number, document, sizeof document, node_2, sizeof node_2);
    hold(result.refused == 0 && result.holds == (number == 1), "is it a result");
  }
  const struct cadwezin_paths_answer paths = cadwezin_paths(e6, sizeof e6, 1);
  hold(paths.refused == 0 && paths.masks[0] == 1 && paths.masks[1] == 6 && paths.masks[2] == 0, "masks");
  hold(paths.counts[0] == 1 && paths.counts[1] == 2 && paths.counts[15] == 0, "counts");
  hold(untouched(0, 0), "what three calls leave alone");
  const struct cadwezin_count_answer found =
      cadwezin_nodes(e6, sizeof e6, 1, document, sizeof document, 1, answer, sizeof answer);
  hold(found.refused == 0 && found.count == 2 && memcmp(answer, nodes, sizeof nodes) == 0, "nodes at a position");
  hold(untouched(sizeof nodes, 0), "what nodes at a position leaves alone");
  fill();
  const struct cadwezin_count_answer count = cadwezin_layout(e6, sizeof e6, 1, placement, sizeof placement, table, COUNT(table));
  hold(count.refused == 0 && count.count == COUNT(laid), "a layout");
  for (size_t i = 0; i < COUNT(laid); i++) {
    hold(same_record(&table[i], &laid[i]), "a node laid out");
  }
  hold(untouched(0, COUNT(laid)), "what a layout leaves alone");
}

/* The union of two members has what neither has alone, and each call is about the pattern that it names. */
static void sets(void) {
  static const uint64_t masks[] = {6, 2, 4};
  fill();
  const struct cadwezin_verdict_answer got = verdict_on(two, sizeof two, CADWEZIN_LIMIT_MOST, 0);
  hold(got.refused == 0 && got.kind == CADWEZIN_CONTAINED && got.tried == 2, "a verdict on a union");
  hold(untouched(0, 0), "what a verdict on a union leaves alone");
  for (uint64_t number = 1; number <= 3; number++) {
    const struct cadwezin_paths_answer paths = cadwezin_paths(two, sizeof two, number);
    hold(paths.refused == 0 && paths.masks[1] == masks[number - 1], "a pattern by its number");
    const struct cadwezin_test_answer result =
        cadwezin_result(two, sizeof two, number, document, sizeof document, node_2, sizeof node_2);
    hold(result.refused == 0 && result.holds == (number != 2), "a result of a member");
  }
  hold(cadwezin_paths(two, sizeof two, 4).refused == 12, "a number past the last member");
  hold(cadwezin_fits(none, sizeof none, document, sizeof document).refused == 14, "a set of none");
  hold(verdict_on(none, sizeof none, 1, 0).refused == 14, "a verdict on a set of none");
  hold(untouched(0, 0), "what the calls about sets leave alone");
}

/* Summary r(a(b)); first pattern r//b, the member r(a(b)), each with figures. b is the first pattern's own node, and a is not: it has 0. */
static void figures(uint16_t own, uint16_t of_b, uint16_t of_a) {
  const uint8_t first[] = {SUMMARY, 2, 0, FIGURED(0, 1, 0, 0, own), FIGURED(0, 3, 1, 1, own), 1, 0};
  const uint8_t member[] = {3, 0, FIGURED(0, 1, 0, 0, own), FIGURED(0, 2, 0, 0, of_a), FIGURED(1, 3, 0, 1, of_b)};
  const uint8_t shown[] = {3, 0, NODE(0, 1, own), NODE(0, 2, 0), NODE(1, 3, own), 1, 0, 2, 0};
  const struct cadwezin_node_record laid[] = {{0, 0, 1, own}, {0, 1, 2, 0}, {1, 2, 3, own}};
  const uint8_t tall[] = {3, 0, NODE(0, 1, own), NODE(0, 2, of_a), NODE(1, 3, of_b)};
  const uint64_t refused = own > CADWEZIN_FIGURE_MOST || of_b > CADWEZIN_FIGURE_MOST || of_a > CADWEZIN_FIGURE_MOST ? 17 : 0;
  const int contained = refused == 0 && own >= of_b && of_a == 0;
  uint8_t bytes[sizeof first + sizeof member];
  memcpy(bytes, first, sizeof first);
  memcpy(bytes + sizeof first, member, sizeof member);
  fill();
  const struct cadwezin_verdict_answer got = verdict_on(bytes, sizeof bytes, 1, 0);
  const uint64_t kind = refused != 0 ? 0 : contained ? CADWEZIN_CONTAINED : CADWEZIN_NOT_CONTAINED;
  const size_t length = kind == CADWEZIN_NOT_CONTAINED ? sizeof shown : 0;
  hold(got.refused == refused && got.kind == kind && got.tried == (refused == 0), "a verdict by figures");
  hold(memcmp(answer, shown, length) == 0 && untouched(length, 0), "what a verdict by figures shows");
  fill();
  const struct cadwezin_test_answer result = cadwezin_result(bytes, sizeof bytes, 2, tall, sizeof tall, node_2, sizeof node_2);
  hold(result.refused == refused && result.holds == (refused == 0), "a result whose figures are just enough");
  const struct cadwezin_test_answer low = cadwezin_result(bytes, sizeof bytes, 2, document, sizeof document, node_2, sizeof node_2);
  hold(low.refused == refused && low.holds == (own + of_a + of_b == 0), "a result whose figures are 0");
  const struct cadwezin_test_answer fits = cadwezin_fits(e6, sizeof e6, tall, sizeof tall);
  hold(fits.refused == refused && fits.holds == (refused == 0), "fits, whatever the figures are");
  const struct cadwezin_count_answer count = cadwezin_layout(bytes, sizeof bytes, 1, placement, sizeof placement, table, COUNT(table));
  hold(count.refused == refused && count.count == (refused == 0 ? COUNT(laid) : 0), "a layout with figures");
  for (size_t i = 0; i < count.count; i++) {
    hold(same_record(&table[i], &laid[i]), "a node laid out with its figure");
  }
  hold(untouched(0, count.count), "what a layout with figures leaves alone");
  const struct cadwezin_count_answer back = cadwezin_downgrade(bytes, sizeof bytes, answer, sizeof answer);
  const int zero = own + of_a + of_b == 0;
  hold(back.refused == (refused != 0 ? refused : zero ? 0 : 15), "figures that would go back");
}

/* Equal or not, in both bytes, and at the bound. */
static void all_figures(void) {
  static const uint16_t some[] = {0, 1, 255, 256, 1999, 2000, 2001, UINT16_MAX};
  for (size_t i = 0; i < COUNT(some); i++) {
    for (size_t j = 0; j < COUNT(some); j++) {
      figures(some[i], some[j], 0);
      figures(some[i], some[i], some[j]);
    }
  }
}

/* One call of the three that write a case: what it answers, and what it writes or leaves alone. */
static void written(struct cadwezin_count_answer got, uint64_t refused, const uint8_t *wanted, size_t length, const char *what) {
  hold(got.refused == refused && got.count == length, what);
  hold(length == 0 || memcmp(answer, wanted, length) == 0, "the case that is written");
  hold(untouched(length, 0), "what writing a case leaves alone");
  fill();
}

/* An old case becomes a set of one and goes back; neither call takes what the other does, and only a set of one goes back. */
static void moves(void) {
  const size_t short_by_one = CADWEZIN_ANSWER_BYTES - 1;
  fill();
  written(cadwezin_upgrade(old, sizeof old, answer, sizeof answer), 0, e6, sizeof e6, "an old case");
  written(cadwezin_upgrade(old, sizeof old, answer, CADWEZIN_ANSWER_BYTES), 0, e6, sizeof e6, "an old case and the least buffer");
  written(cadwezin_downgrade(e6, sizeof e6, answer, sizeof answer), 0, old, sizeof old, "a set of one");
  written(cadwezin_downgrade(e6, sizeof e6, answer, CADWEZIN_ANSWER_BYTES), 0, old, sizeof old, "a set of one and the least buffer");
  written(cadwezin_upgrade(old, sizeof old, answer, short_by_one), 2, NULL, 0, "an old case and too short a buffer");
  written(cadwezin_downgrade(e6, sizeof e6, answer, short_by_one), 2, NULL, 0, "a set of one and too short a buffer");
  written(cadwezin_upgrade(e6, sizeof e6, answer, sizeof answer), 3, NULL, 0, "no old case");
  written(cadwezin_downgrade(old, sizeof old, answer, sizeof answer), 3, NULL, 0, "an old case that would go back");
  written(cadwezin_downgrade(two, sizeof two, answer, sizeof answer), 15, NULL, 0, "a set of two");
  written(cadwezin_downgrade(none, sizeof none, answer, sizeof answer), 14, NULL, 0, "a set of none that would go back");
  written(cadwezin_upgrade(old_none, sizeof old_none, answer, sizeof answer), 4, NULL, 0, "an old case with an empty pattern");
}

/* One case is written alike, whatever the numbers of its nodes are; E6 and the set of two stand in that way already. */
static void normal_forms(void) {
  const size_t short_by_one = CADWEZIN_ANSWER_BYTES - 1;
  fill();
  for (size_t i = 0; i < COUNT(numbered); i++) {
    const uint8_t *bytes = numbered[i];
    written(cadwezin_normalise(bytes, sizeof normal, answer, sizeof answer), 0, normal, sizeof normal, "a case by any numbers");
    written(cadwezin_normalise(bytes, sizeof normal, answer, CADWEZIN_ANSWER_BYTES), 0, normal, sizeof normal, "and the least buffer");
    written(cadwezin_normalise(bytes, sizeof normal, answer, short_by_one), 2, NULL, 0, "and too short a buffer");
    written(cadwezin_normalise(bytes, sizeof normal - 1, answer, sizeof answer), 3, NULL, 0, "and a byte less");
  }
  written(cadwezin_normalise(e6, sizeof e6, answer, sizeof answer), 0, e6, sizeof e6, "a set of one in its order");
  written(cadwezin_normalise(two, sizeof two, answer, sizeof answer), 0, two, sizeof two, "a set of two in its order");
  written(cadwezin_normalise(old, sizeof old, answer, sizeof answer), 3, NULL, 0, "an old case to be written");
  written(cadwezin_normalise(none, sizeof none, answer, sizeof answer), 14, NULL, 0, "a set of none to be written");
  written(cadwezin_normalise(unheld, sizeof unheld, answer, sizeof answer), 8, NULL, 0, "no position and a case to be written");
}

/* One verdict that is refused or, with 0, accepted; everything else stays, the other seven tallies among it. */
static void asked(const uint8_t *bytes, size_t length, uint64_t caller, uint64_t refused, const char *what) {
  const struct cadwezin_verdict_answer got = verdict_on(bytes, length, 1, caller);
  hold(got.refused == refused && (refused == 0 || (got.kind == 0 && got.tried == 0)), what);
  hold(untouched(0, 0), "what a verdict of a caller leaves alone");
}

static void set_tally(size_t caller, uint64_t count) {
  tallies.counts[caller] = wanted.counts[caller] = count;
}

/* Each caller's tally at the bound and one above it, whatever the others hold. */
static void tallies_of_callers(void) {
  static const uint64_t full[] = {CADWEZIN_TALLY_MOST, CADWEZIN_TALLY_MOST + 1, UINT64_MAX - 1, UINT64_MAX};
  for (size_t caller = 0; caller < CADWEZIN_CALLERS; caller++) {
    fill();
    set_tally(caller, CADWEZIN_TALLY_MOST - 1);
    asked(e6, sizeof e6, caller, 0, "a tally one below the bound");
    hold(tallies.counts[caller] == CADWEZIN_TALLY_MOST, "a tally at the bound");
    asked(e6, sizeof e6, caller, 9, "a tally at the bound");
    for (size_t i = 0; i < COUNT(full); i++) {
      set_tally(caller, full[i]);
      asked(e6, sizeof e6, caller, 9, "a tally past the bound");
    }
    memset(&tallies, 0xFF, sizeof tallies);
    wanted = tallies;
    asked(e6, sizeof e6, caller, 9, "all tallies as great as can be");
    set_tally(caller, 0);
    asked(e6, sizeof e6, caller, 0, "all other tallies as great as can be");
  }
}

/* Striking out by a caller, with all that is lent. */
static struct cadwezin_minimise_answer strike(const uint8_t *bytes, size_t length, uint64_t limit, uint64_t caller) {
  const struct cadwezin_minimise_answer got = cadwezin_minimise(bytes, length, limit, caller, &tallies, answer, sizeof answer);
  if (caller < CADWEZIN_CALLERS) {
    wanted.counts[caller] += got.tried;
  }
  return got;
}

/* b goes, then a, then c stays: one trial each. */
static void struck(uint64_t limit, uint64_t caller, uint64_t tally) {
  fill();
  set_tally(caller, tally);
  const struct cadwezin_minimise_answer got = strike(order, sizeof order, limit, caller);
  hold(got.refused == 0 && got.struck == 2 && got.tried == 3, "an order that is shortened");
  hold(memcmp(answer, left_over, sizeof left_over) == 0, "what is left of an order");
  hold(untouched(sizeof left_over, 0) && tallies.counts[caller] == tally + 3, "what striking out leaves alone");
}

static void not_struck(const uint8_t *bytes, size_t length, uint64_t limit, uint64_t caller, uint64_t refused) {
  const struct cadwezin_minimise_answer got = strike(bytes, length, limit, caller);
  hold(got.refused == refused && got.struck == 0 && got.tried == 0, "an order that is refused");
  hold(untouched(0, 0), "what a refused order leaves alone");
}

/* Each caller's tally with room for 120 times the limit, and with less; and refusals by the other questions. */
static void strikes(void) {
  static const uint64_t limits[] = {1, 5, CADWEZIN_LIMIT_MOST};
  for (size_t caller = 0; caller < CADWEZIN_CALLERS; caller++) {
    for (size_t i = 0; i < COUNT(limits); i++) {
      const uint64_t room = CADWEZIN_MINIMISE_VERDICTS * limits[i];
      const uint64_t full[] = {CADWEZIN_TALLY_MOST - room + 1, CADWEZIN_TALLY_MOST - limits[i], UINT64_MAX - room + 1, UINT64_MAX};
      struck(limits[i], caller, 0);
      struck(limits[i], caller, CADWEZIN_TALLY_MOST - room);
      fill();
      for (size_t j = 0; j < COUNT(full); j++) {
        set_tally(caller, full[j]);
        not_struck(order, sizeof order, limits[i], caller, 9);
      }
    }
  }
  fill();
  not_struck(order, sizeof order, 0, 8, 1);
  not_struck(order, sizeof order - 1, 1, 8, 3);
  not_struck(none, sizeof none, 1, 8, 14);
  not_struck(unheld, sizeof unheld, 1, 8, 8);
  not_struck(order, sizeof order, 1, CADWEZIN_CALLERS, 16);
  not_struck(order, sizeof order, 1, UINT64_MAX, 16);
}

/* Callers that there are not: after question 8, before question 9, with no tally touched. */
static void callers(void) {
  static const uint64_t nobody[] = {8, 9, 255, 256, 65536, UINT64_C(1) << 32, (UINT64_C(1) << 32) + 7, UINT64_C(1) << 63, UINT64_MAX};
  for (size_t i = 0; i < COUNT(nobody); i++) {
    fill();
    asked(e6, sizeof e6, nobody[i], 16, "no such caller");
    asked(unheld, sizeof unheld, nobody[i], 8, "no such caller and no position");
    memset(&tallies, 0xFF, sizeof tallies);
    wanted = tallies;
    asked(e6, sizeof e6, nobody[i], 16, "no such caller and no room in a tally");
  }
  asked(unheld, sizeof unheld, 7, 8, "no position and no room in a tally");
}

/* Each call with empty slices that have no address, then with only its last slice so. */
static void empty(void) {
  fill();
  struct cadwezin_verdict_answer verdict = cadwezin_verdict(NULL, 0, 1, 0, &tallies, answer, sizeof answer);
  hold(verdict.refused == 3 && verdict.kind == 0 && verdict.tried == 0, "a verdict on nothing");
  verdict = cadwezin_verdict(e6, sizeof e6, 1, 0, &tallies, NULL, 0);
  hold(verdict.refused == 2 && verdict.kind == 0 && verdict.tried == 0, "a verdict without a buffer");
  struct cadwezin_minimise_answer shorter = cadwezin_minimise(NULL, 0, 1, 0, &tallies, answer, sizeof answer);
  hold(shorter.refused == 3 && shorter.struck == 0 && shorter.tried == 0, "striking out of nothing");
  shorter = cadwezin_minimise(order, sizeof order, 1, 0, &tallies, NULL, 0);
  hold(shorter.refused == 2 && shorter.struck == 0 && shorter.tried == 0, "striking out without a buffer");
  struct cadwezin_test_answer test = cadwezin_fits(NULL, 0, NULL, 0);
  hold(test.refused == 3 && test.holds == 0, "fits of nothing");
  test = cadwezin_fits(e6, sizeof e6, NULL, 0);
  hold(test.refused == 10 && test.holds == 0, "fits of no document");
  test = cadwezin_result(NULL, 0, 1, NULL, 0, NULL, 0);
  hold(test.refused == 3 && test.holds == 0, "a result of nothing");
  test = cadwezin_result(e6, sizeof e6, 1, document, sizeof document, NULL, 0);
  hold(test.refused == 11 && test.holds == 0, "no result");
  struct cadwezin_count_answer count = cadwezin_nodes(NULL, 0, 1, NULL, 0, 1, NULL, 0);
  hold(count.refused == 2 && count.count == 0, "nodes of nothing");
  count = cadwezin_nodes(e6, sizeof e6, 1, NULL, 0, 1, answer, sizeof answer);
  hold(count.refused == 10 && count.count == 0, "nodes of no document");
  count = cadwezin_layout(NULL, 0, 1, NULL, 0, NULL, 0);
  hold(count.refused == 2 && count.count == 0, "a layout of nothing");
  count = cadwezin_layout(e6, sizeof e6, 1, NULL, 0, table, COUNT(table));
  hold(count.refused == 13 && count.count == 0, "a layout of no placement");
  count = cadwezin_upgrade(NULL, 0, NULL, 0);
  hold(count.refused == 2 && count.count == 0, "nothing, without a buffer");
  count = cadwezin_upgrade(NULL, 0, answer, sizeof answer);
  hold(count.refused == 3 && count.count == 0, "nothing in the old form");
  count = cadwezin_downgrade(e6, sizeof e6, NULL, 0);
  hold(count.refused == 2 && count.count == 0, "a set of one without a buffer");
  count = cadwezin_downgrade(NULL, 0, answer, sizeof answer);
  hold(count.refused == 3 && count.count == 0, "nothing to go back");
  count = cadwezin_normalise(e6, sizeof e6, NULL, 0);
  hold(count.refused == 2 && count.count == 0, "a case to be written without a buffer");
  count = cadwezin_normalise(NULL, 0, answer, sizeof answer);
  hold(count.refused == 3 && count.count == 0, "nothing to be written");
  const struct cadwezin_paths_answer paths = cadwezin_paths(NULL, 0, 1);
  hold(paths.refused == 3, "paths of nothing");
  for (size_t i = 0; i < CADWEZIN_PATTERN_NODES_MOST; i++) {
    hold(paths.masks[i] == 0 && paths.counts[i] == 0, "paths of a refusal");
  }
  hold(untouched(0, 0), "what refusals leave alone");
}

int main(void) {
  accepted();
  sets();
  moves();
  tallies_of_callers();
  callers();
  strikes();
  normal_forms();
  all_figures();
  empty();
  printf("calls: %u answers from C as they should be\n", held);
  return 0;
}
