/* minimise: the first pattern of the case on standard input, shortened with limit 1,000,000, caller 0 and tallies 0. Prints how many
 * canonical documents were tried, a line for each node that is left (number, parent, label, edge, position, figure), and the numbers of
 * the struck ones, in the order in which they went. Exit status: 0 shortened as far as it goes; 3 refused, with a line that says so; 4 the
 * case can't be read, 5 the answer can't be written, 7 wrong usage. */
#include "cadwezin.h"
#include <inttypes.h>
#include <signal.h>
#include <stdio.h>

#define CALLER 0
#define RECORD_FIELDS 5

enum status { SHORTENED, REFUSED = 3, UNREADABLE, UNWRITABLE, MISUSED = 7 };

/* One byte more than a case may have: what is longer is refused, cut or not. */
static uint8_t case_bytes[CADWEZIN_CASE_BYTES_MOST + 1];
static uint8_t answer[CADWEZIN_ANSWER_BYTES];

static enum status told(enum status status, const char *trouble) {
  fprintf(stderr, "minimise: %s\n", trouble);
  return status;
}

/* So many fields of the answer from a byte on, as the end of a line. */
static void print_fields(size_t at, unsigned count) {
  for (unsigned i = 0; i < count; i++, at += 2) {
    printf(" %u", answer[at] | (unsigned)answer[at + 1] << 8);
  }
  printf("\n");
}

/* The section of what is left stands at the front, the struck nodes after its last record. */
static void print_shortened(void) {
  const unsigned nodes = answer[0];
  size_t at = 2;
  for (unsigned i = 0; i < nodes; i++, at += 2 * RECORD_FIELDS) {
    printf("node %u", i);
    print_fields(at, RECORD_FIELDS);
  }
  printf("struck");
  print_fields(at + 2, answer[at]);
}

static enum status print_answer(size_t length) {
  struct cadwezin_tallies tallies = {{0}};
  const struct cadwezin_minimise_answer got =
      cadwezin_minimise(case_bytes, length, CADWEZIN_LIMIT_MOST, CALLER, &tallies, answer, sizeof answer);
  if (got.refused != 0) {
    printf("refused %" PRIu64 "\n", got.refused);
    return REFUSED;
  }
  printf("tried %" PRIu64 "\n", got.tried);
  print_shortened();
  return SHORTENED;
}

int main(int count, char **words) {
  (void)words;
  if (count != 1) {
    return told(MISUSED, "usage: minimise < CASE");
  }
  const size_t length = fread(case_bytes, 1, sizeof case_bytes, stdin);
  if (ferror(stdin)) {
    return told(UNREADABLE, "the case can't be read");
  }
  /* A reader that has gone is a write error like any other. */
  signal(SIGPIPE, SIG_IGN);
  const enum status status = print_answer(length);
  if (fflush(stdout) != 0 || ferror(stdout)) {
    return told(UNWRITABLE, "the answer can't be written");
  }
  return (int)status;
}
