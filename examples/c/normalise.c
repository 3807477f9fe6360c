/* normalise: the case on standard input, written to standard output in the one way there is for all cases that are one but for the
 * numbers of their nodes: two files hold the same order exactly when this writes the same bytes for both. Exit status: 0 written; 3
 * refused, with a line on standard error and nothing written; 4 the case can't be read, 5 it can't be written, 7 wrong usage. */
#include "cadwezin.h"
#include <inttypes.h>
#include <signal.h>
#include <stdio.h>

enum status { WRITTEN, REFUSED = 3, UNREADABLE, UNWRITABLE, MISUSED = 7 };

/* One byte more than a case may have: what is longer is refused, cut or not. */
static uint8_t case_bytes[CADWEZIN_CASE_BYTES_MOST + 1];
static uint8_t answer[CADWEZIN_ANSWER_BYTES];

static enum status told(enum status status, const char *trouble) {
  fprintf(stderr, "%s\n", trouble);
  return status;
}

int main(int count, char **words) {
  (void)words;
  if (count != 1) {
    return told(MISUSED, "usage: normalise < CASE");
  }
  const size_t length = fread(case_bytes, 1, sizeof case_bytes, stdin);
  if (ferror(stdin)) {
    return told(UNREADABLE, "the case can't be read");
  }
  const struct cadwezin_count_answer got = cadwezin_normalise(case_bytes, length, answer, sizeof answer);
  if (got.refused != 0) {
    fprintf(stderr, "refused %" PRIu64 "\n", got.refused);
    return REFUSED;
  }
  /* A reader that has gone is a write error like any other. */
  signal(SIGPIPE, SIG_IGN);
  if (fwrite(answer, 1, (size_t)got.count, stdout) != got.count || fflush(stdout) != 0) {
    return told(UNWRITABLE, "the case can't be written");
  }
  return WRITTEN;
}
