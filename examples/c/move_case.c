/* move_case upgrade and move_case downgrade: a case from standard input, out of the old form into today's or back, to standard output.
 * Exit status: 0 moved; 3 refused, with a line on standard error and nothing written; 4 the case can't be read, 5 it can't be written, 7
 * wrong usage. */
#include "cadwezin.h"
#include <inttypes.h>
#include <signal.h>
#include <stdio.h>
#include <string.h>

enum status { MOVED, REFUSED = 3, UNREADABLE, UNWRITABLE, MISUSED = 7 };

/* One byte more than a case may have: what is longer is refused, cut or not. */
static uint8_t case_bytes[CADWEZIN_CASE_BYTES_MOST + 1];
static uint8_t answer[CADWEZIN_ANSWER_BYTES];

static enum status told(enum status status, const char *trouble) {
  fprintf(stderr, "%s\n", trouble);
  return status;
}

int main(int count, char **words) {
  const int over = count == 2 && strcmp(words[1], "upgrade") == 0;
  if (!over && (count != 2 || strcmp(words[1], "downgrade") != 0)) {
    return told(MISUSED, "usage: move_case upgrade|downgrade");
  }
  const size_t length = fread(case_bytes, 1, sizeof case_bytes, stdin);
  if (ferror(stdin)) {
    return told(UNREADABLE, "the case can't be read");
  }
  const struct cadwezin_count_answer got = over ? cadwezin_upgrade(case_bytes, length, answer, sizeof answer)
                                                : cadwezin_downgrade(case_bytes, length, answer, sizeof answer);
  if (got.refused != 0) {
    fprintf(stderr, "refused %" PRIu64 "\n", got.refused);
    return REFUSED;
  }
  /* A reader that has gone is a write error like any other. */
  signal(SIGPIPE, SIG_IGN);
  if (fwrite(answer, 1, (size_t)got.count, stdout) != got.count || fflush(stdout) != 0) {
    return told(UNWRITABLE, "the case can't be written");
  }
  return MOVED;
}
