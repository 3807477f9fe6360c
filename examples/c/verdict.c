/* verdict CASE: the verdict on the case in a file, with limit 1,000,000, caller 0 and tallies 0, printed as document 01 says. Exit status:
 * 0 included, 1 not included, 2 stopped, 3 refused; 4 the case can't be read, 5 the answer can't be written, 7 wrong usage. */
#include "cadwezin.h"
#include <errno.h>
#include <inttypes.h>
#include <signal.h>
#include <stdio.h>

#define CALLER 0
#define RECORD_BYTES 6

enum status { INCLUDED, NOT_INCLUDED, STOPPED, REFUSED, UNREADABLE, UNWRITABLE, MISUSED = 7 };

/* One byte more than a case may have: what is longer is refused, cut or not. */
static uint8_t case_bytes[CADWEZIN_CASE_BYTES_MOST + 1];
static uint8_t answer[CADWEZIN_ANSWER_BYTES];

/* The field that begins at a byte of the answer. */
static unsigned field(size_t at) {
  return answer[at] | (unsigned)answer[at + 1] << 8;
}

/* The document's section stands at the front, the result after its last record. */
static void print_shown(void) {
  const unsigned nodes = field(0);
  size_t at = 2;
  for (unsigned i = 0; i < nodes; i++, at += RECORD_BYTES) {
    printf("node %u %u %u %u\n", i, field(at), field(at + 2), field(at + 4));
  }
  printf("answer");
  for (unsigned i = 0; i < field(at); i++) {
    printf(" %u", field(at + 2 + 2 * (size_t)i));
  }
  printf("\n");
}

static enum status print_verdict(size_t length) {
  struct cadwezin_tallies tallies = {{0}};
  const struct cadwezin_verdict_answer got =
      cadwezin_verdict(case_bytes, length, CADWEZIN_LIMIT_MOST, CALLER, &tallies, answer, sizeof answer);
  if (got.refused != 0) {
    printf("refused %" PRIu64 "\n", got.refused);
    return REFUSED;
  }
  printf("%s\n", got.kind == CADWEZIN_CONTAINED ? "included" : got.kind == CADWEZIN_STOPPED ? "stopped" : "not included");
  printf("tried %" PRIu64 "\n", got.tried);
  if (got.kind == CADWEZIN_NOT_CONTAINED) {
    print_shown();
    return NOT_INCLUDED;
  }
  return got.kind == CADWEZIN_CONTAINED ? INCLUDED : STOPPED;
}

/* Tells why the case can't be read, by errno: a directory can be opened and not read. */
static enum status unreadable(const char *path) {
  if (errno == ENOENT) {
    fprintf(stderr, "verdict: there is no file %s\n", path);
  } else {
    fprintf(stderr, "verdict: %s %s\n", path, errno == EISDIR ? "is a directory" : "can't be read");
  }
  return UNREADABLE;
}

int main(int count, char **words) {
  if (count != 2) {
    fprintf(stderr, "verdict: usage: verdict CASE\n");
    return MISUSED;
  }
  FILE *file = fopen(words[1], "rb");
  if (file == NULL) {
    return unreadable(words[1]);
  }
  const size_t length = fread(case_bytes, 1, sizeof case_bytes, file);
  if (ferror(file)) {
    return unreadable(words[1]);
  }
  fclose(file);
  /* A reader that has gone is a write error like any other. */
  signal(SIGPIPE, SIG_IGN);
  const enum status told = print_verdict(length);
  if (fflush(stdout) != 0 || ferror(stdout)) {
    fprintf(stderr, "verdict: the answer can't be written\n");
    return UNWRITABLE;
  }
  return told;
}
