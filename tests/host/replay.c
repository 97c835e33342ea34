/* Replays journals through the C entries, on tables that end at an inaccessible page.

   replay printed JOURNAL.vjr ...     what is printed is held to JOURNAL.out
   replay places STORED.places ...    after the making and after each record the answer, what goes with it and every
                                      place of the six tables are held to the stored file; the first that differs is
                                      named
   replay digests STORED.digests ...  the same with one 64-bit number for the six tables, which names no place: for
                                      journals whose places would fill too large a file

   The model wrote the stored files (replay_tables). Prints "ok" and the count of checks, or each check that fails. It
   fails too where the files are not all that there are, or one of them is cut. */
#include "lent.h"
#include <ctype.h>
#include <inttypes.h>
#include <stdio.h>
#include <stdlib.h>
#include <string.h>

/* No line is longer. */
enum { LINE = 512 };

/* A text that grows. */
typedef struct {
  char *at;
  size_t length, room;
} Text;

static void print(Text *text, const char *format, int64_t a, int64_t b, int64_t c, int64_t d) {
  if (text->room - text->length < LINE) {
    text->room = 2 * text->room + LINE;
    text->at = realloc(text->at, text->room);
    if (text->at == NULL) exit(2);
  }
  text->length += (size_t)snprintf(text->at + text->length, LINE, format, a, b, c, d);
}

/* What is done with each answer: the count of the record, or 0 for the making, its number and what goes with it. */
typedef void Each(void *with, const Tables *tables, int64_t count, uint64_t number, uint64_t detail);

/* The journal's records in turn, up to the first that is number 3. */
static void replay(const Tables *tables, const uint8_t *bytes, size_t n, Each *each, void *with) {
  uint64_t number = make(tables, bytes, n);
  each(with, tables, 0, number, 0);
  if (number != LEDGER_ACCEPTED) return;
  const uint64_t *head = tables->at[HEAD];
  size_t at = LEDGER_HEADER_BYTES + head[LEDGER_HOLIDAY_COUNT] * LEDGER_HOLIDAY_BYTES +
              head[LEDGER_MEMBERS] * LEDGER_LIMIT_BYTES;
  for (int64_t count = 1; at < n && number != LEDGER_RECORD_UNSOUND; count++) {
    size_t length = front_length(bytes + at, n - at);
    uint64_t detail;
    number = apply(tables, bytes + at, length, &detail);
    each(with, tables, count, number, detail);
    at += length;
  }
}

typedef struct {
  Text text;
  int64_t accepted, refused;
} Printed;

static void print_answer(void *with, const Tables *tables, int64_t count, uint64_t number, uint64_t detail) {
  Printed *printed = with;
  const int64_t *head = (const int64_t *)tables->at[HEAD], *line = (const int64_t *)tables->at[LINES];
  if (number != LEDGER_ACCEPTED) {
    printed->refused++;
    print(&printed->text, "R %" PRId64 " %" PRId64 "\n", count, (int64_t)number, 0, 0);
  } else if (count == 0) {
    print(&printed->text, "H %" PRId64 " %" PRId64 " %" PRId64 "\n", head[LEDGER_FIRST_YEAR], head[LEDGER_DAY],
          head[LEDGER_MEMBERS], 0);
  } else {
    printed->accepted++;
    for (uint64_t i = 0; i < detail; i++, line += LEDGER_LINE_WIDTH)
      print(&printed->text, "D %" PRId64 " %" PRId64 " %" PRId64 " %" PRId64 "\n", line[LEDGER_LINE_MEMBER],
            line[LEDGER_LINE_CONTRACT], line[LEDGER_LINE_LOTS], line[LEDGER_LINE_PRICE]);
  }
}

static void compare_printed(const Tables *tables, const char *path) {
  size_t n, expected_length, stem = strlen(path) - strlen("vjr");
  char out[256];
  snprintf(out, sizeof out, "%.*sout", (int)stem, path);
  uint8_t *bytes = read_file(path, &n), *expected = read_file(out, &expected_length);
  Printed printed = {{NULL, 0, 0}, 0, 0};
  soil(tables);
  replay(tables, bytes, n, print_answer, &printed);
  if (printed.text.at[0] == 'H')
    print(&printed.text, "E %" PRId64 " %" PRId64 " %" PRId64 "\n", printed.accepted, printed.refused,
          (int64_t)tables->at[HEAD][LEDGER_LOTS_RUN], 0);
  expect(printed.text.length == expected_length && memcmp(printed.text.at, expected, expected_length) == 0,
         "%s prints\n%s", path, printed.text.at);
  free(printed.text.at);
  free(expected);
  free(bytes);
}

/* The lines of a stored file that are still to come, and the tables as its lines up to now say they are. */
typedef struct {
  const char *path, *rest;
  Tables tables;
} Stored;

static const char *next_line(Stored *stored, char *line) {
  size_t length = strcspn(stored->rest, "\n");
  snprintf(line, LINE, "%.*s", (int)length, stored->rest);
  stored->rest += length + (stored->rest[length] == '\n');
  return line;
}

static void compare_line(Stored *stored, const char *got) {
  char line[LINE];
  expect(strcmp(got, next_line(stored, line)) == 0, "%s has '%s', the library '%s'", stored->path, line, got);
}

static void compare_digest(void *with, const Tables *tables, int64_t count, uint64_t number, uint64_t detail) {
  char got[LINE];
  snprintf(got, LINE, "%" PRId64 " %" PRIu64 " %" PRIu64 " %016" PRIx64, count, number, detail, digest(tables));
  compare_line(with, got);
}

/* Takes the lines up to the next call's: a table, a place, and the numbers of that place and those after it. */
static void change_places(Stored *stored) {
  while (islower((unsigned char)*stored->rest)) {
    char line[LINE], name[LINE] = "";
    size_t place = 0;
    int64_t number;
    int t = 0, at = 0, taken;
    sscanf(next_line(stored, line), "%s %zu%n", name, &place, &at);
    while (t < TABLES && strcmp(name, TABLE_NAMES[t]) != 0) t++;
    for (; t < TABLES && place < LEAST[t] && sscanf(line + at, "%" SCNd64 "%n", &number, &taken) == 1; at += taken)
      stored->tables.at[t][place++] = (uint64_t)number;
    expect(line[at] == 0, "%s has the line '%s'", stored->path, line);
  }
}

/* The first place where tables differ, if they do. */
typedef struct {
  bool found;
  int table;
  size_t place;
} Difference;

static Difference first_difference(const Tables *a, const Tables *b) {
  for (int t = 0; t < TABLES; t++)
    for (size_t i = 0; i < LEAST[t]; i++)
      if (a->at[t][i] != b->at[t][i]) return (Difference){true, t, i};
  return (Difference){false, 0, 0};
}

/* Where a place differs the library's tables are taken over, so that it is named once. */
static void compare_places(void *with, const Tables *tables, int64_t count, uint64_t number, uint64_t detail) {
  Stored *stored = with;
  char got[LINE];
  snprintf(got, LINE, "%" PRId64 " %" PRIu64 " %" PRIu64, count, number, detail);
  compare_line(stored, got);
  change_places(stored);
  const Difference d = first_difference(&stored->tables, tables);
  expect(!d.found, "%s, after record %" PRId64 ": %s %zu is %" PRId64 ", the library has %" PRId64, stored->path, count,
         TABLE_NAMES[d.table], d.place, (int64_t)stored->tables.at[d.table][d.place],
         (int64_t)tables->at[d.table][d.place]);
  copy(&stored->tables, tables);
}

static void compare_stored(const Tables *tables, const char *path, Each *compare) {
  static const char word[] = "journal ";
  size_t n;
  char line[LINE];
  char *text = (char *)read_file(path, &n);
  Stored stored = {path, text, lend(0)};
  next_line(&stored, line);
  expect(strncmp(line, word, strlen(word)) == 0, "%s names no journal", path);
  uint8_t *bytes = read_file(line + strlen(word), &n);
  soil(tables);
  soil(&stored.tables);
  replay(tables, bytes, n, compare, &stored);
  expect(*stored.rest == 0, "%s has more lines than the journal has records", path);
  give_back(&stored.tables);
  free(bytes);
  free(text);
}

/* The checks of each form on all its files: of 'printed' one a journal. */
enum { PRINTED_CHECKS = 66, PLACES_CHECKS = 2629, DIGESTS_CHECKS = 1304 };

int main(int count, char **words) {
  const char *form = count > 2 ? words[1] : "";
  const Tables tables = lend_guarded(0, ENDS);
  int checks = 0;
  for (int i = 2; i < count; i++)
    if (strcmp(form, "printed") == 0) checks = PRINTED_CHECKS, compare_printed(&tables, words[i]);
    else if (strcmp(form, "places") == 0) checks = PLACES_CHECKS, compare_stored(&tables, words[i], compare_places);
    else if (strcmp(form, "digests") == 0) checks = DIGESTS_CHECKS, compare_stored(&tables, words[i], compare_digest);
    else form = "";
  if (*form != 0) return finish_after(checks);
  fprintf(stderr, "replay printed JOURNAL ... | replay places STORED ... | replay digests STORED ...\n");
  return 2;
}
