/* Cases of document 01, of the slides and of edges, as records applied to ledgers through the C entries. Each stands in the file
   that is named, in words, with the working where it needs one; what is printed is held to cases.out, which was worked out by
   hand from document 01. For a record it is the number and the deal lines, each as member, contract, lots, price. */
#include "lent.h"
#include <ctype.h>
#include <inttypes.h>
#include <stdio.h>
#include <stdlib.h>
#include <string.h>

enum { MOST_NUMBERS = 16, LAST_SECOND = 86399 };
/* The cases of the file, and the records of all. */
enum { CASES = 57, RECORDS = 1020 };
static int cases, records_taken;

static Tables tables;
static int64_t *lots, *value, *lines;

/* Whether the present case has made its ledger. */
static bool made;

/* A line of the file: what is left of its words, and all its numbers. */
typedef struct {
  const char *words;
  uint64_t n[MOST_NUMBERS];
  size_t count;
} Line;

/* The legs of the next proposal, each an order, lots and a price. */
static uint64_t legs[LEDGER_MOST_LEGS * LEDGER_LEG_FIELDS];
static size_t leg_numbers;

static void stop(const Line *line) {
  printf("\nno such line: %s\n", line->words);
  exit(1);
}

/* So many numbers stand in the line, and not one more. */
static void needs(const Line *line, size_t count) {
  if (line->count != count) stop(line);
}

static Line line_of(const char *text) {
  Line line = {text, {0}, 0};
  while (*text != '\0') {
    if (!isdigit((unsigned char)*text)) {
      text++;
      continue;
    }
    if (line.count == MOST_NUMBERS) stop(&line);
    char *end;
    line.n[line.count++] = strtoull(text, &end, 10);
    text = end;
  }
  return line;
}

/* Whether the line begins with the words, whole ones, which are then behind it. */
static bool begins(Line *line, const char *words) {
  size_t length = strlen(words);
  if (strncmp(line->words, words, length) != 0) return false;
  const char *rest = line->words + length;
  if (*rest != ' ' && *rest != '\0') return false;
  line->words = *rest == ' ' ? rest + 1 : rest;
  return true;
}

static size_t below(const Line *line, uint64_t number, size_t end) {
  if (number >= end) stop(line);
  return (size_t)number;
}

/* First year, start day, members, the limit of each; the weekdays from one day up to another are holidays. Day 0 is a Wednesday. */
static void take_ledger(const Line *line) {
  uint64_t holidays[LEDGER_MOST_HOLIDAYS];
  size_t count = 0;
  if (line->count != 4) needs(line, 6);
  for (uint64_t day = line->n[4]; day < line->n[5]; day++)
    if (day % 7 != 3 && day % 7 != 4) holidays[below(line, count++, LEDGER_MOST_HOLIDAYS)] = day;
  Bytes bytes = header_from(line->n[0], line->n[1], line->n[2], line->n[3], holidays, count);
  if (make(&tables, bytes.at, bytes.length) != LEDGER_ACCEPTED) stop(line);
  made = true;
}

static void show_answer(uint64_t number, uint64_t detail) {
  printf(" %" PRIu64, number);
  if (number == LEDGER_MEMBER_DEFAULTED || number == LEDGER_CONTRACT_NOT_OPEN) printf(" of %" PRIu64, detail);
}

static void show_lines(uint64_t count) {
  for (const int64_t *l = lines; l < lines + count * LEDGER_LINE_WIDTH; l += LEDGER_LINE_WIDTH)
    printf(" ( %" PRId64 " %" PRId64 " %" PRId64 " %" PRId64 " )", l[LEDGER_LINE_MEMBER], l[LEDGER_LINE_CONTRACT],
           l[LEDGER_LINE_LOTS], l[LEDGER_LINE_PRICE]);
}

/* What is shown of the answer: a refusal, where it should be accepted; the number and the lines; the number and how many lines. */
typedef enum { REFUSAL, ANSWER, LINE_COUNT } Shown;

static void take_record(const Bytes *record, Shown shown) {
  records_taken++;
  uint64_t detail, number = apply(&tables, record->at, record->length, &detail);
  if (shown == REFUSAL && number == LEDGER_ACCEPTED) return;
  if (shown == REFUSAL) printf(" given");
  show_answer(number, detail);
  if (number != LEDGER_ACCEPTED) return;
  if (shown == ANSWER) show_lines(detail);
  else printf(", lines %" PRIu64, detail);
}

/* Time, member, contract, price, lots. */
static Bytes submit(const uint64_t *n, uint64_t side, uint64_t order_kind) {
  return RECORD(LEDGER_KIND_SUBMIT, n[0], n[1], n[2], side, order_kind, n[3], n[4]);
}

static bool is_submit(Line *line, Bytes *record) {
  static const struct {
    const char *words;
    uint64_t side, order_kind;
  } submits[] = {{"buy", LEDGER_BUY, LEDGER_RESTING},
                 {"sell", LEDGER_SELL, LEDGER_RESTING},
                 {"OEYE buy", LEDGER_BUY, LEDGER_OEYE},
                 {"TEYE buy", LEDGER_BUY, LEDGER_TEYE}};
  for (size_t i = 0; i < sizeof submits / sizeof *submits; i++)
    if (begins(line, submits[i].words)) {
      needs(line, 5);
      *record = submit(line->n, submits[i].side, submits[i].order_kind);
      return true;
    }
  return false;
}

/* The legs that were gathered, with how many the line says. */
static Bytes proposal(const Line *line) {
  uint64_t fields[1 + sizeof legs / sizeof *legs] = {line->n[0]};
  needs(line, 1);
  memcpy(fields + 1, legs, leg_numbers * sizeof *legs);
  Bytes record = record_of(LEDGER_KIND_PROPOSAL, fields, 1 + leg_numbers);
  leg_numbers = 0;
  return record;
}

/* The bytes of a record as they stand in the line. */
static Bytes bytes_of(const Line *line) {
  Bytes record = {{0}, 0};
  for (size_t i = 0; i < line->count; i++) put(&record, 1, line->n[i]);
  return record;
}

static Bytes record_named(Line *line) {
  static const struct {
    const char *words;
    uint8_t kind;
    size_t fields;
  } others[] = {{"cancel", LEDGER_KIND_CANCEL, 3},
                {"limits", LEDGER_KIND_DAY_LIMITS, 3},
                {"default", LEDGER_KIND_DEFAULT, 1},
                {"close-out", LEDGER_KIND_CLOSE_OUT, 2},
                {"close", LEDGER_KIND_CLOSE_OF_DAY, 1}};
  Bytes record = {{0}, 0};
  if (is_submit(line, &record)) return record;
  if (begins(line, "proposal")) return proposal(line);
  if (begins(line, "bytes")) return bytes_of(line);
  for (size_t i = 0; i < sizeof others / sizeof *others; i++)
    if (begins(line, others[i].words)) {
      needs(line, others[i].fields);
      return record_of(others[i].kind, line->n, others[i].fields);
    }
  stop(line);
  return record;
}

/* Of a submit, then how many, each a second after the one before it, up to the last second of the day. */
static void take_series(Line *line) {
  uint64_t side = begins(line, "buy") ? LEDGER_BUY : LEDGER_SELL;
  if (side == LEDGER_SELL && !begins(line, "sell")) stop(line);
  needs(line, 6);
  for (uint64_t i = 0; i < line->n[5]; i++) {
    Bytes record = submit(line->n, side, LEDGER_RESTING);
    take_record(&record, REFUSAL);
    if (line->n[0] < LAST_SECOND) line->n[0]++;
  }
}

static void take_leg(const Line *line) {
  needs(line, LEDGER_LEG_FIELDS);
  below(line, leg_numbers, sizeof legs / sizeof *legs);
  memcpy(legs + leg_numbers, line->n, LEDGER_LEG_FIELDS * sizeof *legs);
  leg_numbers += LEDGER_LEG_FIELDS;
}

static uint64_t *ggf(const Line *line) {
  return tables.at[PRICES] + below(line, line->n[0], LEDGER_CONTRACTS) * LEDGER_PRICE_WIDTH + LEDGER_GGF;
}

/* The place of a contract and a member in lots and value. */
static size_t row(const Line *line) {
  return below(line, line->n[0], LEDGER_CONTRACTS) * LEDGER_ROW_WIDTH + below(line, line->n[1], LEDGER_ROW_WIDTH);
}

/* Place, number, member, contract, 0 for a buy and 1 for a sell, price, lots: entered on Monday, 369, at 36000 s. */
static void lend_order(const Line *line) {
  const uint64_t *n = line->n;
  const uint64_t order[LEDGER_ORDER_WIDTH] = {n[1], n[2], n[3], n[4], n[5], n[6], 369, 36000};
  needs(line, 7);
  memcpy(tables.at[BOOK] + below(line, n[0], LEDGER_MOST_ORDERS) * LEDGER_ORDER_WIDTH, order, sizeof order);
}

/* What a host lends that no record of the case led to. */
static void take_lent(Line *line) {
  if (begins(line, "order")) {
    lend_order(line);
  } else if (begins(line, "row")) {
    needs(line, 3);
    lots[row(line)] = (int64_t)line->n[2];
  } else if (begins(line, "head")) {
    needs(line, 2);
    tables.at[HEAD][below(line, line->n[0], LEDGER_HEAD)] = line->n[1];
  } else if (begins(line, "GGF")) {
    needs(line, 2);
    *ggf(line) = line->n[1];
  } else stop(line);
}

/* Each order's number and lots, in the order of places. */
static void show_book(void) {
  printf(" orders");
  for (size_t i = 0; i < tables.at[HEAD][LEDGER_ORDER_COUNT]; i++) {
    const uint64_t *order = tables.at[BOOK] + i * LEDGER_ORDER_WIDTH;
    printf(" %" PRIu64 ": %" PRIu64, order[LEDGER_ORDER_NUMBER], order[LEDGER_ORDER_LOTS]);
  }
}

static void take_show(Line *line) {
  if (begins(line, "book")) {
    show_book();
  } else if (begins(line, "row")) {
    needs(line, 2);
    printf(" [ %" PRId64 " %" PRId64 " ]", lots[row(line)], value[row(line)]);
  } else if (begins(line, "head")) {
    needs(line, 1);
    printf(" %" PRIu64, tables.at[HEAD][below(line, line->n[0], LEDGER_HEAD)]);
  } else if (begins(line, "GGF")) {
    needs(line, 1);
    printf(" %" PRIu64, *ggf(line));
  } else stop(line);
}

/* A case makes its ledger before any other step. */
static void take_step(Line *line) {
  static const struct {
    const char *words;
    Shown shown;
  } records[] = {{"given", REFUSAL}, {"asked", ANSWER}, {"counted", LINE_COUNT}};
  if (begins(line, "ledger")) {
    take_ledger(line);
    return;
  }
  if (!made) stop(line);
  for (size_t i = 0; i < sizeof records / sizeof *records; i++)
    if (begins(line, records[i].words)) {
      Bytes record = record_named(line);
      take_record(&record, records[i].shown);
      return;
    }
  if (begins(line, "series")) take_series(line);
  else if (begins(line, "leg")) take_leg(line);
  else if (begins(line, "lent")) take_lent(line);
  else if (begins(line, "show")) take_show(line);
  else stop(line);
}

/* A case ends where its line is empty. A line that begins with # is for the reader. */
static void take_line(const char *text) {
  if (*text == '#') return;
  if (*text == '\0') {
    printf("\n");
    leg_numbers = 0;
  } else if (strncmp(text, "case ", 5) == 0) {
    printf("%s:", text + 5);
    cases++;
    made = false;
  } else {
    Line line = line_of(text);
    take_step(&line);
  }
}

int main(int count, char **arguments) {
  if (count != 2) return 2;
  size_t bytes;
  char *text = (char *)read_file(arguments[1], &bytes), *end;
  tables = lend(0);
  lots = (int64_t *)tables.at[LOTS];
  value = (int64_t *)tables.at[VALUE];
  lines = (int64_t *)tables.at[LINES];
  for (char *at = text; *at != '\0'; at = end) {
    end = at + strcspn(at, "\n");
    if (*end == '\n') *end++ = '\0';
    take_line(at);
  }
  give_back(&tables);
  free(text);
  if (cases == CASES && records_taken == RECORDS) return 0;
  printf("%d cases with %d records, and there are %d with %d\n", cases, records_taken, CASES, RECORDS);
  return 1;
}
