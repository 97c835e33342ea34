/* Makes ledgers from literal bytes and looks at the places that docs/LAYOUT.md names. Prints "ok" and the count of checks,
   or each check that fails. */
#include "lent.h"
#include <string.h>

/* The checks of a whole run. */
enum { CHECKS = 96 };
#define SURPLUS 7
#define FIRST_DAY 370 /* the day after the start day of the headers here */
static Tables tables;

static uint64_t made(const uint8_t *bytes, size_t n) {
  soil(&tables);
  return make(&tables, bytes, n);
}

/* first year 2021, start day 369 (4 January 2021, a Monday), two members, holidays 366 and 500, limits 1000 and 100000 */
static const uint8_t sound[] = {'V',  'J',  'R', 0, 1,    0x07, 0xE5, 0x01, 0x71, 2,    2, 0x01, 0x6E,
                                0x01, 0xF4, 0,   0, 0x03, 0xE8, 0,    0x01, 0x86, 0xA0, 9, 9};
enum {
  HOLIDAY_COUNT = 2,
  MEMBERS = 2,
  LENGTH = LEDGER_HEADER_BYTES + HOLIDAY_COUNT * LEDGER_HOLIDAY_BYTES + MEMBERS * LEDGER_LIMIT_BYTES
};

/* one byte of the sound header changed */
static uint64_t with(size_t at, uint8_t byte) {
  uint8_t bytes[LENGTH];
  memcpy(bytes, sound, LENGTH);
  bytes[at] = byte;
  return made(bytes, LENGTH);
}

/* a header of so many members and holidays with all its bytes: the holidays are days 370, 371 and so on, the limits 0 */
static uint64_t sized(uint64_t members, size_t holiday_count) {
  uint64_t holidays[LEDGER_MOST_HOLIDAYS + 1];
  for (size_t i = 0; i < holiday_count; i++) holidays[i] = FIRST_DAY + i;
  Bytes bytes = header(members, 0, holidays, holiday_count);
  return made(bytes.at, bytes.length);
}

static void fresh_places(void) {
  const uint64_t *head = tables.at[HEAD];
  static const uint64_t first[] = {2021, MEMBERS, HOLIDAY_COUNT, 369, 0, 0, 0, 0};
  expect(memcmp(head, first, sizeof first) == 0, "head 0 to 7");
  expect(head[LEDGER_HOLIDAYS] == 366 && head[LEDGER_HOLIDAYS + 1] == 500, "holidays");
  expect(is_soiled(&tables, HEAD, LEDGER_HOLIDAYS + HOLIDAY_COUNT, LEDGER_LIMITS), "surplus holidays");
  expect(head[LEDGER_LIMITS] == 1000 && head[LEDGER_LIMITS + 1] == 100000, "position limits");
  expect(is_soiled(&tables, HEAD, LEDGER_LIMITS + MEMBERS, LEDGER_MARKS), "surplus limits");
  expect(head[LEDGER_MARKS] == LEDGER_NOT_DEFAULTED && head[LEDGER_MARKS + 1] == LEDGER_NOT_DEFAULTED, "default marks");
  expect(is_soiled(&tables, HEAD, LEDGER_MARKS + MEMBERS, LEDGER_SUBMITS), "surplus marks");
  expect(head[LEDGER_SUBMITS] == 0 && head[LEDGER_SUBMITS + 1] == 0, "submits in the second");
  expect(is_soiled(&tables, HEAD, LEDGER_SUBMITS + MEMBERS, LEDGER_HEAD + SURPLUS), "surplus of the head");
  static const uint64_t fresh[LEDGER_PRICE_WIDTH] = {0, 1, 1000000, 0, 0};
  static const uint64_t zero[MEMBERS];
  bool five = true, rows = true, rest = true;
  for (size_t c = 0; c < LEDGER_CONTRACTS; c++) {
    size_t row = c * LEDGER_ROW_WIDTH;
    five &= memcmp(tables.at[PRICES] + c * LEDGER_PRICE_WIDTH, fresh, sizeof fresh) == 0;
    for (int t = LOTS; t <= VALUE; t++) {
      rows &= memcmp(tables.at[t] + row, zero, sizeof zero) == 0;
      rest &= is_soiled(&tables, t, row + MEMBERS, row + LEDGER_ROW_WIDTH);
    }
  }
  expect(five, "prices of each contract");
  expect(rows, "rows of the members");
  expect(rest, "rows of no member");
  for (int t = 0; t < TABLES; t++)
    expect(is_soiled(&tables, t, LEAST[t], LEAST[t] + SURPLUS), "places past the %s", TABLE_NAMES[t]);
  expect(is_soiled(&tables, BOOK, 0, LEDGER_BOOK), "the book");
}

/* a fresh ledger is sound; a number out of its range, or 799 places for lines, is damage */
static void damage(void) {
  made(sound, LENGTH);
  expect(is_damaged(&tables) == LEDGER_NOT_DAMAGED, "a fresh ledger is sound");
  tables.length[LINES] = LEDGER_LINES - 1;
  expect(is_damaged(&tables) == LEDGER_DAMAGED, "a short line table");
  tables.length[LINES] = LEDGER_LINES + SURPLUS;
  uint64_t *head = tables.at[HEAD], *row = tables.at[LOTS] + 17 * LEDGER_ROW_WIDTH;
  head[LEDGER_TIME] = 86399;
  expect(is_damaged(&tables) == LEDGER_NOT_DAMAGED, "the last second of a day");
  head[LEDGER_TIME] = 86400;
  expect(is_damaged(&tables) == LEDGER_DAMAGED, "a time past the day");
  head[LEDGER_TIME] = 0;
  row[0] = 1;
  expect(is_damaged(&tables) == LEDGER_DAMAGED, "lots above the lots run");
  head[LEDGER_LOTS_RUN] = 1;
  expect(is_damaged(&tables) == LEDGER_NOT_DAMAGED, "lots at the lots run");
  row[1] = (uint64_t)-2;
  expect(is_damaged(&tables) == LEDGER_DAMAGED, "lots below minus the lots run");
  soil(&tables);
  expect(is_damaged(&tables) == LEDGER_DAMAGED, "tables that hold no ledger");
}

static void refused(uint64_t got, uint64_t number, const char *what) {
  expect(got == number && all_soiled(&tables), "%s", what);
}

int main(void) {
  tables = lend(SURPLUS);
  expect(made(sound, LENGTH) == LEDGER_ACCEPTED, "a sound header");
  fresh_places();
  expect(made(sound, sizeof sound) == LEDGER_ACCEPTED, "bytes past the header");
  fresh_places();

  for (size_t n = 0; n < LENGTH; n++) refused(made(sound, n), LEDGER_HEADER_UNSOUND, "a cut header");
  refused(with(2, 'r'), LEDGER_HEADER_UNSOUND, "wrong letters");
  refused(with(4, 2), LEDGER_HEADER_UNSOUND, "version 2");
  refused(with(5, 0x08), LEDGER_HEADER_UNSOUND, "first year 2277");
  refused(with(6, 0xE3), LEDGER_HEADER_UNSOUND, "first year 2019");
  refused(with(8, 0x72 + 4), LEDGER_HEADER_UNSOUND, "a start day on a Saturday");
  refused(with(7, 0), LEDGER_HEADER_UNSOUND, "a start day before the span");
  refused(with(9, 0), LEDGER_HEADER_UNSOUND, "no members");
  refused(sized(LEDGER_MOST_MEMBERS + 1, 2), LEDGER_HEADER_UNSOUND, "33 members");
  expect(sized(LEDGER_MOST_MEMBERS, 2) == LEDGER_ACCEPTED, "32 members");
  refused(sized(2, LEDGER_MOST_HOLIDAYS + 1), LEDGER_HEADER_UNSOUND, "121 holidays");
  expect(sized(2, LEDGER_MOST_HOLIDAYS) == LEDGER_ACCEPTED, "120 holidays");
  refused(with(12, 0xF4), LEDGER_HEADER_UNSOUND, "holidays that do not rise");
  refused(with(11, 0), LEDGER_HEADER_UNSOUND, "a holiday before the span");
  refused(with(16, 0xFF), LEDGER_HEADER_UNSOUND, "a limit above 100,000 lots");
  expect(with(22, 0x9F) == LEDGER_ACCEPTED && tables.at[HEAD][LEDGER_LIMITS + 1] == 99999, "another limit");

  for (int t = 0; t < LINES; t++) {
    soil(&tables);
    tables.length[t] = LEAST[t] - 1;
    uint64_t answer = make(&tables, sound, LENGTH), before_header = make(&tables, sound, 3);
    tables.length[t] = LEAST[t] + SURPLUS;
    refused(answer, LEDGER_TABLE_UNSOUND, "a short table");
    refused(before_header, LEDGER_TABLE_UNSOUND, "1 before 2");
  }
  damage();
  give_back(&tables);
  return finish_after(CHECKS);
}
