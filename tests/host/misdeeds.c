/* Stands between a test and the library (gcc -Wl,--wrap) and does one wrong thing, the one that MISDEED names. A test
   that no misdeed makes fail would be no test; misdeeds.sh tries each, and misdeeds.out says which tests have to see it. */
#include "lent.h"
#include <stdlib.h>
#include <string.h>

#define TABLES_OF_A_LEDGER                                                                                             \
  uint64_t *head, size_t head_len, uint64_t *prices, size_t prices_len, int64_t *lots, size_t lots_len,                \
      int64_t *value, size_t value_len
#define LEDGER head, head_len, prices, prices_len, lots, lots_len, value, value_len
uint64_t __real_ledger_make(TABLES_OF_A_LEDGER, const uint64_t *book, size_t book_len, const uint8_t *header,
                            size_t header_len);
uint64_t __wrap_ledger_make(TABLES_OF_A_LEDGER, const uint64_t *book, size_t book_len, const uint8_t *header,
                            size_t header_len);
uint64_t __real_ledger_apply(TABLES_OF_A_LEDGER, uint64_t *book, size_t book_len, int64_t *lines, size_t lines_len,
                             const uint8_t *record, size_t record_len, uint64_t *detail);
uint64_t __wrap_ledger_apply(TABLES_OF_A_LEDGER, uint64_t *book, size_t book_len, int64_t *lines, size_t lines_len,
                             const uint8_t *record, size_t record_len, uint64_t *detail);
uint64_t __wrap_ledger_is_damaged(TABLES_OF_A_LEDGER, const uint64_t *book, size_t book_len, const int64_t *lines,
                                  size_t lines_len);
uint64_t __real_ledger_is_damaged(TABLES_OF_A_LEDGER, const uint64_t *book, size_t book_len, const int64_t *lines,
                                  size_t lines_len);

#define ALSO(type, name, ...)                                                                                          \
  type __real_##name(__VA_ARGS__);                                                                                     \
  type __wrap_##name(__VA_ARGS__);
ALSO(uint64_t, ledger_read_header, const uint8_t *header, size_t header_len, uint64_t *fields, size_t fields_len,
     uint64_t *detail)
ALSO(uint64_t, ledger_write_header, const uint64_t *fields, size_t fields_len, uint8_t *header, size_t header_len,
     uint64_t *detail)
ALSO(uint64_t, ledger_read_record, uint64_t members, const uint8_t *record, size_t record_len, uint64_t *fields,
     size_t fields_len, uint64_t *detail)
ALSO(uint64_t, ledger_write_record, uint64_t members, const uint64_t *fields, size_t fields_len, uint8_t *record,
     size_t record_len, uint64_t *detail)
ALSO(uint64_t, ledger_front_record, const uint8_t *bytes, size_t bytes_len, uint64_t *detail)

static bool does(const char *what) {
  static const char *misdeed;
  if (misdeed == NULL) misdeed = getenv("MISDEED");
  return misdeed != NULL && strcmp(misdeed, what) == 0;
}

/* A place that holds a wrong number until the next record, and its right number: only a test that looks after each call
   sees it. */
static uint64_t *wrong_place, right_number;

static void make_wrong(uint64_t *place) {
  wrong_place = place;
  right_number = (*place)++;
}

static void make_right(void) {
  if (wrong_place != NULL) *wrong_place = right_number;
  wrong_place = NULL;
}

uint64_t __wrap_ledger_make(TABLES_OF_A_LEDGER, const uint64_t *book, size_t book_len, const uint8_t *header,
                            size_t header_len) {
  wrong_place = NULL;
  uint64_t number = __real_ledger_make(LEDGER, book, book_len, header, header_len);
  if (number == LEDGER_ACCEPTED && does("clears the book of a made ledger"))
    memset((void *)(uintptr_t)book, 0, book_len * sizeof *book);
  if (number == LEDGER_ACCEPTED && does("clears the limits of no member"))
    memset(head + LEDGER_LIMITS + head[LEDGER_MEMBERS], 0, sizeof *head);
  if (number == LEDGER_HEADER_UNSOUND && does("makes half a ledger of a bad header")) head[LEDGER_FIRST_YEAR] = 2020;
  if (number == LEDGER_TABLE_UNSOUND && head_len > 0 && does("answers a short table with 2"))
    return LEDGER_HEADER_UNSOUND;
  return number;
}

/* A copy of a table of so many places, in which the numbers of the first places, as many as the width, are repeated up to an
   end. */
static void *alike(const void *table, size_t places, size_t first, size_t width, size_t end) {
  static uint64_t copy[LEDGER_ROWS];
  memcpy(copy, table, places * sizeof *copy);
  for (size_t i = first + width; i < end; i++) copy[i] = copy[i - width];
  return copy;
}

uint64_t __wrap_ledger_is_damaged(TABLES_OF_A_LEDGER, const uint64_t *book, size_t book_len, const int64_t *lines,
                                  size_t lines_len) {
  if (does("does not ask for lines")) lines = (const int64_t *)(uintptr_t)lots, lines_len = LEDGER_LINES;
  const bool long_enough = head_len >= LEDGER_HEAD && prices_len >= LEDGER_PRICES && lots_len >= LEDGER_ROWS;
  if (long_enough && does("looks at the first limit only"))
    head = alike(head, LEDGER_HEAD, LEDGER_LIMITS, 1, LEDGER_MARKS);
  if (long_enough && does("looks at the first prices only"))
    prices = alike(prices, LEDGER_PRICES, 0, LEDGER_PRICE_WIDTH, LEDGER_PRICES);
  if (long_enough && does("looks at the first row only"))
    lots = alike(lots, LEDGER_ROWS, 0, LEDGER_ROW_WIDTH, LEDGER_ROWS);
  uint64_t number = __real_ledger_is_damaged(LEDGER, book, book_len, lines, lines_len);
  if (does("finds nothing damaged")) return LEDGER_NOT_DAMAGED;
  if (number == LEDGER_NOT_DAMAGED && head[LEDGER_ORDER_COUNT] > 0 && does("finds a ledger with orders damaged"))
    return LEDGER_DAMAGED;
  return number;
}

/* After an accepted record. */
static void spoil(uint64_t kind, uint64_t *head, uint64_t *prices, int64_t *lots, int64_t *value, uint64_t *book,
                  int64_t *lines, uint64_t *detail) {
  const uint64_t count = *detail, orders = head[LEDGER_ORDER_COUNT];
  int64_t *line = lines + count * LEDGER_LINE_WIDTH;
  if (does("writes a surplus place of the head")) head[LEDGER_HOLIDAYS + LEDGER_MOST_HOLIDAYS - 1]++;
  if (does("writes a line too many") && count * LEDGER_LINE_WIDTH < LEDGER_LINES) line[0] = 0;
  if (does("counts lines one short") && count > 0) *detail = count - 1;
  if (does("clears the place of an order that went") && orders < LEDGER_MOST_ORDERS)
    book[orders * LEDGER_ORDER_WIDTH] = 0;
  if (does("counts a lot too many") && kind == LEDGER_KIND_SUBMIT && count > 0) head[LEDGER_LOTS_RUN]++;
  if (does("books no value") && count > 0)
    value[lines[LEDGER_LINE_CONTRACT] * LEDGER_ROW_WIDTH + lines[LEDGER_LINE_MEMBER]] -=
        lines[LEDGER_LINE_LOTS] * lines[LEDGER_LINE_PRICE];
  if (does("prints the lines of a deal in the other order") && kind == LEDGER_KIND_SUBMIT && count > 1)
    for (int i = 0; i < LEDGER_LINE_WIDTH; i++) {
      int64_t number = lines[i];
      lines[i] = lines[LEDGER_LINE_WIDTH + i], lines[LEDGER_LINE_WIDTH + i] = number;
    }
  if (kind != LEDGER_KIND_CLOSE_OF_DAY) return;
  if (does("adds a lot in a cascade")) lots[(LEDGER_CONTRACTS - 1) * LEDGER_ROW_WIDTH]++;
  if (does("gives a reference price to a year that has begun")) prices[LEDGER_YEAR + LEDGER_GGF]++;
  if (head[LEDGER_LOTS_RUN] > 0 && lots[LEDGER_YEAR] == 0 && does("carries a year that has begun")) {
    lots[LEDGER_YEAR] = -1;
    for (int c = LEDGER_FIRST_QUARTER; c < LEDGER_JANUARY; c++) lots[c * LEDGER_ROW_WIDTH]++;
  }
  for (size_t c = 0; c < LEDGER_CONTRACTS && does("rounds a GGF up by one"); c++)
    if (prices[c * LEDGER_PRICE_WIDTH + LEDGER_GGF] > 0) prices[c * LEDGER_PRICE_WIDTH + LEDGER_GGF]++;
  if (does("keeps the clock over a close")) head[LEDGER_TIME] = 1;
}

/* A lot more for each member whose lots a close carried from a quarter to its months, in the first of them. */
static void add_where_carried(const int64_t *before, int64_t *lots) {
  for (size_t row = 0; row < LEDGER_ROWS; row++) {
    const size_t contract = row / LEDGER_ROW_WIDTH, k = contract % LEDGER_CONTRACTS_A_YEAR;
    if (k == LEDGER_YEAR || k >= LEDGER_JANUARY || before[row] == 0 || lots[row] != 0) continue;
    const size_t month = contract - k + LEDGER_JANUARY + (k - LEDGER_FIRST_QUARTER) * 3;
    lots[month * LEDGER_ROW_WIDTH + row % LEDGER_ROW_WIDTH]++;
  }
}

/* What is answered in place of a refusal. */
static uint64_t other_number(uint64_t number, size_t record_len, uint64_t *detail) {
  if (number == LEDGER_TABLE_UNSOUND && record_len == 0 && does("answers 3 before 1")) return LEDGER_RECORD_UNSOUND;
  if (number == LEDGER_RECORD_UNSOUND && does("answers a bad record with 1")) return LEDGER_TABLE_UNSOUND;
  if (number == LEDGER_NO_SUCH_ORDER && does("hides a number")) return LEDGER_NOT_ACCEPTABLE;
  if (number == LEDGER_NO_SUCH_ORDER && does("tells something with 12")) *detail = 1;
  if (number == LEDGER_MEMBER_DEFAULTED && does("does not tell the member of 5")) *detail = 0;
  if (number == LEDGER_CONTRACT_NOT_OPEN && does("does not tell the contract of 6")) *detail = 0;
  if (number == LEDGER_CONTRACT_NOT_OPEN && does("answers a contract that is not open with 7")) {
    *detail = 0;
    return LEDGER_CONTRACT_NOT_OPEN + 1;
  }
  return number;
}

uint64_t __wrap_ledger_apply(TABLES_OF_A_LEDGER, uint64_t *book, size_t book_len, int64_t *lines, size_t lines_len,
                             const uint8_t *record, size_t record_len, uint64_t *detail) {
  static int64_t lots_before[LEDGER_ROWS];
  const bool adds = lots_len >= LEDGER_ROWS && does("adds a lot to a month of a quarter that closes");
  if (adds) memcpy(lots_before, lots, sizeof lots_before);
  make_right();
  uint64_t number = __real_ledger_apply(LEDGER, book, book_len, lines, lines_len, record, record_len, detail);
  if (number == LEDGER_ACCEPTED) spoil(record[0], head, prices, lots, value, book, lines, detail);
  if (number == LEDGER_ACCEPTED && record[0] == LEDGER_KIND_CLOSE_OF_DAY && adds) add_where_carried(lots_before, lots);
  if (number > LEDGER_RECORD_UNSOUND && does("moves the clock of a refused record")) head[LEDGER_TIME]++;
  if (number > LEDGER_RECORD_UNSOUND && does("moves the clock of a refused record until the next"))
    make_wrong(head + LEDGER_TIME);
  if (number > LEDGER_RECORD_UNSOUND && does("writes and restores a refused record's clock"))
    *(volatile uint64_t *)(head + LEDGER_TIME) += 0;
  if (number == LEDGER_TOTAL_PASSED && record[0] == LEDGER_KIND_CLOSE_OUT &&
      does("writes and restores a line of a close-out that is 17"))
    *(volatile int64_t *)lines += 0;
  if (lines_len == LEDGER_LINES - 1 && does("takes a short line table")) return LEDGER_ACCEPTED;
  if (does("reads past the line table")) *detail += 0 * (uint64_t)((volatile int64_t *)lines)[lines_len];
  if (does("reads before the head")) *detail += 0 * ((volatile uint64_t *)head)[-1];
  if (does("reads past the record")) *detail += 0 * ((const volatile uint8_t *)record)[record_len];
  if (record_len > 0 && does("writes the record")) *(uint8_t *)(uintptr_t)record ^= 1;
  return other_number(number, record_len, detail);
}

uint64_t __wrap_ledger_read_header(const uint8_t *header, size_t header_len, uint64_t *fields, size_t fields_len,
                                   uint64_t *detail) {
  uint64_t number = __real_ledger_read_header(header, header_len, fields, fields_len, detail);
  if (number == LEDGER_HEADER_UNSOUND && does("fills fields from a bad header"))
    fields[LEDGER_HEADER_FIRST_YEAR] = 2020;
  if (number != LEDGER_ACCEPTED) return number;
  if (does("tells a header's bytes without its limits")) *detail -= LEDGER_LIMIT_BYTES * fields[LEDGER_HEADER_MEMBERS];
  if (does("clears the fields past the holidays") && fields[LEDGER_HEADER_HOLIDAY_COUNT] < LEDGER_MOST_HOLIDAYS)
    fields[LEDGER_HEADER_HOLIDAYS + fields[LEDGER_HEADER_HOLIDAY_COUNT]] = 0;
  return number;
}

uint64_t __wrap_ledger_write_header(const uint64_t *fields, size_t fields_len, uint8_t *header, size_t header_len,
                                    uint64_t *detail) {
  uint64_t number = __real_ledger_write_header(fields, fields_len, header, header_len, detail);
  if (number == LEDGER_HEADER_UNSOUND && header_len == 0 && does("answers a short output before 2"))
    return LEDGER_TABLE_UNSOUND;
  if (number == LEDGER_TABLE_UNSOUND && header_len > 0 && does("begins a header that does not fit")) header[0] = 'V';
  if (number == LEDGER_HEADER_UNSOUND && fields[LEDGER_HEADER_MEMBERS] == LEDGER_MOST_MEMBERS + 1 &&
      does("takes 33 members"))
    return LEDGER_ACCEPTED;
  return number;
}

uint64_t __wrap_ledger_read_record(uint64_t members, const uint8_t *record, size_t record_len, uint64_t *fields,
                                   size_t fields_len, uint64_t *detail) {
  uint64_t number = __real_ledger_read_record(members, record, record_len, fields, fields_len, detail);
  if (does("reads past the fields") && fields_len > 0) *detail += 0 * ((volatile uint64_t *)fields)[fields_len];
  if (number == LEDGER_RECORD_UNSOUND && does("fills fields from a bad record")) fields[LEDGER_RECORD_KIND] = 0;
  if (number == LEDGER_RECORD_UNSOUND && does("answers a bad record with 0")) return LEDGER_ACCEPTED;
  if (number != LEDGER_ACCEPTED) return number;
  if (does("exchanges the prices of day limits") && record[0] == LEDGER_KIND_DAY_LIMITS) {
    const uint64_t low = fields[LEDGER_DAY_LIMITS_LOW];
    fields[LEDGER_DAY_LIMITS_LOW] = fields[LEDGER_DAY_LIMITS_HIGH], fields[LEDGER_DAY_LIMITS_HIGH] = low;
  }
  if (does("tells the fields of a proposal without its last leg") && record[0] == LEDGER_KIND_PROPOSAL)
    *detail -= LEDGER_LEG_FIELDS;
  if (does("clears the field past a record") && *detail < LEDGER_RECORD_FIELDS) fields[*detail] = 0;
  return number;
}

uint64_t __wrap_ledger_write_record(uint64_t members, const uint64_t *fields, size_t fields_len, uint8_t *record,
                                    size_t record_len, uint64_t *detail) {
  uint64_t number = __real_ledger_write_record(members, fields, fields_len, record, record_len, detail);
  if (number == LEDGER_TABLE_UNSOUND && record_len > 0 && does("begins a record that does not fit")) record[0] = 1;
  if (number != LEDGER_ACCEPTED) return number;
  if (does("writes lots the wrong way round") && record[0] == LEDGER_KIND_SUBMIT) {
    const uint8_t high = record[13];
    record[13] = record[14], record[14] = high;
  }
  if (does("writes a byte past the record") && *detail < record_len) record[*detail] = 0;
  return number;
}

uint64_t __wrap_ledger_front_record(const uint8_t *bytes, size_t bytes_len, uint64_t *detail) {
  uint64_t number = __real_ledger_front_record(bytes, bytes_len, detail);
  if (number == LEDGER_ACCEPTED && does("splits a journal a byte early")) *detail -= 1;
  if (bytes_len > 1 && bytes[0] == LEDGER_KIND_PROPOSAL && bytes[1] > INT8_MAX &&
      does("splits off half of the legs above 127"))
    *detail /= 2;
  if (number == LEDGER_ACCEPTED && *detail == bytes_len && does("finds the last record cut")) {
    *detail = 0;
    return LEDGER_RECORD_UNSOUND;
  }
  return number;
}
