/* Every table, header and record ends at an inaccessible page, and what must not be written stands on read-only pages.
   Prints "ok" and the count of calls, or each call that answers something else. */
#include "lent.h"
#include <stdlib.h>
#include <string.h>

/* The checks of a whole run. */
enum { CHECKS = 816 };
enum { FINE, LIMITED, DEFAULTED, MEMBERS };
/* Contracts of first year 2021: the year itself delivers already; 17 is the next year. */
enum { SECOND_QUARTER = 2, MARCH = 7, APRIL = 8, MAY = 9, JUNE = 10, NOT_OPEN = 0, FIRST_OPEN_YEAR = 17 };
enum { TIME = 36000, PRICE = 31000, LAST_DAY = 2556, MOST_LOTS = 100, MOST_RUN = 5000000 };

/* The bytes at the end of a page, read-only. Each takes its own pages, as in a short program it may. */
static const uint8_t *paper(const uint8_t *bytes, size_t n) {
  uint8_t *place = guarded(n, ENDS);
  memcpy(place, bytes, n);
  read_only(place, n);
  return place;
}

/* What a record is answered, and the number that goes with it. */
static void answered(const Tables *tables, const uint8_t *record, size_t n, uint64_t number, uint64_t detail,
                     const char *what) {
  uint64_t with = 77, got = apply(tables, record, n, &with);
  expect(got == number && with == detail, "%s: %llu and %llu", what, (unsigned long long)got, (unsigned long long)with);
}

static Tables made(const Bytes *header) {
  Tables tables = lend_guarded(0, ENDS);
  soil(&tables);
  for (size_t n = 0; n <= header->length; n++)
    expect(make(&tables, paper(header->at, n), n) == (n < header->length ? LEDGER_HEADER_UNSOUND : LEDGER_ACCEPTED),
           "a header cut at %zu", n);
  return tables;
}

static void put_order(const Tables *tables, uint64_t number, uint64_t member, uint64_t contract, uint64_t side,
                      uint64_t lots) {
  const uint64_t order[LEDGER_ORDER_WIDTH] = {number, member, contract, side, PRICE, lots, 369, 0};
  memcpy(tables->at[BOOK] + number * LEDGER_ORDER_WIDTH, order, sizeof order);
}

static void put_lots(const Tables *tables, uint64_t contract, uint64_t member, int64_t lots) {
  tables->at[LOTS][contract * LEDGER_ROW_WIDTH + member] = (uint64_t)lots;
}

static uint64_t *price(const Tables *tables, uint64_t contract, uint64_t which) {
  return tables->at[PRICES] + contract * LEDGER_PRICE_WIDTH + which;
}

/* A ledger in which every cause but 18 has its record: a full book with the orders of an acceptable proposal in front,
   a lots run at its end, one member at its limit and its fifth submit, one defaulted and no other that holds lots. */
static Tables crowded(void) {
  const uint64_t holidays[] = {370, 626};
  const Bytes bytes = header(MEMBERS, 1000, holidays, 2);
  Tables tables = made(&bytes);
  uint64_t *head = tables.at[HEAD];
  head[LEDGER_TIME] = TIME;
  head[LEDGER_LOTS_RUN] = MOST_RUN;
  head[LEDGER_LIMITS + LIMITED] = 5;
  head[LEDGER_SUBMITS + FINE] = 5;
  head[LEDGER_MARKS + DEFAULTED] = LEDGER_DEFAULTED;
  head[LEDGER_ORDER_COUNT] = head[LEDGER_ACCEPTED_SUBMITS] = LEDGER_MOST_ORDERS;
  put_order(&tables, 0, FINE, SECOND_QUARTER, LEDGER_BUY, 1);
  for (uint64_t month = APRIL; month <= JUNE; month++)
    put_order(&tables, month - APRIL + 1, LIMITED, month, LEDGER_SELL, 1);
  for (uint64_t i = 4; i < LEDGER_MOST_ORDERS; i++)
    put_order(&tables, i, FINE, FIRST_OPEN_YEAR, LEDGER_SELL, MOST_LOTS);
  *price(&tables, SECOND_QUARTER, LEDGER_HIGH) = PRICE;
  *price(&tables, MARCH, LEDGER_GGF) = *price(&tables, APRIL, LEDGER_GGF) = PRICE;
  put_lots(&tables, MARCH, DEFAULTED, 3);
  put_lots(&tables, MAY, DEFAULTED, 3);
  return tables;
}

/* The same, but close-outs get as far as 17, one lot past the most: in April two defaulted members meet, in the second
   quarter one member can take the lots, by what it holds there (ratio 1000) or by all that it holds (ratio 500). */
static Tables with_a_taker(void) {
  Tables tables = crowded();
  tables.at[HEAD][LEDGER_LOTS_RUN] = MOST_RUN - 5;
  tables.at[HEAD][LEDGER_MARKS + LIMITED] = LEDGER_DEFAULTED;
  *price(&tables, SECOND_QUARTER, LEDGER_GGF) = PRICE;
  put_lots(&tables, SECOND_QUARTER, DEFAULTED, 3);
  put_lots(&tables, SECOND_QUARTER, FINE, -4);
  put_lots(&tables, APRIL, DEFAULTED, 3);
  put_lots(&tables, APRIL, LIMITED, -3);
  return tables;
}

typedef struct {
  uint64_t number, detail;
  Bytes record;
} Refused;

#define LEGS(price) 4, 0, 1, price, 1, 1, price, 2, 1, price, 3, 1, price

/* A refused record is known before anything is written: the tables are read-only. */
static void refused(const Tables *tables, const Refused *each, size_t count) {
  for (size_t i = 0; i < count; i++)
    answered(tables, paper(each[i].record.at, each[i].record.length), each[i].record.length, each[i].number,
             each[i].detail, "a refused record");
}

static void refused_when_crowded(const Tables *tables) {
  const Refused each[] = {
      {LEDGER_TIME_BELOW_LEDGER, 0,
       RECORD(LEDGER_KIND_SUBMIT, TIME - 1, DEFAULTED, NOT_OPEN, LEDGER_BUY, LEDGER_RESTING, PRICE, 1)},
      {LEDGER_TIME_BELOW_LEDGER, 0, RECORD(LEDGER_KIND_CANCEL, TIME - 1, FINE, 0)},
      {LEDGER_TIME_BELOW_LEDGER, 0, RECORD(LEDGER_KIND_CLOSE_OF_DAY, TIME - 1)},
      {LEDGER_MEMBER_DEFAULTED, DEFAULTED,
       RECORD(LEDGER_KIND_SUBMIT, TIME + 1, DEFAULTED, NOT_OPEN, LEDGER_BUY, LEDGER_RESTING, PRICE, 1)},
      {LEDGER_MEMBER_DEFAULTED, DEFAULTED, RECORD(LEDGER_KIND_DEFAULT, DEFAULTED)},
      {LEDGER_CONTRACT_NOT_OPEN, NOT_OPEN,
       RECORD(LEDGER_KIND_SUBMIT, TIME + 1, FINE, NOT_OPEN, LEDGER_BUY, LEDGER_RESTING, PRICE, 1)},
      {LEDGER_CONTRACT_NOT_OPEN, 101, RECORD(LEDGER_KIND_DAY_LIMITS, 101, 1, PRICE)},
      {LEDGER_CONTRACT_NOT_OPEN, 100, RECORD(LEDGER_KIND_CLOSE_OUT, 100, 500)},
      {LEDGER_PRICE_OUTSIDE_LIMITS, 0,
       RECORD(LEDGER_KIND_SUBMIT, TIME, FINE, SECOND_QUARTER, LEDGER_BUY, LEDGER_RESTING, PRICE + 1, 1)},
      {LEDGER_SIXTH_SUBMIT, 0,
       RECORD(LEDGER_KIND_SUBMIT, TIME, FINE, SECOND_QUARTER, LEDGER_BUY, LEDGER_RESTING, PRICE, 1)},
      {LEDGER_ABOVE_LIMIT, 0,
       RECORD(LEDGER_KIND_SUBMIT, TIME, LIMITED, FIRST_OPEN_YEAR, LEDGER_BUY, LEDGER_TEYE, PRICE, 6)},
      {LEDGER_CANNOT_MATCH_IN_FULL, 0,
       RECORD(LEDGER_KIND_SUBMIT, TIME, LIMITED, FIRST_OPEN_YEAR, LEDGER_BUY, LEDGER_TEYE, PRICE - 1, 5)},
      {LEDGER_BOOK_FULL, 0,
       RECORD(LEDGER_KIND_SUBMIT, TIME, LIMITED, FIRST_OPEN_YEAR, LEDGER_BUY, LEDGER_RESTING, PRICE - 1, 5)},
      {LEDGER_NO_SUCH_ORDER, 0, RECORD(LEDGER_KIND_CANCEL, TIME + 1, LIMITED, 0)},
      {LEDGER_NOT_ACCEPTABLE, 0, RECORD(LEDGER_KIND_PROPOSAL, LEGS(PRICE - 1))},
      {LEDGER_NO_REFERENCE_PRICE, 0, RECORD(LEDGER_KIND_CLOSE_OUT, MAY, 500)},
      {LEDGER_NO_DEFAULTED_LOTS, 0, RECORD(LEDGER_KIND_CLOSE_OUT, APRIL, 500)},
      {LEDGER_NO_TAKER, 0, RECORD(LEDGER_KIND_CLOSE_OUT, MARCH, 500)},
      {LEDGER_TOTAL_PASSED, 0,
       RECORD(LEDGER_KIND_SUBMIT, TIME, LIMITED, FIRST_OPEN_YEAR, LEDGER_BUY, LEDGER_OEYE, PRICE, 1)},
      {LEDGER_TOTAL_PASSED, 0, RECORD(LEDGER_KIND_PROPOSAL, LEGS(PRICE))},
  };
  refused(tables, each, sizeof each / sizeof *each);
}

static void refused_with_a_taker(const Tables *tables) {
  const Refused each[] = {
      {LEDGER_TOTAL_PASSED, 0, RECORD(LEDGER_KIND_CLOSE_OUT, APRIL, 500)},
      {LEDGER_TOTAL_PASSED, 0, RECORD(LEDGER_KIND_CLOSE_OUT, SECOND_QUARTER, 500)},
      {LEDGER_TOTAL_PASSED, 0, RECORD(LEDGER_KIND_CLOSE_OUT, SECOND_QUARTER, 1000)},
  };
  refused(tables, each, sizeof each / sizeof *each);
}

/* Cut at each byte and with one byte too many, a record is 3; with a table short by one place any bytes are 1. */
static void cut_and_short(Tables *tables) {
  const Bytes each[] = {
      RECORD(LEDGER_KIND_SUBMIT, TIME + 1, FINE, FIRST_OPEN_YEAR, LEDGER_BUY, LEDGER_OEYE, PRICE, 1),
      RECORD(LEDGER_KIND_CANCEL, TIME, FINE, 0),
      RECORD(LEDGER_KIND_DAY_LIMITS, SECOND_QUARTER, 1, PRICE),
      RECORD(LEDGER_KIND_PROPOSAL, LEGS(PRICE)),
      RECORD(LEDGER_KIND_DEFAULT, FINE),
      RECORD(LEDGER_KIND_CLOSE_OUT, SECOND_QUARTER, 500),
      RECORD(LEDGER_KIND_CLOSE_OF_DAY, TIME),
  };
  for (size_t i = 0; i < sizeof each / sizeof *each; i++) {
    const size_t whole = each[i].length;
    for (size_t n = 0; n <= whole + 1; n++)
      if (n != whole) answered(tables, paper(each[i].at, n), n, LEDGER_RECORD_UNSOUND, 0, "a cut record");
    for (int t = 0; t < TABLES; t++) {
      tables->at[t]++, tables->length[t]--;
      for (size_t n = 0; n <= whole; n++)
        answered(tables, paper(each[i].at, n), n, LEDGER_TABLE_UNSOUND, 0, TABLE_NAMES[t]);
      tables->at[t]--, tables->length[t]++;
    }
  }
}

/* Also for the other two entries. */
static void short_by_one(Tables *tables) {
  const Bytes sound = header(MEMBERS, 1000, NULL, 0);
  expect(is_damaged(tables) == LEDGER_NOT_DAMAGED, "the crowded ledger");
  for (int t = 0; t < TABLES; t++) {
    tables->at[t]++, tables->length[t]--;
    expect(is_damaged(tables) == LEDGER_DAMAGED, "%s short by one is damage", TABLE_NAMES[t]);
    if (t != LINES)
      expect(make(tables, sound.at, sound.length) == LEDGER_TABLE_UNSOUND, "%s short by one, and a header",
             TABLE_NAMES[t]);
    tables->at[t]--, tables->length[t]++;
  }
}

/* NULL where the count is 0: each table, all of them, the bytes. */
static void nothing(Tables *tables) {
  const Bytes sound = header(MEMBERS, 1000, NULL, 0), record = RECORD(LEDGER_KIND_CLOSE_OF_DAY, TIME);
  const Tables none = {{0}, {0}};
  for (int t = 0; t <= TABLES; t++) {
    Tables some = *tables;
    if (t < TABLES) some.at[t] = NULL, some.length[t] = 0;
    else some = none;
    const char *what = t < TABLES ? TABLE_NAMES[t] : "all tables";
    answered(&some, record.at, record.length, LEDGER_TABLE_UNSOUND, 0, what);
    answered(&some, NULL, 0, LEDGER_TABLE_UNSOUND, 0, what);
    expect(is_damaged(&some) == LEDGER_DAMAGED, "no %s", what);
    if (t != LINES) expect(make(&some, sound.at, sound.length) == LEDGER_TABLE_UNSOUND, "no %s, and a header", what);
    if (t != LINES) expect(make(&some, NULL, 0) == LEDGER_TABLE_UNSOUND, "no %s and no header", what);
  }
  answered(tables, NULL, 0, LEDGER_RECORD_UNSOUND, 0, "no record");
  expect(make(tables, NULL, 0) == LEDGER_HEADER_UNSOUND, "no header");
}

int main(void) {
  Tables tables = crowded();
  all_read_only(&tables);
  short_by_one(&tables);
  refused_when_crowded(&tables);
  cut_and_short(&tables);
  nothing(&tables);

  Tables taken = with_a_taker();
  all_read_only(&taken);
  refused_with_a_taker(&taken);

  const Bytes last = header_from(2021, LAST_DAY, MEMBERS, 1000, NULL, 0), close = RECORD(LEDGER_KIND_CLOSE_OF_DAY, 0);
  Tables ended = made(&last);
  all_read_only(&ended);
  answered(&ended, close.at, close.length, LEDGER_NO_LATER_DAY, 0, "the last day");
  return finish_after(CHECKS);
}
