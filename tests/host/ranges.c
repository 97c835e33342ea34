/* Each place of the lent tables at its end and one past it, and headers at theirs, through the proved damage test and the
   proved making of a ledger. What it prints is held to ranges.out, which was written from document 01. */
#include "lent.h"
#include <inttypes.h>
#include <stdio.h>
#include <string.h>

#define MEMBERS 3
/* How often the damage test is asked, a place or a number each. */
enum { ASKED = 18064 };

static Tables tables;
static int asked;
static uint64_t *head, *prices, *book, *lots, *value;

/* VJR, version 1, first year 2021, start day 369 (Monday), three members, holidays 370 and 626, limits 1000 */
static const uint8_t sound[] = {'V',  'J', 'R', 0,    1,    0x07, 0xE5, 0x01, 0x71, MEMBERS, 2, 0x01, 0x72, 0x02,
                                0x72, 0,   0,   0x03, 0xE8, 0,    0,    0x03, 0xE8, 0,       0, 0x03, 0xE8};

static bool is_sound(void) {
  asked++;
  return is_damaged(&tables) == LEDGER_NOT_DAMAGED;
}

/* contract 18, sell, 31000, 1 lot, entered on day 369 at 36000 s */
static void put_order(size_t i, uint64_t number, uint64_t member) {
  const uint64_t order[LEDGER_ORDER_WIDTH] = {number, member, 18, LEDGER_SELL, 31000, 1, 369, 36000};
  memcpy(book + i * LEDGER_ORDER_WIDTH, order, sizeof order);
}

/* A sound ledger: five accepted submits, a lots run of 100, orders 1, 4 and 2. */
static void prepare(void) {
  make(&tables, sound, sizeof sound);
  head[LEDGER_ACCEPTED_SUBMITS] = 5;
  head[LEDGER_LOTS_RUN] = 100;
  head[LEDGER_ORDER_COUNT] = 3;
  put_order(0, 1, 0);
  put_order(1, 4, 1);
  put_order(2, 2, 0);
}

static void verdict(const char *what, size_t passed, size_t places) {
  if (passed == places) printf("%s sound\n", what);
  else if (passed == 0) printf("%s damaged\n", what);
  else printf("%s sound in %zu of %zu\n", what, passed, places);
}

static void judge(const char *what) { verdict(what, is_sound() ? 1 : 0, 1); }

/* each of these places, one at a time, holds the number */
static void at(const char *what, uint64_t *first, size_t stride, size_t places, uint64_t number) {
  size_t passed = 0;
  for (size_t i = 0; i < places; i++) {
    const uint64_t before = first[i * stride];
    first[i * stride] = number;
    passed += is_sound() ? 1 : 0;
    first[i * stride] = before;
  }
  char said[80];
  snprintf(said, sizeof said, "%s %" PRIu64, what, number);
  verdict(said, passed, places);
}

/* the last number that is sound, and one past it */
static void last(const char *what, uint64_t *first, size_t stride, size_t places, uint64_t number) {
  at(what, first, stride, places, number);
  at(what, first, stride, places, number + 1);
}

/* the first number that is sound, and one before it */
static void first(const char *what, uint64_t *place, size_t stride, size_t places, uint64_t number) {
  at(what, place, stride, places, number);
  at(what, place, stride, places, number - 1);
}

static void head_places(void) {
  first("first year", head + LEDGER_FIRST_YEAR, 1, 1, 2020);
  at("members", head + LEDGER_MEMBERS, 1, 1, 0);
  first("members", head + LEDGER_MEMBERS, 1, 1, 2); /* member 1 has an order */
  last("members", head + LEDGER_MEMBERS, 1, 1, LEDGER_MOST_MEMBERS);
  last("time", head + LEDGER_TIME, 1, 1, 86399);
  first("accepted submits", head + LEDGER_ACCEPTED_SUBMITS, 1, 1, 5); /* order 4 rests */
  last("accepted submits", head + LEDGER_ACCEPTED_SUBMITS, 1, 1, 4000000000);
  last("lots run", head + LEDGER_LOTS_RUN, 1, 1, 5000000);
  last("limit", head + LEDGER_LIMITS, 1, MEMBERS, 100000);
  at("surplus limit", head + LEDGER_LIMITS + MEMBERS, 1, LEDGER_MOST_MEMBERS - MEMBERS, 100001);
  last("mark", head + LEDGER_MARKS, 1, MEMBERS, LEDGER_DEFAULTED);
  at("surplus mark", head + LEDGER_MARKS + MEMBERS, 1, LEDGER_MOST_MEMBERS - MEMBERS, 2);
  last("submits in the second", head + LEDGER_SUBMITS, 1, MEMBERS, 5);
  at("surplus submits", head + LEDGER_SUBMITS + MEMBERS, 1, LEDGER_MOST_MEMBERS - MEMBERS, 6);
}

/* The day is a business day of the span: Friday and Saturday, Monday and Sunday, a holiday, the span's ends. */
static void days(void) {
  last("day", head + LEDGER_DAY, 1, 1, 373);
  first("day", head + LEDGER_DAY, 1, 1, 376);
  at("day", head + LEDGER_DAY, 1, 1, 370);
  first("day", head + LEDGER_DAY, 1, 1, 366);
  last("day", head + LEDGER_DAY, 1, 1, 2556);
  first("first holiday", head + LEDGER_HOLIDAYS, 1, 1, 366);
  last("first holiday", head + LEDGER_HOLIDAYS, 1, 1, 625); /* the second is 626 */
  last("second holiday", head + LEDGER_HOLIDAYS + 1, 1, 1, 2556);
  at("surplus holiday", head + LEDGER_HOLIDAYS + 2, 1, LEDGER_MOST_HOLIDAYS - 2, 1);
}

/* the five numbers of each contract: GGF, low, high, M, V */
static void five(const char *what, uint64_t g, uint64_t l, uint64_t h, uint64_t m, uint64_t v) {
  const uint64_t numbers[LEDGER_PRICE_WIDTH] = {g, l, h, m, v};
  size_t passed = 0;
  for (size_t c = 0; c < LEDGER_CONTRACTS; c++) {
    uint64_t before[LEDGER_PRICE_WIDTH];
    memcpy(before, prices + c * LEDGER_PRICE_WIDTH, sizeof before);
    memcpy(prices + c * LEDGER_PRICE_WIDTH, numbers, sizeof numbers);
    passed += is_sound() ? 1 : 0;
    memcpy(prices + c * LEDGER_PRICE_WIDTH, before, sizeof before);
  }
  verdict(what, passed, LEDGER_CONTRACTS);
}

static void price_places(void) {
  last("GGF", prices + LEDGER_GGF, LEDGER_PRICE_WIDTH, LEDGER_CONTRACTS, 1000000);
  first("low", prices + LEDGER_LOW, LEDGER_PRICE_WIDTH, LEDGER_CONTRACTS, 1);
  last("high", prices + LEDGER_HIGH, LEDGER_PRICE_WIDTH, LEDGER_CONTRACTS, 1000000);
  five("low 500 high 500", 0, 500, 500, 0, 0);
  five("low 501 high 500", 0, 501, 500, 0, 0);
  five("M 100 V 100", 0, 1, 1, 100, 100);
  five("M 101 V 101", 0, 1, 1, 101, 101);
  five("M 100 V 99", 0, 1, 1, 100, 99);
  five("M 100 V 100000000", 0, 1, 1, 100, 100000000);
  five("M 100 V 100000001", 0, 1, 1, 100, 100000001);
  five("M 0 V 1", 0, 1, 1, 0, 1);
}

/* the rows of members from one on, up to but not including another, in every contract */
static void rows(const char *what, uint64_t *column, size_t from, size_t end, int64_t number) {
  size_t passed = 0;
  for (size_t c = 0; c < LEDGER_CONTRACTS; c++)
    for (size_t m = from; m < end; m++) {
      const uint64_t before = column[c * LEDGER_ROW_WIDTH + m];
      column[c * LEDGER_ROW_WIDTH + m] = (uint64_t)number;
      passed += is_sound() ? 1 : 0;
      column[c * LEDGER_ROW_WIDTH + m] = before;
    }
  char said[80];
  snprintf(said, sizeof said, "%s %" PRId64, what, number);
  verdict(said, passed, LEDGER_CONTRACTS * (end - from));
}

static void row_places(void) {
  const int64_t most = 100, most_value = 100000000;
  for (int64_t sign = 1; sign >= -1; sign -= 2) {
    rows("lots", lots, 0, MEMBERS, sign * most);
    rows("lots", lots, 0, MEMBERS, sign * (most + 1));
    rows("surplus lots", lots, MEMBERS, LEDGER_ROW_WIDTH, sign * (most + 1));
    rows("value", value, 0, MEMBERS, sign * most_value);
    rows("value", value, 0, MEMBERS, sign * (most_value + 1));
    rows("surplus value", value, MEMBERS, LEDGER_ROW_WIDTH, sign * (most_value + 1));
  }
}

/* Numbers are below the count of accepted submits, in any order, no two alike; a fourth order is surplus. */
static void order_places(void) {
  const size_t width = LEDGER_ORDER_WIDTH;
  last("number of order 4", book + width, 1, 1, 4);
  at("number of order 1", book, 1, 1, 3);
  at("number of order 1", book, 1, 1, 2);
  at("number of order 4", book + width, 1, 1, 1);
  last("member of an order", book + LEDGER_ORDER_MEMBER, width, 3, MEMBERS - 1);
  last("contract", book + LEDGER_ORDER_CONTRACT, width, 3, LEDGER_CONTRACTS - 1);
  last("side", book + LEDGER_ORDER_SIDE, width, 3, LEDGER_SELL);
  first("price", book + LEDGER_ORDER_PRICE, width, 3, 1);
  last("price", book + LEDGER_ORDER_PRICE, width, 3, 1000000);
  first("lots", book + LEDGER_ORDER_LOTS, width, 3, 1);
  last("lots", book + LEDGER_ORDER_LOTS, width, 3, 100);
  first("day of entry", book + LEDGER_ORDER_DAY, width, 3, 366);
  last("day of entry", book + LEDGER_ORDER_DAY, width, 3, 2556);
  last("time of entry", book + LEDGER_ORDER_TIME, width, 3, 86399);
  at("surplus place of the book", book + 3 * width, 1, LEDGER_BOOK - 3 * width, UINT64_MAX);
}

/* 256 orders; 120 holidays, the 121st in the place of a limit; the last first year, without holidays and orders */
static void counts(void) {
  prepare();
  for (size_t i = 0; i < LEDGER_MOST_ORDERS; i++) put_order(i, i, 0);
  head[LEDGER_ACCEPTED_SUBMITS] = LEDGER_MOST_ORDERS;
  last("orders", head + LEDGER_ORDER_COUNT, 1, 1, LEDGER_MOST_ORDERS);
  prepare();
  for (size_t i = 0; i <= LEDGER_MOST_HOLIDAYS; i++) head[LEDGER_HOLIDAYS + i] = 370 + i;
  last("holidays", head + LEDGER_HOLIDAY_COUNT, 1, 1, LEDGER_MOST_HOLIDAYS);
  prepare();
  head[LEDGER_HOLIDAY_COUNT] = head[LEDGER_ORDER_COUNT] = 0;
  head[LEDGER_FIRST_YEAR] = 2094;
  head[LEDGER_DAY] = 27029;
  judge("first year 2094");
  head[LEDGER_FIRST_YEAR] = 2095;
  head[LEDGER_DAY] = 27396;
  judge("first year 2095");
}

static void lengths(void) {
  for (int shorter = 0; shorter <= TABLES; shorter++) {
    if (shorter > 0) tables.length[shorter - 1]--;
    printf("table %d short by one: %s\n", shorter, is_sound() ? "sound" : "damaged");
    if (shorter > 0) tables.length[shorter - 1]++;
  }
}

/* a header of so many members and holidays, with all its bytes; holidays from 370 on, limits 0 */
static void sized(uint64_t members, size_t holiday_count) {
  uint64_t holidays[LEDGER_MOST_HOLIDAYS + 1];
  for (size_t i = 0; i < holiday_count; i++) holidays[i] = 370 + i;
  Bytes bytes = header(members, 0, holidays, holiday_count);
  printf("header of %" PRIu64 " members, %zu holidays: %" PRIu64 "\n", members, holiday_count,
         make(&tables, bytes.at, bytes.length));
}

/* one byte of the sound header changed */
static void with(const char *what, size_t place, uint8_t byte) {
  uint8_t bytes[sizeof sound];
  memcpy(bytes, sound, sizeof sound);
  bytes[place] = byte;
  printf("%s: %" PRIu64 "\n", what, make(&tables, bytes, sizeof bytes));
}

static void headers(void) {
  sized(1, 0);
  sized(0, 0);
  sized(LEDGER_MOST_MEMBERS, 0);
  sized(LEDGER_MOST_MEMBERS + 1, 0);
  sized(1, LEDGER_MOST_HOLIDAYS);
  sized(1, LEDGER_MOST_HOLIDAYS + 1);
  with("start on a Friday", 8, 0x75);
  with("start on a Saturday", 8, 0x76);
  with("start on a Sunday", 8, 0x77);
  with("start on a holiday", 8, 0x72);
  with("holidays that rise", 12, 0xFF);
  with("holidays alike", 13, 0x01);
  with("version 2", 4, 2);
  const uint8_t most[] = {'V', 'J', 'R', 0, 1, 0x07, 0xE5, 0x01, 0x71, 1, 0, 0, 0x01, 0x86, 0xA0};
  const uint8_t more[] = {'V', 'J', 'R', 0, 1, 0x07, 0xE5, 0x01, 0x71, 1, 0, 0, 0x01, 0x86, 0xA1};
  printf("limit 100000: %" PRIu64 "\n", make(&tables, most, sizeof most));
  printf("limit 100001: %" PRIu64 "\n", make(&tables, more, sizeof more));
  printf("cut: %" PRIu64 "\n", make(&tables, most, sizeof most - 1));
}

/* A ledger made where every number of the members, contracts and counts was another: what is left of it. */
static void fresh(void) {
  for (size_t i = 0; i < LEDGER_HEAD; i++) head[i] = 9;
  for (size_t i = 0; i < LEDGER_PRICES; i++) prices[i] = 9;
  for (size_t i = 0; i < LEDGER_ROWS; i++) lots[i] = value[i] = 9;
  make(&tables, sound, sizeof sound);
  size_t zero = 0, nine = 0;
  for (size_t i = 0; i < LEDGER_ROWS; i++) {
    zero += (lots[i] == 0) + (value[i] == 0);
    nine += (lots[i] == 9) + (value[i] == 9);
  }
  printf("fresh rows: %zu at 0, %zu left\n", zero, nine);
  printf("fresh head:");
  for (size_t i = 0; i < LEDGER_HOLIDAYS + 3; i++) printf(" %" PRIu64, head[i]);
  for (size_t i = LEDGER_LIMITS; i < LEDGER_HEAD; i += LEDGER_MOST_MEMBERS)
    for (size_t m = 0; m <= MEMBERS; m++) printf(" %" PRIu64, head[i + m]);
  printf("\nfresh prices:");
  for (size_t i = LEDGER_PRICES - 2 * LEDGER_PRICE_WIDTH; i < LEDGER_PRICES; i++) printf(" %" PRIu64, prices[i]);
  printf("\n");
}

int main(void) {
  tables = lend(0);
  head = tables.at[HEAD], prices = tables.at[PRICES], book = tables.at[BOOK], lots = tables.at[LOTS],
  value = tables.at[VALUE];
  prepare();
  judge("prepared");
  head_places();
  days();
  price_places();
  row_places();
  order_places();
  counts();
  prepare();
  lengths();
  headers();
  fresh();
  give_back(&tables);
  if (asked == ASKED) return 0;
  printf("the damage test was asked %d times and is to be asked %d times\n", asked, ASKED);
  return 1;
}
