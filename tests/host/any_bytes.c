/* any_bytes [RECORDS [SEED]]: a seeded run of records on fresh ledgers and odd ones: drawn for what the ledger holds,
   drawn and then altered, or any bytes. Tables and records end or begin at an inaccessible page. After each call:
   - a refused record leaves all six tables bit for bit;
   - an accepted one changes only the places that docs/LAYOUT.md names for its kind, and its lines say what it booked;
     which contracts are open, and which close, this test computes itself;
   - the ledger is not damaged.
   A whole run has to meet the answers below. Prints how often each answer came, "ok" and the count of checks. */
#include "lent.h"
#include <inttypes.h>
#include <stdio.h>
#include <stdlib.h>
#include <string.h>

/* The checks of a whole run with seed 1. */
enum { CHECKS = 2304206 };
enum { RECORDS = 200000, EPISODE = 1000, SURPLUS = 7, MOST_BYTES = 300 };
enum {
  FIRST_YEAR = 2021,
  FIRST_DAY = 366,
  DAYS = 2191,
  MONTHS = 72,
  SATURDAY = 3,
  SUNDAY = 4,
  PRICE = 31000,
  MOST_RUN = 5000000,
  ANSWERS = LEDGER_NO_LATER_DAY + 1
};

static uint64_t state;

/* SplitMix64 */
static uint64_t draw(void) {
  uint64_t x = state += 0x9E3779B97F4A7C15;
  x = (x ^ x >> 30) * 0xBF58476D1CE4E5B9;
  x = (x ^ x >> 27) * 0x94D049BB133111EB;
  return x ^ x >> 31;
}
static uint64_t below(uint64_t end) { return draw() % end; }
static bool percent(uint64_t share) { return below(100) < share; }

/* A quarter, its months and a year that are open near a day, or soon will be. */
enum { QUARTER, MONTH, YEAR = MONTH + 3, FEW };
static uint64_t few[FEW];
/* How far an episode's sells stay above its buys: where they are apart the book fills. And how many of a thousand
   records are defaults: where they are many all members default in the end. */
static uint64_t apart, defaults;

static void choose_contracts(uint64_t day) {
  uint64_t month = (day - FIRST_DAY) * MONTHS / DAYS, quarter = month / 3 + 1 + below(3), year = month / 12 + 1;
  few[QUARTER] = quarter / 4 * LEDGER_CONTRACTS_A_YEAR + LEDGER_FIRST_QUARTER + quarter % 4;
  for (uint64_t i = 0; i < 3; i++)
    few[MONTH + i] = quarter / 4 * LEDGER_CONTRACTS_A_YEAR + LEDGER_JANUARY + quarter % 4 * 3 + i;
  few[YEAR] = year * LEDGER_CONTRACTS_A_YEAR;
  for (int i = 0; i < FEW; i++)
    if (few[i] >= LEDGER_CONTRACTS) few[i] = LEDGER_CONTRACTS - 1;
}

/* Rows of any small lots, which need not sum to zero, reference prices, and a lots run at its end or far from it. */
static void make_odd(const Tables *tables) {
  tables->at[HEAD][LEDGER_LOTS_RUN] = percent(50) ? MOST_RUN - below(60) : MOST_RUN / 2;
  for (int i = 0; i < FEW; i++) {
    tables->at[PRICES][few[i] * LEDGER_PRICE_WIDTH + LEDGER_GGF] = PRICE;
    for (uint64_t member = 0; member < tables->at[HEAD][LEDGER_MEMBERS]; member++) {
      const uint64_t row = few[i] * LEDGER_ROW_WIDTH + member, lots = percent(50) ? below(100) - 50 : 0;
      tables->at[LOTS][row] = lots;
      tables->at[VALUE][row] = lots * PRICE;
    }
  }
}

/* The first day of a month counted from January of the first year. Every fourth year from 2020 on is a leap year. */
static uint64_t month_start(uint64_t month) {
  static const uint64_t before[] = {0, 31, 59, 90, 120, 151, 181, 212, 243, 273, 304, 334};
  const uint64_t year = FIRST_YEAR - 2020 + month / 12;
  return 365 * year + (year + 3) / 4 + before[month % 12] + (year % 4 == 0 && month % 12 > 1);
}

static bool is_business_day(const uint64_t *head, uint64_t day) {
  for (uint64_t i = 0; i < head[LEDGER_HOLIDAY_COUNT]; i++)
    if (head[LEDGER_HOLIDAYS + i] == day) return false;
  return day % 7 != SATURDAY && day % 7 != SUNDAY;
}

/* The 5th business day before delivery of a year, the 3rd of a quarter or month. */
static uint64_t closing_day(const uint64_t *head, uint64_t contract) {
  const uint64_t year = contract / LEDGER_CONTRACTS_A_YEAR, k = contract % LEDGER_CONTRACTS_A_YEAR;
  uint64_t month = k == LEDGER_YEAR ? 0 : k < LEDGER_JANUARY ? (k - LEDGER_FIRST_QUARTER) * 3 : k - LEDGER_JANUARY;
  uint64_t day = month_start(12 * year + month);
  for (int distance = k == LEDGER_YEAR ? 5 : 3; distance > 0; distance -= is_business_day(head, day)) day--;
  return day;
}

/* Which contracts are open on the ledger's day, and whose rows its close may change: closing years and quarters, and
   their parts. */
static bool is_open[LEDGER_CONTRACTS], is_carried[LEDGER_CONTRACTS];

static void set_contracts(const uint64_t *head) {
  uint64_t years = 0, quarters = 0, months = 0;
  memset(is_carried, 0, sizeof is_carried);
  for (uint64_t c = 0; c < LEDGER_CONTRACTS; c++) {
    const uint64_t k = c % LEDGER_CONTRACTS_A_YEAR, closing = closing_day(head, c);
    const bool is_year = k == LEDGER_YEAR, is_quarter = !is_year && k < LEDGER_JANUARY;
    is_open[c] = closing >= head[LEDGER_DAY] && (is_year ? years++ < 4 : is_quarter ? quarters++ < 8 : months++ < 15);
    if (closing != head[LEDGER_DAY] || k >= LEDGER_JANUARY) continue;
    const uint64_t first_part =
        is_year ? c + LEDGER_FIRST_QUARTER : c - k + LEDGER_JANUARY + (k - LEDGER_FIRST_QUARTER) * 3;
    is_carried[c] = true;
    memset(is_carried + first_part, true, is_year ? 4 : 3);
  }
}

/* A fresh ledger, at times made odd; where the start day is no business day, another. */
static void begin(const Tables *tables) {
  static const uint64_t members[] = {1, 2, 3, 4, 8, LEDGER_MOST_MEMBERS}, limits[] = {10, 1000, 100000, 100000};
  Bytes bytes;
  uint64_t day;
  soil(tables);
  do {
    const uint64_t holiday = FIRST_DAY + below(DAYS);
    day = FIRST_DAY + (percent(10) ? DAYS - 1 - below(5) : below(DAYS));
    bytes = header_from(FIRST_YEAR, day, members[below(6)], limits[below(4)], &holiday, below(2));
  } while (make(tables, bytes.at, bytes.length) != LEDGER_ACCEPTED);
  apart = percent(20) ? 100 : 0;
  defaults = apart > 0 ? 0 : percent(40) ? 10 : 2;
  set_contracts(tables->at[HEAD]);
  choose_contracts(day);
  if (percent(25)) make_odd(tables);
}

static const uint64_t *order(const Tables *tables, uint64_t place) {
  return tables->at[BOOK] + place * LEDGER_ORDER_WIDTH;
}

/* The order with the best priority on a side of a contract, or NULL. */
static const uint64_t *best(const Tables *tables, uint64_t contract, uint64_t side) {
  const uint64_t *found = NULL;
  for (uint64_t i = 0; i < tables->at[HEAD][LEDGER_ORDER_COUNT]; i++) {
    const uint64_t *o = order(tables, i);
    if (o[LEDGER_ORDER_CONTRACT] != contract || o[LEDGER_ORDER_SIDE] != side) continue;
    bool better = found == NULL || (side == LEDGER_BUY ? o[LEDGER_ORDER_PRICE] > found[LEDGER_ORDER_PRICE]
                                                       : o[LEDGER_ORDER_PRICE] < found[LEDGER_ORDER_PRICE]);
    if (better) found = o;
  }
  return found;
}

/* The quarter against its months, one lot each at the quarter's price, from the best orders; any legs where one is
   missing. */
static Bytes draw_proposal(const Tables *tables) {
  uint64_t side = below(2), legs[4][3], price = PRICE;
  for (int i = 0; i < 4; i++) {
    const uint64_t *o = best(tables, few[i], i == QUARTER ? side : 1 - side);
    if (i == QUARTER && o != NULL) price = o[LEDGER_ORDER_PRICE];
    legs[i][0] = o != NULL ? o[LEDGER_ORDER_NUMBER] : below(300), legs[i][1] = 1, legs[i][2] = price;
  }
  for (int i = 0; i < 4; i++) /* by rising number */
    for (int j = i + 1; j < 4; j++)
      if (legs[j][0] < legs[i][0]) {
        uint64_t number = legs[i][0];
        legs[i][0] = legs[j][0], legs[j][0] = number;
      }
  uint64_t fields[13] = {4};
  memcpy(fields + 1, legs, sizeof legs);
  return record_of(LEDGER_KIND_PROPOSAL, fields, 13);
}

static Bytes draw_record(const Tables *tables) {
  const uint64_t *head = tables->at[HEAD], members = head[LEDGER_MEMBERS], orders = head[LEDGER_ORDER_COUNT];
  uint64_t time = head[LEDGER_TIME] + (percent(3) ? 300 : below(2)),
           contract = percent(95) ? few[below(FEW)] : below(LEDGER_CONTRACTS), which = below(1000);
  if (percent(2) && time > 0) time = head[LEDGER_TIME] - 1;
  if (which < 650) {
    static const uint64_t kinds[] = {LEDGER_RESTING, LEDGER_RESTING, LEDGER_RESTING, LEDGER_OEYE, LEDGER_TEYE};
    const uint64_t side = below(2), price = PRICE - 2 + below(5) + (side == LEDGER_SELL ? apart : 0);
    return RECORD(LEDGER_KIND_SUBMIT, time, below(members), contract, side, kinds[below(5)], price,
                  1 + below(percent(20) ? 100 : 10));
  }
  if (which < 700) {
    const uint64_t *o = orders > 0 && percent(90) && apart == 0 ? order(tables, below(orders)) : NULL;
    return RECORD(LEDGER_KIND_CANCEL, time, o != NULL ? o[LEDGER_ORDER_MEMBER] : below(members),
                  o != NULL ? o[LEDGER_ORDER_NUMBER] : below(100));
  }
  if (which < 710)
    return RECORD(LEDGER_KIND_DAY_LIMITS, contract, percent(80) ? 1 : PRICE, percent(80) ? 1000000 : PRICE + 1);
  if (which < 860) return draw_proposal(tables);
  if (which < 860 + defaults) return RECORD(LEDGER_KIND_DEFAULT, below(members));
  if (which < 960) return RECORD(LEDGER_KIND_CLOSE_OUT, contract, 1 + below(1000));
  return RECORD(LEDGER_KIND_CLOSE_OF_DAY, time);
}

/* Cut, longer, or a byte or two changed. */
static void alter(Bytes *bytes) {
  static const uint8_t ends[] = {0, 1, 0x7F, 0x80, 0xFF};
  for (uint64_t times = 1 + below(2); times > 0 && bytes->length > 0; times--) {
    uint8_t *byte = bytes->at + below(bytes->length);
    switch (below(5)) {
    case 0: bytes->length = below(bytes->length); break;
    case 1: put(bytes, 1, draw()); break;
    case 2: *byte = (uint8_t)draw(); break;
    case 3: *byte = ends[below(5)]; break;
    default: *byte ^= (uint8_t)(1 << below(8));
    }
  }
}

static Bytes draw_bytes(const Tables *tables) {
  Bytes bytes = {{0}, 0};
  if (percent(94)) {
    bytes = draw_record(tables);
    if (percent(20)) alter(&bytes);
  } else {
    for (uint64_t n = below(percent(50) ? 20 : MOST_BYTES); n > 0; n--) put(&bytes, 1, draw());
    if (bytes.length > 0 && percent(70)) bytes.at[0] = (uint8_t)below(LEDGER_KIND_CLOSE_OF_DAY + 2);
  }
  return bytes;
}

static bool is_member_place(uint64_t place, uint64_t first, uint64_t members) {
  return place >= first && place < first + members;
}

/* Whether an accepted record may have changed a place of the head or of the prices. */
static bool may_change_head(const Bytes *record, const Tables *before, const Tables *after, uint64_t place) {
  const uint64_t members = before->at[HEAD][LEDGER_MEMBERS], kind = record->at[0];
  const bool later = after->at[HEAD][LEDGER_TIME] > before->at[HEAD][LEDGER_TIME];
  const bool all_counts = is_member_place(place, LEDGER_SUBMITS, members);
  switch (kind) {
  case LEDGER_KIND_SUBMIT:
    return (place >= LEDGER_ACCEPTED_SUBMITS && place <= LEDGER_ORDER_COUNT) ||
           place == LEDGER_SUBMITS + (uint64_t)record->at[5] || (later && (place == LEDGER_TIME || all_counts));
  case LEDGER_KIND_CANCEL: return place == LEDGER_ORDER_COUNT || (later && (place == LEDGER_TIME || all_counts));
  case LEDGER_KIND_PROPOSAL: return place == LEDGER_LOTS_RUN || place == LEDGER_ORDER_COUNT;
  case LEDGER_KIND_DEFAULT: return place == LEDGER_ORDER_COUNT || place == LEDGER_MARKS + (uint64_t)record->at[1];
  case LEDGER_KIND_CLOSE_OUT: return place == LEDGER_LOTS_RUN;
  case LEDGER_KIND_CLOSE_OF_DAY:
    return place == LEDGER_DAY || place == LEDGER_TIME || place == LEDGER_ORDER_COUNT || all_counts;
  default: return false;
  }
}

static bool may_change_prices(const Bytes *record, uint64_t place) {
  const uint64_t contract = place / LEDGER_PRICE_WIDTH, which = place % LEDGER_PRICE_WIDTH;
  switch (record->at[0]) {
  case LEDGER_KIND_SUBMIT: return contract == record->at[6] && which >= LEDGER_DAY_LOTS;
  case LEDGER_KIND_DAY_LIMITS: return contract == record->at[1] && (which == LEDGER_LOW || which == LEDGER_HIGH);
  case LEDGER_KIND_CLOSE_OF_DAY: return which == LEDGER_GGF ? is_open[contract] : which >= LEDGER_DAY_LOTS;
  default: return false;
  }
}

/* Orders stand in front, places past the last one keep what they hold; so do lines. */
static bool may_change(const Bytes *record, const Tables *before, const Tables *after, uint64_t lines, int table,
                       uint64_t place) {
  if (place >= LEAST[table]) return false;
  switch (table) {
  case HEAD: return may_change_head(record, before, after, place);
  case PRICES: return may_change_prices(record, place);
  case BOOK:
    return place < after->at[HEAD][LEDGER_ORDER_COUNT] * LEDGER_ORDER_WIDTH &&
           record->at[0] != LEDGER_KIND_DAY_LIMITS && record->at[0] != LEDGER_KIND_CLOSE_OUT;
  case LINES: return place < lines * LEDGER_LINE_WIDTH;
  default:
    return record->at[0] == LEDGER_KIND_CLOSE_OF_DAY && is_carried[place / LEDGER_ROW_WIDTH] &&
           place % LEDGER_ROW_WIDTH < before->at[HEAD][LEDGER_MEMBERS];
  }
}

/* Adds the lines to the rows and to the lots run of the tables before the call: so rows differ only by a cascade. */
static void book_lines(const Tables *before, const Tables *after, uint64_t lines) {
  for (const uint64_t *line = after->at[LINES], *end = line + lines * LEDGER_LINE_WIDTH; line < end;
       line += LEDGER_LINE_WIDTH) {
    uint64_t row = line[LEDGER_LINE_CONTRACT] * LEDGER_ROW_WIDTH + line[LEDGER_LINE_MEMBER];
    expect(line[LEDGER_LINE_CONTRACT] < LEDGER_CONTRACTS &&
               line[LEDGER_LINE_MEMBER] < before->at[HEAD][LEDGER_MEMBERS] && line[LEDGER_LINE_LOTS] != 0,
           "a line");
    before->at[LOTS][row] += line[LEDGER_LINE_LOTS];
    before->at[VALUE][row] += line[LEDGER_LINE_LOTS] * line[LEDGER_LINE_PRICE];
    before->at[HEAD][LEDGER_LOTS_RUN] += (uint64_t)llabs((int64_t)line[LEDGER_LINE_LOTS]);
  }
  expect(before->at[HEAD][LEDGER_LOTS_RUN] == after->at[HEAD][LEDGER_LOTS_RUN], "the lots run is the lines'");
}

/* A member's lots or value in the hours of a month: the rows of the month, its quarter and its year. */
static uint64_t in_month(const Tables *tables, int table, uint64_t member, uint64_t month) {
  const uint64_t year = month / 12 * LEDGER_CONTRACTS_A_YEAR, *rows = tables->at[table] + member;
  return rows[(year + LEDGER_YEAR) * LEDGER_ROW_WIDTH] +
         rows[(year + LEDGER_FIRST_QUARTER + month % 12 / 3) * LEDGER_ROW_WIDTH] +
         rows[(year + LEDGER_JANUARY + month % 12) * LEDGER_ROW_WIDTH];
}

static bool same_in_every_month(const Tables *before, const Tables *after) {
  for (uint64_t member = 0; member < before->at[HEAD][LEDGER_MEMBERS]; member++)
    for (uint64_t month = 0; month < MONTHS; month++)
      for (int t = LOTS; t <= VALUE; t++)
        if (in_month(before, t, member, month) != in_month(after, t, member, month)) return false;
  return true;
}

static void accepted(const Bytes *record, const Tables *before, const Tables *after, uint64_t lines) {
  expect(lines * LEDGER_LINE_WIDTH <= LEDGER_LINES, "%" PRIu64 " lines", lines);
  book_lines(before, after, lines);
  for (int t = 0; t < TABLES; t++)
    for (size_t i = 0; i < before->length[t]; i++)
      if (before->at[t][i] != after->at[t][i])
        expect(may_change(record, before, after, lines, t, i), "kind %d changed %s %zu", record->at[0], TABLE_NAMES[t],
               i);
  if (record->at[0] == LEDGER_KIND_CLOSE_OF_DAY)
    expect(same_in_every_month(before, after), "a close moves lots or value to other hours");
  expect(is_damaged(after) == LEDGER_NOT_DAMAGED, "damaged by kind %d", record->at[0]);
}

/* A record that names a contract is 6 exactly where it is not open, unless a lower number comes first. */
static void asks_open(const Bytes *record, uint64_t number) {
  const uint64_t kind = record->at[0];
  if (kind != LEDGER_KIND_SUBMIT && kind != LEDGER_KIND_DAY_LIMITS && kind != LEDGER_KIND_CLOSE_OUT) return;
  if (number != LEDGER_ACCEPTED && number < LEDGER_CONTRACT_NOT_OPEN) return;
  const uint64_t contract = record->at[kind == LEDGER_KIND_SUBMIT ? 6 : 1];
  expect((number == LEDGER_CONTRACT_NOT_OPEN) == !is_open[contract], "answer %" PRIu64 " for contract %" PRIu64, number,
         contract);
}

static uint64_t answers[ANSWERS], accepted_of_kind[LEDGER_KIND_CLOSE_OF_DAY + 1];

/* One call; before has the same tables and is brought up to date. */
static void call(const Tables *tables, const Tables *before, const Bytes *record, uint8_t *place) {
  memcpy(place, record->at, record->length);
  uint64_t detail = SOIL, number = apply(tables, place, record->length, &detail);
  expect(memcmp(place, record->at, record->length) == 0, "the record is only read");
  expect(number < ANSWERS && number != LEDGER_HEADER_UNSOUND && number != LEDGER_TABLE_UNSOUND, "answer %" PRIu64,
         number);
  if (number < ANSWERS) answers[number]++;
  asks_open(record, number);
  if (number == LEDGER_ACCEPTED) {
    accepted_of_kind[record->at[0]]++;
    accepted(record, before, tables, detail);
    copy(before, tables);
    if (record->at[0] == LEDGER_KIND_CLOSE_OF_DAY) set_contracts(tables->at[HEAD]);
  } else {
    expect(same(tables, before), "answer %" PRIu64 " leaves the tables", number);
    if (number == LEDGER_MEMBER_DEFAULTED)
      expect(detail == record->at[record->at[0] == LEDGER_KIND_SUBMIT ? 5 : 1], "the member of 5");
    else if (number == LEDGER_CONTRACT_NOT_OPEN)
      expect(detail == record->at[record->at[0] == LEDGER_KIND_SUBMIT ? 6 : 1], "the contract of 6");
    else expect(detail == 0, "%" PRIu64 " with answer %" PRIu64, detail, number);
  }
}

int main(int count, char **words) {
  const uint64_t records = count > 1 ? strtoull(words[1], NULL, 10) : RECORDS;
  const uint64_t seed = count > 2 ? strtoull(words[2], NULL, 10) : 1;
  state = seed;
  uint8_t *ends = guarded(2 * MOST_BYTES, ENDS) + 2 * MOST_BYTES, *begins = guarded(2 * MOST_BYTES, BEGINS);
  for (int kind = 0; kind < 4; kind++) {
    const Edge edge = kind % 2 == 0 ? ENDS : BEGINS;
    const size_t surplus = kind < 2 ? 0 : SURPLUS;
    const Tables tables = lend_guarded(surplus, edge);
    Tables before = lend(surplus);
    for (uint64_t i = 0; i < records / 4; i++) {
      if (i % EPISODE == 0) {
        begin(&tables);
        copy(&before, &tables);
      }
      if (percent(2)) choose_contracts(tables.at[HEAD][LEDGER_DAY]);
      const Bytes record = draw_bytes(&tables);
      call(&tables, &before, &record, edge == ENDS ? ends - record.length : begins);
    }
    give_back(&before);
  }
  const bool whole = records >= RECORDS;
  for (size_t number = 0; number < ANSWERS; number++) {
    const bool never = number == LEDGER_TABLE_UNSOUND || number == LEDGER_HEADER_UNSOUND;
    printf("answer %zu: %" PRIu64 "\n", number, answers[number]);
    expect(never || answers[number] > 0 || !whole, "answer %zu is not met", number);
  }
  for (size_t kind = LEDGER_KIND_SUBMIT; kind <= LEDGER_KIND_CLOSE_OF_DAY; kind++) {
    printf("accepted of kind %zu: %" PRIu64 "\n", kind, accepted_of_kind[kind]);
    expect(accepted_of_kind[kind] > 0 || !whole, "kind %zu is not accepted", kind);
  }
  return records == RECORDS && seed == 1 ? finish_after(CHECKS) : finish();
}
