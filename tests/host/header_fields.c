/* Headers by number fields: each field at its ends and past them, the longest header, fields and output one short. Prints
   "ok" and the count of checks, or each check that fails. */
#include "fields.h"
#include <string.h>

/* The checks of a whole run. */
enum { CHECKS = 479 };
enum { MEMBERS = 3 };

/* The fields of a header: first year 2021, start day 369, three members, holidays 370 and 626. */
typedef struct {
  uint64_t at[LEDGER_HEADER_FIELDS];
} Header;

static Header header_fields(void) {
  Header h;
  for (size_t i = 0; i < LEDGER_HEADER_FIELDS; i++) h.at[i] = SOIL + i;
  const uint64_t front[] = {2021, 369, MEMBERS, 2, 370, 626};
  memcpy(h.at, front, sizeof front);
  for (size_t m = 0; m < MEMBERS; m++) h.at[LEDGER_HEADER_LIMITS + m] = 66051 + m;
  return h;
}

static const uint64_t *lent_header(const Header *h) { return memcpy(row_of(&HEADERS), h->at, sizeof h->at); }

/* Its bytes, as document 01 has them. */
static Bytes header_bytes(const Header *h) {
  const uint64_t *at = h->at, members = at[LEDGER_HEADER_MEMBERS];
  Bytes bytes = header_from(at[LEDGER_HEADER_FIRST_YEAR], at[LEDGER_HEADER_START_DAY], 0, 0,
                            at + LEDGER_HEADER_HOLIDAYS, at[LEDGER_HEADER_HOLIDAY_COUNT]);
  bytes.at[9] = (uint8_t)members;
  for (size_t m = 0; m < members; m++) put(&bytes, LEDGER_LIMIT_BYTES, at[LEDGER_HEADER_LIMITS + m]);
  return bytes;
}

static void is_header(const Header *h, const char *what) {
  const Bytes bytes = header_bytes(h);
  written(&HEADERS, 0, lent_header(h), bytes.at, bytes.length, what);
  there_and_back(&HEADERS, 0, bytes.at, bytes.length);
  const size_t days = LEDGER_HEADER_HOLIDAYS + h->at[LEDGER_HEADER_HOLIDAY_COUNT];
  const uint64_t *fields = row_of(&HEADERS), *limits = h->at + LEDGER_HEADER_LIMITS;
  expect(memcmp(fields, h->at, days * sizeof *fields) == 0 &&
             memcmp(fields + LEDGER_HEADER_LIMITS, limits, h->at[LEDGER_HEADER_MEMBERS] * sizeof *fields) == 0,
         "the fields of a header: %s", what);
}

static void is_no_header(const Header *h, const char *what) {
  not_written(&HEADERS, 0, lent_header(h), LEDGER_HEADER_FIELDS, LEDGER_MOST_HEADER_BYTES, LEDGER_HEADER_UNSOUND, what);
  not_written(&HEADERS, 0, row_of(&HEADERS), LEDGER_HEADER_FIELDS, 0, LEDGER_HEADER_UNSOUND, what);
}

/* Also its bytes are refused, where they say the same. */
static void is_no_bytes(const Header *h, const char *what) {
  is_no_header(h, what);
  const Bytes bytes = header_bytes(h);
  not_read(&HEADERS, 0, bytes.at, bytes.length, row_of(&HEADERS), LEDGER_HEADER_FIELDS, LEDGER_HEADER_UNSOUND, what);
}

/* One number of the sound header changed. */
static Header with(size_t field, uint64_t number) {
  Header h = header_fields();
  h.at[field] = number;
  return h;
}

static void headers(void) {
  const struct {
    size_t field;
    uint64_t number;
    const char *what;
  } sound[] = {{LEDGER_HEADER_START_DAY, 366, "start on the span's first day"},
               {LEDGER_HEADER_START_DAY, 373, "start on a Friday"},
               {LEDGER_HEADER_START_DAY, 2556, "start on the span's last day"},
               {LEDGER_HEADER_HOLIDAY_COUNT, 0, "no holidays"},
               {LEDGER_HEADER_MEMBERS, 1, "one member"},
               {LEDGER_HEADER_HOLIDAYS, 625, "holidays that just rise"},
               {LEDGER_HEADER_HOLIDAYS + 1, 2556, "a holiday on the span's last day"},
               {LEDGER_HEADER_LIMITS, 0, "limit 0"},
               {LEDGER_HEADER_LIMITS + MEMBERS - 1, 100000, "limit 100,000"}},
    unsound[] = {{LEDGER_HEADER_FIRST_YEAR, 2019, "first year 2019"},
                 {LEDGER_HEADER_FIRST_YEAR, 2095, "first year 2095"},
                 {LEDGER_HEADER_START_DAY, 365, "start before the span"},
                 {LEDGER_HEADER_START_DAY, 370, "start on a holiday"},
                 {LEDGER_HEADER_START_DAY, 374, "start on a Saturday"},
                 {LEDGER_HEADER_START_DAY, 375, "start on a Sunday"},
                 {LEDGER_HEADER_START_DAY, 2557, "start past the span"},
                 {LEDGER_HEADER_MEMBERS, 0, "no members"},
                 {LEDGER_HEADER_HOLIDAYS, 365, "a holiday before the span"},
                 {LEDGER_HEADER_HOLIDAYS, 626, "holidays alike"},
                 {LEDGER_HEADER_HOLIDAYS, 627, "holidays that do not rise"},
                 {LEDGER_HEADER_HOLIDAYS + 1, 2557, "a holiday past the span"},
                 {LEDGER_HEADER_LIMITS, 100001, "limit 100,001"},
                 {LEDGER_HEADER_LIMITS + MEMBERS - 1, 100001, "the last limit 100,001"}},
    wide[] = {{LEDGER_HEADER_FIRST_YEAR, 65536 + 2021, "a year of 17 bits"},
              {LEDGER_HEADER_START_DAY, 65536 + 369, "a day of 17 bits"},
              {LEDGER_HEADER_MEMBERS, LEDGER_MOST_MEMBERS + 1, "33 members"},
              {LEDGER_HEADER_MEMBERS, 256 + MEMBERS, "259 members"},
              {LEDGER_HEADER_MEMBERS, UINT64_MAX, "all members"},
              {LEDGER_HEADER_HOLIDAY_COUNT, LEDGER_MOST_HOLIDAYS + 1, "121 holidays"},
              {LEDGER_HEADER_HOLIDAY_COUNT, 256 + 2, "258 holidays"},
              {LEDGER_HEADER_HOLIDAY_COUNT, UINT64_MAX, "all holidays"},
              {LEDGER_HEADER_HOLIDAYS, 65536 + 370, "a holiday of 17 bits"},
              {LEDGER_HEADER_LIMITS, (UINT64_C(1) << 32) + 1, "a limit of 33 bits"}};
  Header h = header_fields();
  is_header(&h, "as it is");
  for (size_t i = 0; i < sizeof sound / sizeof *sound; i++)
    h = with(sound[i].field, sound[i].number), is_header(&h, sound[i].what);
  for (size_t i = 0; i < sizeof unsound / sizeof *unsound; i++)
    h = with(unsound[i].field, unsound[i].number), is_no_bytes(&h, unsound[i].what);
  for (size_t i = 0; i < sizeof wide / sizeof *wide; i++)
    h = with(wide[i].field, wide[i].number), is_no_header(&h, wide[i].what);
}

/* The longest header, and one more of each; each first year at its ends. */
static void longest(void) {
  Header h = header_fields();
  h.at[LEDGER_HEADER_MEMBERS] = LEDGER_MOST_MEMBERS, h.at[LEDGER_HEADER_HOLIDAY_COUNT] = LEDGER_MOST_HOLIDAYS;
  for (size_t i = 0; i < LEDGER_MOST_HOLIDAYS; i++) h.at[LEDGER_HEADER_HOLIDAYS + i] = 370 + i;
  for (size_t m = 0; m < LEDGER_MOST_MEMBERS; m++) h.at[LEDGER_HEADER_LIMITS + m] = 100000 - m;
  is_header(&h, "the longest");
  expect(header_bytes(&h).length == LEDGER_MOST_HEADER_BYTES, "how long a header is at most");
  h.at[LEDGER_HEADER_HOLIDAYS + LEDGER_MOST_HOLIDAYS - 1]--;
  is_no_bytes(&h, "the last two holidays alike");
  h.at[LEDGER_HEADER_HOLIDAYS + LEDGER_MOST_HOLIDAYS - 1]++;
  h.at[LEDGER_HEADER_LIMITS + LEDGER_MOST_MEMBERS - 1] = 100001;
  is_no_bytes(&h, "the last limit of 32 members");
  h = header_fields();
  h.at[LEDGER_HEADER_HOLIDAY_COUNT] = 0;
  h.at[LEDGER_HEADER_FIRST_YEAR] = 2020, h.at[LEDGER_HEADER_START_DAY] = 0;
  is_header(&h, "first year 2020");
  h.at[LEDGER_HEADER_FIRST_YEAR] = 2094, h.at[LEDGER_HEADER_START_DAY] = 27029;
  is_header(&h, "first year 2094");
}

/* Fields one short are 1, before 2, and so are none. A header cut at each byte is 2, and a byte past it is not read. */
static void one_short(void) {
  const Header sound = header_fields();
  const Bytes bytes = header_bytes(&sound);
  short_by_one(&HEADERS, 0, sound.at, bytes.at, bytes.length);
  for (size_t n = 0; n < bytes.length; n++)
    not_read(&HEADERS, 0, bytes.at, n, row_of(&HEADERS), LEDGER_HEADER_FIELDS, LEDGER_HEADER_UNSOUND, "cut");
  uint64_t told;
  const uint8_t *more = lent_bytes(bytes.at, bytes.length + 1);
  expect(ledger_read_header(more, bytes.length + 1, row_of(&HEADERS), LEDGER_HEADER_FIELDS, &told) == LEDGER_ACCEPTED &&
             told == bytes.length,
         "a header with a byte past it");
}

int main(void) {
  headers();
  longest();
  one_short();
  return finish_after(CHECKS);
}
