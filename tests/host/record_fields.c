/* Records by number fields: record_fields JOURNAL ... reads each header and record of the journals to fields, writes
   them back and reads them again; then each field at its ends and past them, each byte at each of its values, fields
   and output one short, and the splitter of a journal. Prints "ok" and the count of checks, or each that fails. */
#include "fields.h"
#include <stdlib.h>
#include <string.h>

/* The checks of a whole run. */
enum { CHECKS = 497348 };
enum { MEMBERS = 3 };

/* A journal: its header, then its records where the splitter finds them; at its end what the splitter refuses is 3 for
   the reader too. */
static void journal(const char *path) {
  size_t n, at, count = 0;
  uint8_t *bytes = read_file(path, &n);
  uint64_t told, detail = 0, *fields = row_of(&HEADERS);
  soil_fields(fields, LEDGER_HEADER_FIELDS);
  uint64_t number = ledger_read_header(bytes, n, fields, LEDGER_HEADER_FIELDS, &told);
  if (number != LEDGER_ACCEPTED) {
    expect(number == LEDGER_HEADER_UNSOUND && told == 0, "%s has no header", path);
    free(bytes);
    return;
  }
  const uint64_t members = fields[LEDGER_HEADER_MEMBERS];
  expect(told == LEDGER_HEADER_BYTES + fields[LEDGER_HEADER_HOLIDAY_COUNT] * LEDGER_HOLIDAY_BYTES +
                     members * LEDGER_LIMIT_BYTES,
         "where the header of %s ends", path);
  there_and_back(&HEADERS, 0, bytes, told);
  for (at = told; at < n; at += detail, count++) {
    size_t length = front_length(bytes + at, n - at);
    number = ledger_front_record(bytes + at, n - at, &detail);
    if (number != LEDGER_ACCEPTED) break;
    expect(detail == length, "record %zu of %s ends after %zu bytes", count, path, length);
    soil_fields(row_of(&RECORDS), LEDGER_RECORD_FIELDS);
    number = ledger_read_record(members, bytes + at, length, row_of(&RECORDS), LEDGER_RECORD_FIELDS, &told);
    if (number == LEDGER_ACCEPTED) there_and_back(&RECORDS, members, bytes + at, length);
    else
      expect(number == LEDGER_RECORD_UNSOUND && told == 0 && fields_soiled(row_of(&RECORDS), 0, LEDGER_RECORD_FIELDS),
             "record %zu of %s is unsound", count, path);
  }
  if (at < n) {
    expect(number == LEDGER_RECORD_UNSOUND && detail == 0, "the end of %s", path);
    expect(ledger_read_record(members, bytes + at, n - at, row_of(&RECORDS), LEDGER_RECORD_FIELDS, &told) ==
               LEDGER_RECORD_UNSOUND,
           "the end of %s is no record", path);
  }
  free(bytes);
}

/* The fields of a record, and the same bytes as document 01 has them. */
typedef struct {
  uint64_t at[LEDGER_RECORD_FIELDS];
} Fields;

static const uint64_t *lent_fields(const Fields *fields) {
  return memcpy(row_of(&RECORDS), fields->at, sizeof fields->at);
}

static Bytes bytes_of(const Fields *fields) {
  return record_of((uint8_t)fields->at[0], fields->at + 1, field_count(fields->at[0], fields->at[1]) - 1);
}

static void is_record(const Fields *fields, const char *what) {
  const Bytes bytes = bytes_of(fields);
  written(&RECORDS, MEMBERS, lent_fields(fields), bytes.at, bytes.length, what);
  there_and_back(&RECORDS, MEMBERS, bytes.at, bytes.length);
  const size_t count = field_count(fields->at[0], fields->at[1]);
  expect(memcmp(row_of(&RECORDS), fields->at, count * sizeof(uint64_t)) == 0, "the fields of a record: %s", what);
}

static void is_no_record(const Fields *fields, const char *what) {
  not_written(&RECORDS, MEMBERS, lent_fields(fields), LEDGER_RECORD_FIELDS, LEDGER_MOST_RECORD_BYTES,
              LEDGER_RECORD_UNSOUND, what);
  not_written(&RECORDS, MEMBERS, row_of(&RECORDS), LEDGER_RECORD_FIELDS, 0, LEDGER_RECORD_UNSOUND, what);
}

/* One field of a sound record at its ends, one past each, and at numbers that its bytes would cut to a sound one. */
static void ends(Fields fields, size_t field, uint64_t least, uint64_t most, const char *what) {
  const uint64_t wide[] = {most + 1,
                           least + (UINT64_C(1) << 8),
                           least + (UINT64_C(1) << 16),
                           least + (UINT64_C(1) << 32),
                           least + (UINT64_C(1) << 63),
                           UINT64_MAX};
  fields.at[field] = least;
  is_record(&fields, what);
  fields.at[field] = most;
  is_record(&fields, what);
  if (least > 0) {
    fields.at[field] = least - 1;
    is_no_record(&fields, what);
  }
  for (size_t i = 0; i < sizeof wide / sizeof *wide; i++)
    if (fields.at[field] = wide[i], wide[i] > most) is_no_record(&fields, what);
}

enum { LAST_SECOND = 86399, MOST_PRICE = 1000000, MOST_LOTS = 100, MOST_RATIO = 1000, LAST_MEMBER = MEMBERS - 1 };
static const uint64_t last_contract = LEDGER_CONTRACTS - 1, most_number = UINT32_MAX;
static const Fields submit = {{LEDGER_KIND_SUBMIT, 66051, 2, 17, LEDGER_SELL, LEDGER_TEYE, 258000, 100}},
                    cancel = {{LEDGER_KIND_CANCEL, 66051, 1, 16909060}},
                    limits = {{LEDGER_KIND_DAY_LIMITS, 5, 256, 65536}}, default_ = {{LEDGER_KIND_DEFAULT, 2}},
                    close_out = {{LEDGER_KIND_CLOSE_OUT, 34, 256}}, close = {{LEDGER_KIND_CLOSE_OF_DAY, 61200}};

static Fields proposal(void) {
  Fields fields = {{LEDGER_KIND_PROPOSAL, LEDGER_MOST_LEGS}};
  for (size_t j = 0; j < LEDGER_MOST_LEGS; j++) {
    uint64_t *leg = fields.at + LEDGER_PROPOSAL_FIELDS + j * LEDGER_LEG_FIELDS;
    leg[LEDGER_LEG_ORDER] = 65536 + j, leg[LEDGER_LEG_LOTS] = 1 + j, leg[LEDGER_LEG_PRICE] = 256 + j;
  }
  return fields;
}

static void each_field(void) {
  ends(submit, LEDGER_SUBMIT_TIME, 0, LAST_SECOND, "time of a submit");
  ends(submit, LEDGER_SUBMIT_MEMBER, 0, LAST_MEMBER, "member of a submit");
  ends(submit, LEDGER_SUBMIT_CONTRACT, 0, last_contract, "contract of a submit");
  ends(submit, LEDGER_SUBMIT_SIDE, LEDGER_BUY, LEDGER_SELL, "side");
  ends(submit, LEDGER_SUBMIT_ORDER_KIND, LEDGER_RESTING, LEDGER_TEYE, "order kind");
  ends(submit, LEDGER_SUBMIT_PRICE, 1, MOST_PRICE, "price of a submit");
  ends(submit, LEDGER_SUBMIT_LOTS, 1, MOST_LOTS, "lots of a submit");
  ends(cancel, LEDGER_CANCEL_TIME, 0, LAST_SECOND, "time of a cancel");
  ends(cancel, LEDGER_CANCEL_MEMBER, 0, LAST_MEMBER, "member of a cancel");
  ends(cancel, LEDGER_CANCEL_ORDER, 0, most_number, "order number");
  ends(limits, LEDGER_DAY_LIMITS_CONTRACT, 0, last_contract, "contract of day limits");
  ends(limits, LEDGER_DAY_LIMITS_LOW, 1, 65536, "low");
  ends(limits, LEDGER_DAY_LIMITS_HIGH, 256, MOST_PRICE, "high");
  ends(default_, LEDGER_DEFAULT_MEMBER, 0, LAST_MEMBER, "member of a default");
  ends(close_out, LEDGER_CLOSE_OUT_CONTRACT, 0, last_contract, "contract of a close-out");
  ends(close_out, LEDGER_CLOSE_OUT_RATIO, 1, MOST_RATIO, "ratio");
  ends(close, LEDGER_CLOSE_OF_DAY_TIME, 0, LAST_SECOND, "time of a close of day");
}

static void each_leg(void) {
  const Fields fields = proposal();
  ends(fields, LEDGER_PROPOSAL_LEGS, 2, LEDGER_MOST_LEGS, "legs");
  for (size_t j = 0; j < LEDGER_MOST_LEGS; j++) {
    const size_t leg = LEDGER_PROPOSAL_FIELDS + j * LEDGER_LEG_FIELDS;
    ends(fields, leg + LEDGER_LEG_ORDER, 0, most_number, "order number of a leg");
    ends(fields, leg + LEDGER_LEG_LOTS, 1, MOST_LOTS, "lots of a leg");
    ends(fields, leg + LEDGER_LEG_PRICE, 1, MOST_PRICE, "price of a leg");
  }
}

/* Each byte of a record of each kind at each of its values: what is read gives the same bytes back, the rest is 3. */
static void each_byte(void) {
  const Fields each[] = {submit, cancel, limits, proposal(), default_, close_out, close};
  for (size_t k = 0; k < sizeof each / sizeof *each; k++) {
    Bytes bytes = bytes_of(&each[k]);
    for (size_t i = 0; i < bytes.length; i++) {
      const uint8_t before = bytes.at[i];
      for (int value = 0; value < 256; value++) {
        uint64_t told;
        bytes.at[i] = (uint8_t)value;
        if (ledger_read_record(MEMBERS, bytes.at, bytes.length, row_of(&RECORDS), LEDGER_RECORD_FIELDS, &told) == 0)
          there_and_back(&RECORDS, MEMBERS, bytes.at, bytes.length);
        else
          not_read(&RECORDS, MEMBERS, bytes.at, bytes.length, row_of(&RECORDS), LEDGER_RECORD_FIELDS,
                   LEDGER_RECORD_UNSOUND, "a byte altered");
      }
      bytes.at[i] = before;
    }
  }
}

/* Kinds that there are not, members that no ledger has. */
static void kinds_and_members(void) {
  Fields fields = {{LEDGER_KIND_CLOSE_OF_DAY, 1}};
  const Bytes bytes = RECORD(LEDGER_KIND_CLOSE_OF_DAY, 1);
  const uint64_t none[] = {0, LEDGER_KIND_CLOSE_OF_DAY + 1, 256 + LEDGER_KIND_CLOSE_OF_DAY, UINT64_MAX},
                 no_members[] = {0, LEDGER_MOST_MEMBERS + 1, UINT64_MAX};
  for (size_t i = 0; i < sizeof no_members / sizeof *no_members; i++) {
    not_written(&RECORDS, no_members[i], lent_fields(&fields), LEDGER_RECORD_FIELDS, LEDGER_MOST_RECORD_BYTES,
                LEDGER_RECORD_UNSOUND, "members");
    not_read(&RECORDS, no_members[i], bytes.at, bytes.length, row_of(&RECORDS), LEDGER_RECORD_FIELDS,
             LEDGER_RECORD_UNSOUND, "members");
  }
  for (size_t i = 0; i < sizeof none / sizeof *none; i++) fields.at[0] = none[i], is_no_record(&fields, "kind");
}

/* 256 lots are 1 and 0 in the record; written the wrong way round they would be 1 lot, and 1 lot 256. */
static void the_wrong_way_round(void) {
  Fields fields = {{LEDGER_KIND_SUBMIT, 66051, 2, 17, LEDGER_SELL, LEDGER_TEYE, 258000, 1}};
  Bytes bytes = record_of(LEDGER_KIND_SUBMIT, fields.at + 1, LEDGER_SUBMIT_FIELDS - 1);
  is_record(&fields, "1 lot");
  expect(bytes.at[13] == 0 && bytes.at[14] == 1, "1 lot is 0 and 1");
  bytes.at[13] = 1, bytes.at[14] = 0;
  not_read(&RECORDS, MEMBERS, bytes.at, bytes.length, row_of(&RECORDS), LEDGER_RECORD_FIELDS, LEDGER_RECORD_UNSOUND,
           "1 lot the wrong way round");
  fields.at[LEDGER_SUBMIT_LOTS] = 256;
  is_no_record(&fields, "256 lots");
}

/* The splitter asks only kind and legs: 0 for one byte too many and for none, 3 for one too few and for no kind. */
static void front(const uint8_t *bytes, size_t n, uint64_t number, uint64_t length, const char *what) {
  uint64_t detail = 77;
  expect(ledger_front_record(lent_bytes(bytes, n), n, &detail) == number && detail == length, "front: %s of %zu", what,
         n);
}

static void kinds_in_front(void) {
  static const size_t lengths[] = {0, 15, 10, 10, 0, 2, 4, 5};
  uint8_t bytes[LEDGER_SUBMIT_BYTES + 1] = {0};
  front(NULL, 0, LEDGER_RECORD_UNSOUND, 0, "nothing");
  for (size_t kind = 0; kind < 256; kind++) {
    bytes[0] = (uint8_t)kind;
    const size_t n = kind < 8 ? lengths[kind] : 0;
    if (kind == LEDGER_KIND_PROPOSAL) continue;
    for (size_t room = n == 0 ? 1 : n - 1; room <= n + 1; room++)
      front(bytes, room, n == 0 || room < n ? LEDGER_RECORD_UNSOUND : LEDGER_ACCEPTED, room < n ? 0 : n, "a kind");
  }
}

/* Proposals of each count of legs, every leg sound: the splitter finds all, the reader takes those of 2 to 12. */
static void proposals_in_front(void) {
  const Bytes two_legs = RECORD(LEDGER_KIND_PROPOSAL, 2, 7, 1, 1, 7, 1, 1);
  uint8_t bytes[LEDGER_MOST_FRONT_BYTES + 1] = {LEDGER_KIND_PROPOSAL};
  size_t n = LEDGER_PROPOSAL_BYTES;
  for (size_t legs = 0; legs <= UINT8_MAX; legs++, n += LEDGER_LEG_BYTES) {
    bytes[1] = (uint8_t)legs;
    if (legs > 0) memcpy(bytes + n - LEDGER_LEG_BYTES, two_legs.at + LEDGER_PROPOSAL_BYTES, LEDGER_LEG_BYTES);
    front(bytes, n - 1, LEDGER_RECORD_UNSOUND, 0, "a cut proposal");
    front(bytes, n, LEDGER_ACCEPTED, n, "a proposal");
    front(bytes, n + 1, LEDGER_ACCEPTED, n, "a proposal and a byte");
    if (legs >= 2 && legs <= LEDGER_MOST_LEGS) there_and_back(&RECORDS, MEMBERS, bytes, n);
    else
      not_read(&RECORDS, MEMBERS, bytes, n, row_of(&RECORDS), LEDGER_RECORD_FIELDS, LEDGER_RECORD_UNSOUND,
               "a count of legs");
  }
  expect(n - LEDGER_LEG_BYTES == LEDGER_MOST_FRONT_BYTES, "how many bytes the splitter finds at most");
}

/* Fields one short are 1, before 3, and so are none. A record cut at each byte is 3, and one with a byte too many. */
static void one_short(void) {
  const Fields sound = {{LEDGER_KIND_CLOSE_OF_DAY, 61200}};
  const Bytes bytes = RECORD(LEDGER_KIND_CLOSE_OF_DAY, 61200);
  short_by_one(&RECORDS, MEMBERS, sound.at, bytes.at, bytes.length);
  for (size_t n = 0; n <= bytes.length + 1; n++)
    if (n != bytes.length)
      not_read(&RECORDS, MEMBERS, bytes.at, n, row_of(&RECORDS), LEDGER_RECORD_FIELDS, LEDGER_RECORD_UNSOUND, "cut");
}

int main(int count, char **words) {
  for (int i = 1; i < count; i++) journal(words[i]);
  each_field();
  each_leg();
  each_byte();
  kinds_and_members();
  the_wrong_way_round();
  one_short();
  kinds_in_front();
  proposals_in_front();
  return finish_after(CHECKS);
}
