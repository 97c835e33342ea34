#include "fields.h"
#include <string.h>

uint64_t *fields_of(size_t n) { return (uint64_t *)(void *)guarded(n * sizeof(uint64_t), ENDS); }

static uint8_t *bytes_place(size_t n) {
  static uint8_t *place[LEDGER_MOST_FRONT_BYTES + 2];
  if (place[n] == NULL) place[n] = guarded(n, ENDS);
  return place[n];
}

const uint8_t *lent_bytes(const uint8_t *bytes, size_t n) { return n == 0 ? NULL : memcpy(bytes_place(n), bytes, n); }

void soil_fields(uint64_t *fields, size_t n) {
  for (size_t i = 0; i < n; i++) fields[i] = SOIL + i;
}

bool fields_soiled(const uint64_t *fields, size_t from, size_t to) {
  for (size_t i = from; i < to; i++)
    if (fields[i] != SOIL + i) return false;
  return true;
}

/* A byte that stays where nothing is written, and a detail that no call tells. */
enum { STAIN = 0xA5, UNTOLD = 77 };
static bool stained(const uint8_t *bytes, size_t n) {
  for (size_t i = 0; i < n; i++)
    if (bytes[i] != STAIN) return false;
  return true;
}

const Codec HEADERS = {"header", LEDGER_HEADER_FIELDS}, RECORDS = {"record", LEDGER_RECORD_FIELDS};

/* What a call only reads stays. */
static uint64_t read_fields(const Codec *codec, uint64_t members, const uint8_t *bytes, size_t n, uint64_t *fields,
                            size_t count, uint64_t *detail) {
  uint8_t before[LEDGER_MOST_FRONT_BYTES + 1];
  if (n > 0) memcpy(before, bytes, n);
  uint64_t number = codec == &HEADERS ? ledger_read_header(bytes, n, fields, count, detail)
                                      : ledger_read_record(members, bytes, n, fields, count, detail);
  expect(n == 0 || memcmp(before, bytes, n) == 0, "a %s that was read is as it was", codec->name);
  return number;
}

static uint64_t write_fields(const Codec *codec, uint64_t members, const uint64_t *fields, size_t count, uint8_t *bytes,
                             size_t n, uint64_t *detail) {
  uint64_t before[LEDGER_HEADER_FIELDS];
  if (count > 0) memcpy(before, fields, count * sizeof *fields);
  uint64_t number = codec == &HEADERS ? ledger_write_header(fields, count, bytes, n, detail)
                                      : ledger_write_record(members, fields, count, bytes, n, detail);
  expect(count == 0 || memcmp(before, fields, count * sizeof *fields) == 0,
         "fields that were written are as they were");
  return number;
}

void not_written(const Codec *codec, uint64_t members, const uint64_t *fields, size_t count, size_t n, uint64_t number,
                 const char *what) {
  uint8_t *place = n == 0 ? NULL : memset(bytes_place(n), STAIN, n);
  uint64_t detail = UNTOLD;
  expect(write_fields(codec, members, fields, count, place, n, &detail) == number && detail == 0 && stained(place, n),
         "%s not written: %s", codec->name, what);
}

void not_read(const Codec *codec, uint64_t members, const uint8_t *bytes, size_t n, uint64_t *fields, size_t count,
              uint64_t number, const char *what) {
  uint64_t detail = UNTOLD;
  soil_fields(fields, count);
  expect(read_fields(codec, members, lent_bytes(bytes, n), n, fields, count, &detail) == number && detail == 0 &&
             fields_soiled(fields, 0, count),
         "%s not read: %s", codec->name, what);
}

void written(const Codec *codec, uint64_t members, const uint64_t *fields, const uint8_t *bytes, size_t n,
             const char *what) {
  for (size_t room = n; room <= n + 1; room++) {
    uint8_t *place = memset(bytes_place(room), STAIN, room);
    uint64_t detail = UNTOLD;
    expect(write_fields(codec, members, fields, codec->fields, place, room, &detail) == LEDGER_ACCEPTED &&
               detail == n && memcmp(place, bytes, n) == 0 && stained(place + n, room - n),
           "%s written: %s", codec->name, what);
  }
  not_written(codec, members, fields, codec->fields, n - 1, LEDGER_TABLE_UNSOUND, "one byte short");
}

uint64_t *row_of(const Codec *codec) {
  static uint64_t *row[2];
  uint64_t **own = &row[codec == &HEADERS];
  if (*own == NULL) *own = fields_of(codec->fields);
  return *own;
}

size_t field_count(uint64_t kind, uint64_t legs) {
  static const size_t by_kind[] = {[LEDGER_KIND_SUBMIT] = LEDGER_SUBMIT_FIELDS,
                                   [LEDGER_KIND_CANCEL] = LEDGER_CANCEL_FIELDS,
                                   [LEDGER_KIND_DAY_LIMITS] = LEDGER_DAY_LIMITS_FIELDS,
                                   [LEDGER_KIND_PROPOSAL] = LEDGER_PROPOSAL_FIELDS,
                                   [LEDGER_KIND_DEFAULT] = LEDGER_DEFAULT_FIELDS,
                                   [LEDGER_KIND_CLOSE_OUT] = LEDGER_CLOSE_OUT_FIELDS,
                                   [LEDGER_KIND_CLOSE_OF_DAY] = LEDGER_CLOSE_OF_DAY_FIELDS};
  return by_kind[kind] + (kind == LEDGER_KIND_PROPOSAL ? legs * LEDGER_LEG_FIELDS : 0);
}

/* Fields past a record's own are as they were; past a header's holidays and past its limits. */
static bool surplus_soiled(const Codec *codec, const uint64_t *fields) {
  if (codec == &RECORDS)
    return fields_soiled(fields, field_count(fields[LEDGER_RECORD_KIND], fields[LEDGER_PROPOSAL_LEGS]), codec->fields);
  return fields_soiled(fields, LEDGER_HEADER_HOLIDAYS + fields[LEDGER_HEADER_HOLIDAY_COUNT], LEDGER_HEADER_LIMITS) &&
         fields_soiled(fields, LEDGER_HEADER_LIMITS + fields[LEDGER_HEADER_MEMBERS], codec->fields);
}

/* Reads sound bytes, with what goes with the answer; the fields stay in the row. */
static uint64_t *read_whole(const Codec *codec, uint64_t members, const uint8_t *bytes, size_t n, uint64_t *told) {
  uint64_t *fields = row_of(codec);
  soil_fields(fields, codec->fields);
  *told = UNTOLD;
  expect(read_fields(codec, members, lent_bytes(bytes, n), n, fields, codec->fields, told) == LEDGER_ACCEPTED,
         "a sound %s of %zu bytes", codec->name, n);
  expect(surplus_soiled(codec, fields), "surplus fields of a %s of %zu bytes", codec->name, n);
  return fields;
}

void there_and_back(const Codec *codec, uint64_t members, const uint8_t *bytes, size_t n) {
  uint64_t told, again, *fields = read_whole(codec, members, bytes, n, &told);
  expect(told == (codec == &HEADERS ? n : field_count(bytes[0], n > 1 ? bytes[1] : 0)), "what a %s of %zu bytes tells",
         codec->name, n);
  written(codec, members, fields, bytes, n, "as it was read");
  uint64_t before[LEDGER_HEADER_FIELDS];
  memcpy(before, fields, codec->fields * sizeof *before);
  read_whole(codec, members, bytes_place(n), n, &again);
  expect(again == told && memcmp(before, fields, codec->fields * sizeof *before) == 0, "the same fields again");
}

void short_by_one(const Codec *codec, uint64_t members, const uint64_t *sound, const uint8_t *bytes, size_t n) {
  const size_t count = codec->fields - 1;
  uint64_t *shorter = memcpy(fields_of(count), sound, count * sizeof *sound);
  not_written(codec, members, shorter, count, n, LEDGER_TABLE_UNSOUND, "one field short");
  not_written(codec, members, NULL, 0, n, LEDGER_TABLE_UNSOUND, "no fields");
  not_written(codec, members, NULL, 0, 0, LEDGER_TABLE_UNSOUND, "no fields and no room");
  not_read(codec, members, bytes, n, shorter, count, LEDGER_TABLE_UNSOUND, "one field short");
  not_read(codec, members, bytes, 0, shorter, count, LEDGER_TABLE_UNSOUND, "no bytes, one field short");
  not_read(codec, members, bytes, n, NULL, 0, LEDGER_TABLE_UNSOUND, "no fields");
  not_written(codec, members, shorter, count, n, LEDGER_TABLE_UNSOUND, "nothing sound, one field short");
}
