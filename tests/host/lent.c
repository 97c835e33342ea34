#define _DEFAULT_SOURCE
#include "lent.h"
#include <stdarg.h>
#include <stdio.h>
#include <stdlib.h>
#include <string.h>
#include <sys/mman.h>
#include <unistd.h>

const size_t LEAST[TABLES] = {LEDGER_HEAD, LEDGER_PRICES, LEDGER_ROWS, LEDGER_ROWS, LEDGER_BOOK, LEDGER_LINES};
const char *const TABLE_NAMES[TABLES] = {"head", "prices", "lots", "value", "book", "lines"};

static void stop(const char *what) {
  perror(what);
  exit(2);
}

uint64_t make(const Tables *t, const uint8_t *bytes, size_t n) {
  return ledger_make(t->at[HEAD], t->length[HEAD], t->at[PRICES], t->length[PRICES], (int64_t *)t->at[LOTS],
                     t->length[LOTS], (int64_t *)t->at[VALUE], t->length[VALUE], t->at[BOOK], t->length[BOOK], bytes,
                     n);
}

uint64_t apply(const Tables *t, const uint8_t *record, size_t n, uint64_t *detail) {
  return ledger_apply(t->at[HEAD], t->length[HEAD], t->at[PRICES], t->length[PRICES], (int64_t *)t->at[LOTS],
                      t->length[LOTS], (int64_t *)t->at[VALUE], t->length[VALUE], t->at[BOOK], t->length[BOOK],
                      (int64_t *)t->at[LINES], t->length[LINES], record, n, detail);
}

uint64_t is_damaged(const Tables *t) {
  return ledger_is_damaged(t->at[HEAD], t->length[HEAD], t->at[PRICES], t->length[PRICES], (int64_t *)t->at[LOTS],
                           t->length[LOTS], (int64_t *)t->at[VALUE], t->length[VALUE], t->at[BOOK], t->length[BOOK],
                           (int64_t *)t->at[LINES], t->length[LINES]);
}

Tables lend(size_t surplus) {
  Tables tables;
  for (int t = 0; t < TABLES; t++) {
    tables.length[t] = LEAST[t] + surplus;
    tables.at[t] = calloc(tables.length[t], sizeof(uint64_t));
    if (tables.at[t] == NULL) stop("calloc");
  }
  return tables;
}

void give_back(Tables *tables) {
  for (int t = 0; t < TABLES; t++) free(tables->at[t]);
}

void copy(const Tables *to, const Tables *from) {
  for (int t = 0; t < TABLES; t++) memcpy(to->at[t], from->at[t], from->length[t] * sizeof(uint64_t));
}

bool same(const Tables *a, const Tables *b) {
  for (int t = 0; t < TABLES; t++)
    if (memcmp(a->at[t], b->at[t], a->length[t] * sizeof(uint64_t)) != 0) return false;
  return true;
}

void soil(const Tables *tables) {
  for (int t = 0; t < TABLES; t++)
    for (size_t i = 0; i < tables->length[t]; i++) tables->at[t][i] = SOIL + i;
}

bool is_soiled(const Tables *tables, int table, size_t from, size_t to) {
  for (size_t i = from; i < to; i++)
    if (tables->at[table][i] != SOIL + i) return false;
  return true;
}

bool all_soiled(const Tables *tables) {
  for (int t = 0; t < TABLES; t++)
    if (!is_soiled(tables, t, 0, tables->length[t])) return false;
  return true;
}

/* Each step turns different digests into different ones and different numbers too; tests/model/src/text.rs has the same. */
uint64_t digest(const Tables *tables) {
  uint64_t digest = 0;
  for (int t = 0; t < TABLES; t++)
    for (size_t i = 0; i < tables->length[t]; i++) {
      digest = (digest ^ tables->at[t][i]) * 0x9E3779B97F4A7C15;
      digest ^= digest >> 32;
    }
  return digest;
}

uint8_t *guarded(size_t bytes, Edge edge) {
  size_t page = (size_t)sysconf(_SC_PAGESIZE), inner = (bytes + page - 1) / page * page;
  uint8_t *all = mmap(NULL, inner + 2 * page, PROT_NONE, MAP_PRIVATE | MAP_ANONYMOUS, -1, 0);
  if (all == MAP_FAILED || (inner > 0 && mprotect(all + page, inner, PROT_READ | PROT_WRITE) != 0)) stop("mmap");
  return edge == BEGINS ? all + page : all + page + inner - bytes;
}

Tables lend_guarded(size_t surplus, Edge edge) {
  Tables tables;
  for (int t = 0; t < TABLES; t++) {
    tables.length[t] = LEAST[t] + surplus;
    tables.at[t] = (uint64_t *)(void *)guarded(tables.length[t] * sizeof(uint64_t), edge);
  }
  return tables;
}

void read_only(void *place, size_t bytes) {
  size_t page = (size_t)sysconf(_SC_PAGESIZE);
  char *first = (char *)((uintptr_t)place / page * page);
  if (bytes > 0 && mprotect(first, (size_t)((char *)place + bytes - first), PROT_READ) != 0) stop("mprotect");
}

void all_read_only(const Tables *tables) {
  for (int t = 0; t < TABLES; t++) read_only(tables->at[t], tables->length[t] * sizeof(uint64_t));
}

void put(Bytes *bytes, size_t width, uint64_t number) {
  for (size_t i = width; i-- > 0;) bytes->at[bytes->length++] = (uint8_t)(number >> (8 * i));
}

Bytes header_from(uint64_t first_year, uint64_t start_day, uint64_t members, uint64_t limit, const uint64_t *holidays,
                  size_t holiday_count) {
  Bytes bytes = {{'V', 'J', 'R'}, 3};
  put(&bytes, 2, 1);
  put(&bytes, 2, first_year);
  put(&bytes, 2, start_day);
  put(&bytes, 1, members);
  put(&bytes, 1, holiday_count);
  for (size_t i = 0; i < holiday_count; i++) put(&bytes, LEDGER_HOLIDAY_BYTES, holidays[i]);
  for (size_t m = 0; m < members; m++) put(&bytes, LEDGER_LIMIT_BYTES, limit);
  return bytes;
}

Bytes header(uint64_t members, uint64_t limit, const uint64_t *holidays, size_t holiday_count) {
  return header_from(2021, 369, members, limit, holidays, holiday_count);
}

Bytes record_of(uint8_t kind, const uint64_t *fields, size_t count) {
  static const uint8_t widths[][7] = {[LEDGER_KIND_SUBMIT] = {4, 1, 1, 1, 1, 4, 2},
                                      [LEDGER_KIND_CANCEL] = {4, 1, 4},
                                      [LEDGER_KIND_DAY_LIMITS] = {1, 4, 4},
                                      [LEDGER_KIND_PROPOSAL] = {1},
                                      [LEDGER_KIND_DEFAULT] = {1},
                                      [LEDGER_KIND_CLOSE_OUT] = {1, 2},
                                      [LEDGER_KIND_CLOSE_OF_DAY] = {4}};
  static const uint8_t leg[] = {4, 2, 4};
  Bytes bytes = {{kind}, 1};
  for (size_t i = 0; i < count; i++)
    put(&bytes, kind == LEDGER_KIND_PROPOSAL && i > 0 ? leg[(i - 1) % 3] : widths[kind][i], fields[i]);
  return bytes;
}

size_t front_length(const uint8_t *bytes, size_t n) {
  static const size_t by_kind[] = {[LEDGER_KIND_SUBMIT] = LEDGER_SUBMIT_BYTES,
                                   [LEDGER_KIND_CANCEL] = LEDGER_CANCEL_BYTES,
                                   [LEDGER_KIND_DAY_LIMITS] = LEDGER_DAY_LIMITS_BYTES,
                                   [LEDGER_KIND_PROPOSAL] = LEDGER_PROPOSAL_BYTES,
                                   [LEDGER_KIND_DEFAULT] = LEDGER_DEFAULT_BYTES,
                                   [LEDGER_KIND_CLOSE_OUT] = LEDGER_CLOSE_OUT_BYTES,
                                   [LEDGER_KIND_CLOSE_OF_DAY] = LEDGER_CLOSE_OF_DAY_BYTES};
  size_t kind = n > 0 ? bytes[0] : 0, length = kind <= LEDGER_KIND_CLOSE_OF_DAY ? by_kind[kind] : 0;
  if (kind == LEDGER_KIND_PROPOSAL && n > 1) length += (size_t)LEDGER_LEG_BYTES * bytes[1];
  return length == 0 || length > n ? n : length;
}

uint8_t *read_file(const char *path, size_t *bytes) {
  FILE *file = fopen(path, "rb");
  if (file == NULL || fseek(file, 0, SEEK_END) != 0) stop(path);
  long size = ftell(file);
  if (size < 0 || fseek(file, 0, SEEK_SET) != 0) stop(path);
  uint8_t *all = calloc((size_t)size + 1, 1);
  if (all == NULL || fread(all, 1, (size_t)size, file) != (size_t)size) stop(path);
  fclose(file);
  *bytes = (size_t)size;
  return all;
}

static int checks, failures;

void expect(bool holds, const char *what, ...) {
  checks++;
  if (holds) return;
  failures++;
  va_list arguments;
  va_start(arguments, what);
  printf("failed: ");
  vprintf(what, arguments);
  printf("\n");
  va_end(arguments);
}

int finish(void) {
  if (failures == 0) printf("ok %d\n", checks);
  else printf("%d of %d checks failed\n", failures, checks);
  return failures != 0;
}

int finish_after(int count) {
  if (checks != count) {
    failures++;
    printf("failed: %d checks were made, and %d are to be made\n", checks, count);
  }
  return finish();
}
