/* host JOURNAL MEMBER ...: applies a journal's records and prints members' positions by contract and by delivery month.
   Lots are net, buys above 0; value is lots times price, in tenths of a kuruş for each delivery hour.

   gcc -I include -o host examples/hosts/host.c target/staticlib/libhost.a */
#include "ledger.h"
#include <inttypes.h>
#include <stdio.h>
#include <stdlib.h>

enum { MONTHS_A_YEAR = 12, MONTHS_A_QUARTER = 3, YEARS = LEDGER_CONTRACTS / LEDGER_CONTRACTS_A_YEAR };

/* The six tables that the library is lent. */
static uint64_t head[LEDGER_HEAD], prices[LEDGER_PRICES], book[LEDGER_BOOK];
static int64_t lots[LEDGER_ROWS], value[LEDGER_ROWS], lines[LEDGER_LINES];

/* How many bytes the record at the front has: its kind says it, and the number of legs. A record that is cut or of an
   unknown kind gets what is left, and the library says what is wrong with it. */
static size_t record_length(const uint8_t *bytes, size_t left) {
  static const size_t lengths[] = {0,
                                   LEDGER_SUBMIT_BYTES,
                                   LEDGER_CANCEL_BYTES,
                                   LEDGER_DAY_LIMITS_BYTES,
                                   LEDGER_PROPOSAL_BYTES,
                                   LEDGER_DEFAULT_BYTES,
                                   LEDGER_CLOSE_OUT_BYTES,
                                   LEDGER_CLOSE_OF_DAY_BYTES};
  size_t length = bytes[0] < sizeof lengths / sizeof *lengths ? lengths[bytes[0]] : 0;
  if (bytes[0] == LEDGER_KIND_PROPOSAL && left > 1) length += (size_t)bytes[1] * LEDGER_LEG_BYTES;
  return length > 0 && length < left ? length : left;
}

static void print_refusal(unsigned record, uint64_t number, uint64_t detail) {
  printf("record %u refused %" PRIu64, record, number);
  if (number == LEDGER_MEMBER_DEFAULTED) printf(" member %" PRIu64, detail);
  if (number == LEDGER_CONTRACT_NOT_OPEN) printf(" contract %" PRIu64, detail);
  printf("\n");
}

/* Applies the records up to the end, or to the first that is none. */
static void apply_records(const uint8_t *bytes, size_t left) {
  unsigned accepted = 0, refused = 0;
  uint64_t number = LEDGER_ACCEPTED;
  while (left > 0 && number != LEDGER_RECORD_UNSOUND) {
    size_t length = record_length(bytes, left);
    uint64_t detail;
    number = ledger_apply(head, LEDGER_HEAD, prices, LEDGER_PRICES, lots, LEDGER_ROWS, value, LEDGER_ROWS, book,
                          LEDGER_BOOK, lines, LEDGER_LINES, bytes, length, &detail);
    if (number == LEDGER_ACCEPTED) accepted++;
    else print_refusal(accepted + ++refused, number, detail);
    bytes += length;
    left -= length;
  }
  printf("%u accepted, %u refused, day %" PRIu64 "\n", accepted, refused, head[LEDGER_DAY]);
}

/* A contract as 2022, 2022 Q1 or 2022-03. */
static void print_name(uint64_t contract) {
  uint64_t year = head[LEDGER_FIRST_YEAR] + contract / LEDGER_CONTRACTS_A_YEAR, k = contract % LEDGER_CONTRACTS_A_YEAR;
  if (k == LEDGER_YEAR) printf("%" PRIu64, year);
  else if (k < LEDGER_JANUARY) printf("%" PRIu64 " Q%" PRIu64, year, k - LEDGER_FIRST_QUARTER + 1);
  else printf("%" PRIu64 "-%02" PRIu64, year, k - LEDGER_JANUARY + 1);
}

static void print_position(uint64_t contract, int64_t its_lots, int64_t its_value) {
  if (its_lots == 0 && its_value == 0) return;
  printf("  ");
  print_name(contract);
  printf(": lots %" PRId64 ", value %" PRId64 "\n", its_lots, its_value);
}

/* In a month's hours: the rows of the year, the quarter and the month that hold it. */
static void print_month(uint64_t year, uint64_t month, uint64_t member) {
  const uint64_t holding[] = {LEDGER_YEAR, LEDGER_FIRST_QUARTER + month / MONTHS_A_QUARTER, LEDGER_JANUARY + month};
  int64_t its_lots = 0, its_value = 0;
  for (size_t i = 0; i < sizeof holding / sizeof *holding; i++) {
    uint64_t row = (year * LEDGER_CONTRACTS_A_YEAR + holding[i]) * LEDGER_ROW_WIDTH + member;
    its_lots += lots[row];
    its_value += value[row];
  }
  print_position(year * LEDGER_CONTRACTS_A_YEAR + LEDGER_JANUARY + month, its_lots, its_value);
}

static void print_positions(uint64_t member) {
  printf("member %" PRIu64 " by contract\n", member);
  for (uint64_t c = 0; c < LEDGER_CONTRACTS; c++)
    print_position(c, lots[c * LEDGER_ROW_WIDTH + member], value[c * LEDGER_ROW_WIDTH + member]);
  printf("member %" PRIu64 " by delivery month\n", member);
  for (uint64_t year = 0; year < YEARS; year++)
    for (uint64_t month = 0; month < MONTHS_A_YEAR; month++) print_month(year, month, member);
}

static void stop(const char *what) {
  fprintf(stderr, "%s\n", what);
  exit(2);
}

static uint8_t *read_file(const char *path, size_t *length) {
  FILE *file = fopen(path, "rb");
  if (file == NULL) stop("the journal cannot be opened");
  size_t room = 1 << 16;
  uint8_t *bytes = malloc(room);
  for (*length = 0; bytes != NULL; bytes = realloc(bytes, room *= 2)) {
    *length += fread(bytes + *length, 1, room - *length, file);
    if (*length < room) break;
  }
  if (bytes == NULL || ferror(file)) stop("the journal cannot be read");
  fclose(file);
  return bytes;
}

int main(int count, char **words) {
  if (count < 3) stop("host JOURNAL MEMBER ...");
  size_t length;
  uint8_t *bytes = read_file(words[1], &length);
  uint64_t number = ledger_make(head, LEDGER_HEAD, prices, LEDGER_PRICES, lots, LEDGER_ROWS, value, LEDGER_ROWS, book,
                                LEDGER_BOOK, bytes, length);
  if (number != LEDGER_ACCEPTED) {
    printf("header refused %" PRIu64 "\n", number);
    return 1;
  }
  size_t records = LEDGER_HEADER_BYTES + head[LEDGER_HOLIDAY_COUNT] * LEDGER_HOLIDAY_BYTES +
                   head[LEDGER_MEMBERS] * LEDGER_LIMIT_BYTES;
  apply_records(bytes + records, length - records);
  free(bytes);
  for (int i = 2; i < count; i++) {
    uint64_t member = strtoull(words[i], NULL, 10);
    if (member >= head[LEDGER_MEMBERS]) stop("no such member");
    print_positions(member);
  }
  return 0;
}
