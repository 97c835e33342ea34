/* What the C tests share: a set of lent tables, places that end or begin at an inaccessible page (the compiler's checks see
   only the tests, the pages see the library too), bytes of records, and the count of checks. */
#ifndef LENT_H
#define LENT_H
#include "ledger.h"
#include <stdbool.h>

enum { HEAD, PRICES, LOTS, VALUE, BOOK, LINES, TABLES };
extern const size_t LEAST[TABLES];
extern const char *const TABLE_NAMES[TABLES];

/* The six tables. Lots, value and lines hold signed numbers; C lets either kind look at the other. */
typedef struct {
  uint64_t *at[TABLES];
  size_t length[TABLES];
} Tables;

uint64_t make(const Tables *tables, const uint8_t *header, size_t bytes);
uint64_t apply(const Tables *tables, const uint8_t *record, size_t bytes, uint64_t *detail);
uint64_t is_damaged(const Tables *tables);

/* Tables on the heap, each so many places longer than its least length. */
Tables lend(size_t surplus);
void give_back(Tables *tables);
void copy(const Tables *to, const Tables *from);
bool same(const Tables *a, const Tables *b);

/* Every place holds a number that no ledger has there: its own, from SOIL on. */
#define SOIL 1000000000000
void soil(const Tables *tables);
bool is_soiled(const Tables *tables, int table, size_t from, size_t to);
bool all_soiled(const Tables *tables);

/* A number that changes with every place of every table, its order included. */
uint64_t digest(const Tables *tables);

/* So many bytes that end where an inaccessible page begins, or begin where one ends. */
typedef enum { ENDS, BEGINS } Edge;
uint8_t *guarded(size_t bytes, Edge edge);
Tables lend_guarded(size_t surplus, Edge edge);
void read_only(void *place, size_t bytes);
void all_read_only(const Tables *tables);

/* Appends a number, big-endian. */
typedef struct {
  uint8_t at[512];
  size_t length;
} Bytes;
void put(Bytes *bytes, size_t width, uint64_t number);
/* First year 2021, start day 369 (4 January 2021, a Monday), so many members with one limit, these holidays. */
Bytes header(uint64_t members, uint64_t limit, const uint64_t *holidays, size_t holiday_count);
Bytes header_from(uint64_t first_year, uint64_t start_day, uint64_t members, uint64_t limit, const uint64_t *holidays,
                  size_t holiday_count);
/* A record: its kind and its fields in the order of docs/LAYOUT.md, of a proposal its legs and each leg's three. */
Bytes record_of(uint8_t kind, const uint64_t *fields, size_t count);
#define RECORD(kind, ...)                                                                                              \
  record_of(kind, (const uint64_t[]){__VA_ARGS__}, sizeof((const uint64_t[]){__VA_ARGS__}) / sizeof(uint64_t))

/* How many bytes the record at the front has by its kind and legs; all of them where its kind is unknown or it is cut. */
size_t front_length(const uint8_t *bytes, size_t n);

/* A whole file, with a zero byte past its end; the program ends where it cannot be read. */
uint8_t *read_file(const char *path, size_t *bytes);

/* Counts a check and says where it fails; finish prints "ok" and the count, and gives the exit status. */
void expect(bool holds, const char *what, ...) __attribute__((format(printf, 2, 3)));
int finish(void);
/* Fails too where another number of checks was made: a check was dropped, or a list of inputs is shorter or longer. */
int finish_after(int count);
#endif
