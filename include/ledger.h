/* The ledger, for a host program in C or C++. docs/LAYOUT.md says what stands at each place, and in which range.

   What a host lends
   - A slice is a pointer and a count of elements (not of bytes). Where the count is 0 the pointer may be NULL.
   - A table needs the alignment that C asks of its elements, bytes need none.
   - What an entry writes (not const here) must not overlap anything else that the same call is handed; what it only
     reads may overlap. So the six tables, the record and *detail are eight separate places in ledger_apply, and the
     fields, the bytes and *detail are three in the entries that read and write.
   - *detail is always written, so detail is never NULL.
   - The five tables head, prices, lots, value and book are the ledger. Between two calls they stand as the call before
     left them, and nobody else writes them; they may be copied, stored and moved to another address. The line table is
     paper to print on: any table with any content, in each call another one if the host likes.
   - A table may be longer than its least count. Places past it, and places that docs/LAYOUT.md calls surplus, are not
     read and need hold nothing. They are not written either, but for two tables: in the book a place is surplus until an
     order comes to stand there, and in the line table until a line is printed there.

   What a call does
   - It answers for every length and every content of what it is lent; nothing is undefined, and nothing is kept: the
     library has no memory of its own between calls, takes none, opens nothing and starts no thread.
   - One call at a time may use a table. Calls on other tables may run beside it, in other threads.
   - Where the answer is not LEDGER_ACCEPTED every table, the fields and the bytes are bit for bit as they were.

   In which units
   - Days are counted from day 0, 1 January 2020: the head's, an order's, holidays and a start day. Times are seconds of
     the day, 0 to 86,399.
   - A lot is 0.1 MWh in every hour of the contract's period. Prices are kuruş per MWh, in every table and record; GGF
     (the reference price), low and high too. So value, lots times price, is tenths of a kuruş for each delivery hour.
   - A close-out's ratio is per mille. */
#ifndef LEDGER_H
#define LEDGER_H
#include <stddef.h>
#include <stdint.h>

/* The least count of elements of each table. Lots and value have LEDGER_ROWS each. */
#define LEDGER_HEAD 224
#define LEDGER_PRICES 510
#define LEDGER_ROWS 3264
#define LEDGER_BOOK 2048
#define LEDGER_LINES 800

/* The head: its places, and where the holidays and what is kept for each member begin: its position limit, its default
   mark, and its accepted submits in the present second. Member m's stand m places on. */
enum {
  LEDGER_FIRST_YEAR = 0,
  LEDGER_MEMBERS = 1,
  LEDGER_HOLIDAY_COUNT = 2,
  LEDGER_DAY = 3,
  LEDGER_TIME = 4,
  LEDGER_ACCEPTED_SUBMITS = 5,
  LEDGER_LOTS_RUN = 6,
  LEDGER_ORDER_COUNT = 7,
  LEDGER_HOLIDAYS = 8,
  LEDGER_LIMITS = 128,
  LEDGER_MARKS = 160,
  LEDGER_SUBMITS = 192
};

/* A default mark. */
enum { LEDGER_NOT_DEFAULTED = 0, LEDGER_DEFAULTED = 1 };

/* The most of what is counted there. */
enum { LEDGER_MOST_MEMBERS = 32, LEDGER_MOST_HOLIDAYS = 120, LEDGER_MOST_ORDERS = 256 };

/* Contracts: number = year (from 0, the first year) * LEDGER_CONTRACTS_A_YEAR + one of the three: the year itself, the
   first quarter and the three after it, January and the eleven after it. */
enum {
  LEDGER_CONTRACTS = 102,
  LEDGER_CONTRACTS_A_YEAR = 17,
  LEDGER_YEAR = 0,
  LEDGER_FIRST_QUARTER = 1,
  LEDGER_JANUARY = 5
};

/* The prices: contract c has LEDGER_PRICE_WIDTH places from c * LEDGER_PRICE_WIDTH on. A GGF that is 0 is none yet. The
   day's ordinary lots count each deal once, and the day's value is these times their prices. */
enum {
  LEDGER_PRICE_WIDTH = 5,
  LEDGER_GGF = 0,
  LEDGER_LOW = 1,
  LEDGER_HIGH = 2,
  LEDGER_DAY_LOTS = 3,
  LEDGER_DAY_VALUE = 4
};

/* The rows, lots and value alike: member m of contract c stands at c * LEDGER_ROW_WIDTH + m. Lots are buys less
   sells. */
enum { LEDGER_ROW_WIDTH = 32 };

/* The book: order i has LEDGER_ORDER_WIDTH places from i * LEDGER_ORDER_WIDTH on. */
enum {
  LEDGER_ORDER_WIDTH = 8,
  LEDGER_ORDER_NUMBER = 0,
  LEDGER_ORDER_MEMBER = 1,
  LEDGER_ORDER_CONTRACT = 2,
  LEDGER_ORDER_SIDE = 3,
  LEDGER_ORDER_PRICE = 4,
  LEDGER_ORDER_LOTS = 5,
  LEDGER_ORDER_DAY = 6,
  LEDGER_ORDER_TIME = 7
};

/* The lines: line i has LEDGER_LINE_WIDTH places from i * LEDGER_LINE_WIDTH on. Lots are above 0 where the member
   buys. */
enum {
  LEDGER_LINE_WIDTH = 4,
  LEDGER_LINE_MEMBER = 0,
  LEDGER_LINE_CONTRACT = 1,
  LEDGER_LINE_LOTS = 2,
  LEDGER_LINE_PRICE = 3
};

/* The bytes of a header, at most LEDGER_MOST_HEADER_BYTES: LEDGER_HEADER_BYTES, LEDGER_HOLIDAY_BYTES for each of
   head[LEDGER_HOLIDAY_COUNT] holidays, LEDGER_LIMIT_BYTES for each of head[LEDGER_MEMBERS] members. There a journal's
   first record begins. */
enum { LEDGER_HEADER_BYTES = 11, LEDGER_HOLIDAY_BYTES = 2, LEDGER_LIMIT_BYTES = 4, LEDGER_MOST_HEADER_BYTES = 379 };

/* The kinds of record, the first byte of each. */
enum {
  LEDGER_KIND_SUBMIT = 1,
  LEDGER_KIND_CANCEL = 2,
  LEDGER_KIND_DAY_LIMITS = 3,
  LEDGER_KIND_PROPOSAL = 4,
  LEDGER_KIND_DEFAULT = 5,
  LEDGER_KIND_CLOSE_OUT = 6,
  LEDGER_KIND_CLOSE_OF_DAY = 7
};

/* The bytes of a record with its kind, at most LEDGER_MOST_RECORD_BYTES where it is sound. A proposal has
   LEDGER_PROPOSAL_BYTES and LEDGER_LEG_BYTES for each leg; its second byte counts them. That byte may be up to 255, so
   what ledger_front_record finds in a journal may have LEDGER_MOST_FRONT_BYTES. */
enum {
  LEDGER_SUBMIT_BYTES = 15,
  LEDGER_CANCEL_BYTES = 10,
  LEDGER_DAY_LIMITS_BYTES = 10,
  LEDGER_PROPOSAL_BYTES = 2,
  LEDGER_LEG_BYTES = 10,
  LEDGER_DEFAULT_BYTES = 2,
  LEDGER_CLOSE_OUT_BYTES = 4,
  LEDGER_CLOSE_OF_DAY_BYTES = 5,
  LEDGER_MOST_RECORD_BYTES = 122,
  LEDGER_MOST_FRONT_BYTES = 2552
};

/* Headers and records as fields: a row of numbers, at least so many. Fields that a header or a record does not have are
   surplus. */
#define LEDGER_HEADER_FIELDS 156
#define LEDGER_RECORD_FIELDS 38

/* The fields of a header. Holiday i stands at LEDGER_HEADER_HOLIDAYS + i, the limit of member m at LEDGER_HEADER_LIMITS
   + m. */
enum {
  LEDGER_HEADER_FIRST_YEAR = 0,
  LEDGER_HEADER_START_DAY = 1,
  LEDGER_HEADER_MEMBERS = 2,
  LEDGER_HEADER_HOLIDAY_COUNT = 3,
  LEDGER_HEADER_HOLIDAYS = 4,
  LEDGER_HEADER_LIMITS = 124
};

/* The fields of a record: its kind, then for each kind its own, in the order of its bytes, and how many in all. */
enum {
  LEDGER_RECORD_KIND = 0,

  LEDGER_SUBMIT_TIME = 1,
  LEDGER_SUBMIT_MEMBER = 2,
  LEDGER_SUBMIT_CONTRACT = 3,
  LEDGER_SUBMIT_SIDE = 4,
  LEDGER_SUBMIT_ORDER_KIND = 5,
  LEDGER_SUBMIT_PRICE = 6,
  LEDGER_SUBMIT_LOTS = 7,
  LEDGER_SUBMIT_FIELDS = 8,

  LEDGER_CANCEL_TIME = 1,
  LEDGER_CANCEL_MEMBER = 2,
  LEDGER_CANCEL_ORDER = 3,
  LEDGER_CANCEL_FIELDS = 4,

  LEDGER_DAY_LIMITS_CONTRACT = 1,
  LEDGER_DAY_LIMITS_LOW = 2,
  LEDGER_DAY_LIMITS_HIGH = 3,
  LEDGER_DAY_LIMITS_FIELDS = 4,

  /* Leg j has LEDGER_LEG_FIELDS numbers from LEDGER_PROPOSAL_FIELDS + j * LEDGER_LEG_FIELDS on. */
  LEDGER_PROPOSAL_LEGS = 1,
  LEDGER_PROPOSAL_FIELDS = 2,
  LEDGER_LEG_FIELDS = 3,
  LEDGER_LEG_ORDER = 0,
  LEDGER_LEG_LOTS = 1,
  LEDGER_LEG_PRICE = 2,
  LEDGER_MOST_LEGS = 12,

  LEDGER_DEFAULT_MEMBER = 1,
  LEDGER_DEFAULT_FIELDS = 2,

  LEDGER_CLOSE_OUT_CONTRACT = 1,
  LEDGER_CLOSE_OUT_RATIO = 2,
  LEDGER_CLOSE_OUT_FIELDS = 3,

  LEDGER_CLOSE_OF_DAY_TIME = 1,
  LEDGER_CLOSE_OF_DAY_FIELDS = 2
};

/* Sides, in a submit and in the book; kinds of order, in a submit. */
enum { LEDGER_BUY = 0, LEDGER_SELL = 1 };
enum { LEDGER_RESTING = 0, LEDGER_OEYE = 1, LEDGER_TEYE = 2 };

/* What an entry answers: 0, or the number of a cause that holds: in ledger_make and ledger_apply the lowest, in the
   entries that read and write the first in the order that each names. */
enum {
  LEDGER_ACCEPTED = 0,
  LEDGER_TABLE_UNSOUND = 1,         /* a table too short or damaged, or under 200 lines; fields or output too short */
  LEDGER_HEADER_UNSOUND = 2,        /* header cut or against its rule; not in ledger_apply */
  LEDGER_RECORD_UNSOUND = 3,        /* record cut or with surplus bytes, unknown kind, field out of range */
  LEDGER_TIME_BELOW_LEDGER = 4,     /* time below the ledger's */
  LEDGER_MEMBER_DEFAULTED = 5,      /* submit or default: member already defaulted; with the member */
  LEDGER_CONTRACT_NOT_OPEN = 6,     /* submit, limits, close-out: contract not open; with the contract */
  LEDGER_PRICE_OUTSIDE_LIMITS = 7,  /* submit price outside low to high */
  LEDGER_SIXTH_SUBMIT = 8,          /* sixth submit in a second */
  LEDGER_ABOVE_LIMIT = 9,           /* above the member's position limit */
  LEDGER_CANNOT_MATCH_IN_FULL = 10, /* TEYE can't match in full */
  LEDGER_BOOK_FULL = 11,            /* would rest while 256 others rest after its deals */
  LEDGER_NO_SUCH_ORDER = 12,        /* cancel: no such resting order of that member */
  LEDGER_NOT_ACCEPTABLE = 13,       /* proposal not acceptable */
  LEDGER_NO_REFERENCE_PRICE = 14,   /* close-out: GGF is 0 */
  LEDGER_NO_DEFAULTED_LOTS = 15,    /* close-out: no defaulted lots there */
  LEDGER_NO_TAKER = 16,             /* close-out: lots remain and total weight is 0 */
  LEDGER_TOTAL_PASSED = 17,         /* lots run would pass 5,000,000, or accepted submits 4,000,000,000 */
  LEDGER_NO_LATER_DAY = 18          /* close of day: no later business day in the span */
};

#ifdef __cplusplus
extern "C" {
#endif

/* Makes a ledger from the bytes of a journal's header; bytes past the header are not read. LEDGER_ACCEPTED: made.
   LEDGER_TABLE_UNSOUND: a table is too short (what it holds is not asked). LEDGER_HEADER_UNSOUND: the header is cut or
   against its rule. The book is not written: a fresh ledger has no orders, by its count. */
uint64_t ledger_make(uint64_t *head, size_t head_len, uint64_t *prices, size_t prices_len, int64_t *lots,
                     size_t lots_len, int64_t *value, size_t value_len, const uint64_t *book, size_t book_len,
                     const uint8_t *header, size_t header_len);

/* Applies one record to a ledger. The bytes are exactly one record: one more or one fewer is LEDGER_RECORD_UNSOUND.
   LEDGER_ACCEPTED: applied, and the deal lines stand in the first places of the line table, in printed order; its other
   places are as they were. Any other answer but LEDGER_HEADER_UNSOUND: turned back.

   *detail: with LEDGER_ACCEPTED the number of lines, with LEDGER_MEMBER_DEFAULTED the member, with
   LEDGER_CONTRACT_NOT_OPEN the contract, else 0. */
uint64_t ledger_apply(uint64_t *head, size_t head_len, uint64_t *prices, size_t prices_len, int64_t *lots,
                      size_t lots_len, int64_t *value, size_t value_len, uint64_t *book, size_t book_len,
                      int64_t *lines, size_t lines_len, const uint8_t *record, size_t record_len, uint64_t *detail);

/* What ledger_is_damaged answers. */
enum { LEDGER_NOT_DAMAGED = 0, LEDGER_DAMAGED = 1 };

/* LEDGER_DAMAGED if a table is too short or damaged, so that any record applied to these tables is turned back with
   LEDGER_TABLE_UNSOUND; else LEDGER_NOT_DAMAGED. */
uint64_t ledger_is_damaged(const uint64_t *head, size_t head_len, const uint64_t *prices, size_t prices_len,
                           const int64_t *lots, size_t lots_len, const int64_t *value, size_t value_len,
                           const uint64_t *book, size_t book_len, const int64_t *lines, size_t lines_len);

/* Reads the header that a journal begins with to fields; bytes past it are not read. The first of these that holds:
   LEDGER_TABLE_UNSOUND: under LEDGER_HEADER_FIELDS fields. LEDGER_HEADER_UNSOUND: the header is cut or against its
   rule. LEDGER_ACCEPTED: read; surplus fields are as they were.

   *detail: with LEDGER_ACCEPTED the header's bytes, so where the first record begins; else 0. */
uint64_t ledger_read_header(const uint8_t *header, size_t header_len, uint64_t *fields, size_t fields_len,
                            uint64_t *detail);

/* Writes the header that the fields say. Surplus fields are not read. The first of these that holds:
   LEDGER_TABLE_UNSOUND: under LEDGER_HEADER_FIELDS fields. LEDGER_HEADER_UNSOUND: the header is against its rule.
   LEDGER_TABLE_UNSOUND: it has more than header_len bytes. LEDGER_ACCEPTED: written; bytes past it are as they were.

   *detail: with LEDGER_ACCEPTED the bytes written, else 0. */
uint64_t ledger_write_header(const uint64_t *fields, size_t fields_len, uint8_t *header, size_t header_len,
                             uint64_t *detail);

/* Reads a record of a ledger of so many members, 1 to LEDGER_MOST_MEMBERS, to fields. The bytes are exactly one record.
   The first of these that holds: LEDGER_TABLE_UNSOUND: under LEDGER_RECORD_FIELDS fields. LEDGER_RECORD_UNSOUND: the
   record is cut or has surplus bytes, its kind is unknown or a field is out of range, or so many members no ledger has.
   LEDGER_ACCEPTED: read; surplus fields are as they were.

   *detail: with LEDGER_ACCEPTED how many fields were written, else 0. */
uint64_t ledger_read_record(uint64_t members, const uint8_t *record, size_t record_len, uint64_t *fields,
                            size_t fields_len, uint64_t *detail);

/* Writes the record that the fields say, for a ledger of so many members. Surplus fields are not read. The first of
   these that holds: LEDGER_TABLE_UNSOUND: under LEDGER_RECORD_FIELDS fields. LEDGER_RECORD_UNSOUND: the kind is unknown
   or a field is out of range, or so many members no ledger has. LEDGER_TABLE_UNSOUND: the record has more than
   record_len bytes. LEDGER_ACCEPTED: written; bytes past it are as they were.

   *detail: with LEDGER_ACCEPTED the bytes written, else 0. */
uint64_t ledger_write_record(uint64_t members, const uint64_t *fields, size_t fields_len, uint8_t *record,
                             size_t record_len, uint64_t *detail);

/* The record that bytes begin with, by its kind and, of a proposal, its number of legs; no field's range is asked.
   LEDGER_ACCEPTED: it is whole. LEDGER_RECORD_UNSOUND: it is cut, or no kind has its number. A host that reads a
   journal in pieces tells these apart by the first byte: where it is LEDGER_KIND_SUBMIT to LEDGER_KIND_CLOSE_OF_DAY, or
   there is none yet, the record is cut and further bytes make it whole; any other byte begins no record.

   *detail: with LEDGER_ACCEPTED its bytes, so where the next record begins, at most LEDGER_MOST_FRONT_BYTES; else 0.
   More than LEDGER_MOST_RECORD_BYTES is a proposal of too many legs, which every entry that reads it turns back. */
uint64_t ledger_front_record(const uint8_t *bytes, size_t bytes_len, uint64_t *detail);

#ifdef __cplusplus
}
#endif
#endif
