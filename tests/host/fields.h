/* What the tests of number fields share: headers and records read to fields and written from them, on places that end
   at an inaccessible page. */
#ifndef FIELDS_H
#define FIELDS_H
#include "lent.h"

/* The two things that are read to fields and written from them, with their least count of fields. */
typedef struct {
  const char *name;
  size_t fields;
} Codec;
extern const Codec HEADERS, RECORDS;

/* So many fields, and the row of each codec, made once. Numbers that no header and no record has: SOIL and on. */
uint64_t *fields_of(size_t count);
uint64_t *row_of(const Codec *codec);
void soil_fields(uint64_t *fields, size_t count);
bool fields_soiled(const uint64_t *fields, size_t from, size_t to);

/* The bytes at the end of a page, NULL where there are none; each length has one place, up to one more than the
   splitter finds in a journal. */
const uint8_t *lent_bytes(const uint8_t *bytes, size_t n);

/* How many fields a record of that kind and that many legs has. */
size_t field_count(uint64_t kind, uint64_t legs);

/* Members count for records only. What is refused: the answer, nothing that goes with it, nothing written. */
void not_written(const Codec *codec, uint64_t members, const uint64_t *fields, size_t count, size_t room,
                 uint64_t number, const char *what);
void not_read(const Codec *codec, uint64_t members, const uint8_t *bytes, size_t n, uint64_t *fields, size_t count,
              uint64_t number, const char *what);

/* The fields give exactly these bytes, in room for no more and for one more; in room for one less, 1. */
void written(const Codec *codec, uint64_t members, const uint64_t *fields, const uint8_t *bytes, size_t n,
             const char *what);

/* Of sound fields and their bytes: with one field fewer, and with none, any call answers 1. */
void short_by_one(const Codec *codec, uint64_t members, const uint64_t *sound, const uint8_t *bytes, size_t n);

/* Sound bytes read, written back, and read again: the same bytes and the same fields, which stay in the codec's row. */
void there_and_back(const Codec *codec, uint64_t members, const uint8_t *bytes, size_t n);
#endif
