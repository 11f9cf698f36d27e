/* What the files of plain C share. */
#ifndef PLAIN_H
#define PLAIN_H

#include "mus.h"

#define REFUSE(result, number, at) do { (result).refusal = (number); (result).place = (at); return (result); } while (0)

/* How large an error is, whatever its sign: 2^63 for the least. */
static inline uint64_t size_of(int64_t error)
{
    return error < 0 ? 0 - (uint64_t) error : (uint64_t) error;
}

#endif
