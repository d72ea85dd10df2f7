/* The judge of request 2026-04, for tests only: whether an image is sound, and where not, its first fault in the
 * file's order. It was written from documents 01 and 02 and their settled readings, without looking at the library, in
 * the plainest way: each byte that is laid out is looked at in its turn, and each slot is compared with every earlier
 * one of its track. */
#ifndef JUDGE_H
#define JUDGE_H

#include "model.h"

enum fault_kind {
    NO_FAULT, HEADER_FAULT, LENGTH_FAULT, TRACK_FAULT, PLACE_FAULT, MARK_FAULT, TWICE_FAULT, END_FAULT, FAULT_KINDS
};

#define FAULT_KIND(word) ((uint32_t)((word)&0xFFFFFFFFu))
#define FAULT_AT(word) ((uint32_t)((word) >> 32))

/* The library's word: the kind below, its byte offset in bits 32 up. An image of no bytes may have no place. */
uint64_t model_judge(struct image image);

#endif
