/* The steps on shared memory, of which each twin has its own:
 *
 *   load, store                    a control word
 *   load_record                    the header of the record at a place of a ring. Its length is not positive if the
 *                                  record is not settled
 *   leave_run                      what shows the rest of a run, before the head is stored inside the run
 *   store_padding                  what shows padding
 *   open_record                    what shows a claim
 *   commit_record, abort_record    what shows that a claim is settled
 *   write_record                   a whole record
 *   put_body, show_body            the bytes of a message in a ring: in, and out (in place, or a copy)
 *   clear_block                    what a reader has passed
 *   put_copy, get_copy             the bytes of a message in a broadcast buffer
 *   load_copied, store_copied      the header of a record there
 *   before_bodies, before_check    fences of a broadcast buffer
 *
 * A record of a ring has a word and a slot, which is the memory of its header and body. HAS_MARKS says whether the word
 * is a mark, and the slots are a block of their own. Otherwise the word is the header, and the slot is at the same
 * address. HAS_CLAIMS says whether a ring has claims and takes many producers, and HAS_BATCHES whether it publishes
 * several messages at once. */
#ifndef TWINS_STEPS_H
#define TWINS_STEPS_H

#include "layout.h"

#include <stdbool.h>

#if defined TWIN_AR
#define TWIN "ar"
#include "ar.h"
#elif defined TWIN_SC
#define TWIN "sc"
#include "sc.h"
#elif defined TWIN_PB
#define TWIN "pb"
#include "pb.h"
#elif defined TWIN_TA
#define TWIN "ta"
#include "ar.h"
#else
#error "one of TWIN_AR, TWIN_SC, TWIN_PB and TWIN_TA has to be defined"
#endif

#if defined TWIN_TA
#define HAS_CLAIMS 0
#else
#define HAS_CLAIMS 1
#endif
#define HAS_BATCHES (HAS_MARKS || !HAS_CLAIMS)

#endif
