/* The reference engine: the calls of include/tessla.h under names of their own, over the same state bytes. */
#ifndef REFERENCE_ENGINE_H
#define REFERENCE_ENGINE_H

#define tessla_load ref_load
#define tessla_offer_reading ref_offer_reading
#define tessla_offer_progress ref_offer_progress
#define tessla_move ref_move
#define tessla_run ref_run
#define tessla_collect ref_collect
#define tessla_plan_text ref_plan_text
#define tessla_missing ref_missing
#define tessla_widen ref_widen
#define tessla_register_write ref_register_write
#define tessla_register_line ref_register_line
#include "../../include/tessla.h"

#endif
