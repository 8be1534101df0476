/* The step in one of its two forms: straightforward, or compiled with TUNED, tuned. */
#ifndef STEP_H
#define STEP_H

#ifdef TUNED
#include "tuned_step.h"
#else
#include "plain_step.h"
#endif

#endif
