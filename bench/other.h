/*
 * What the engine is compared with, one call with the contract of cover_job: the plain C engine of baseline.c or,
 * where FORMER is defined, cover_job of a former library, which bench/common has renamed.
 */
#ifndef OTHER_H
#define OTHER_H

#include <stdbool.h>
#include <stddef.h>
#include <stdint.h>
#include <string.h>

#include "covers.h"

#ifdef FORMER

#define OTHER "former"

uint64_t former_job(const uint8_t *job, size_t job_len, uint8_t *answers, size_t answers_len);
#define other_job former_job

/* Which commands a former library has is not known here; and it counts no nodes. */
static inline bool must_know(uint8_t command) { return (void)command, false; }
static inline void clear_nodes(void) {}
static inline uint64_t counted_nodes(void) { return 0; }

#else

#include "baseline.h"

#define OTHER "plain C"
#define other_job baseline_job

/* The commands of paper 01, of K2, of K3, of K6, of K8, of K10 and of K11. */
static inline bool must_know(uint8_t command) { return command != 0 && strchr("IRTPLCEADBWNFGV", command) != NULL; }
static inline void clear_nodes(void) { baseline_nodes = (BaselineNodes){0, 0}; }
static inline uint64_t counted_nodes(void) { return baseline_nodes.pages + baseline_nodes.cheapest; }

#endif

/* The other engine stopped at a command that it need not know, and the engine did not. A byte that is no command was no
   place to stop at: the other engine has lost its way. */
static inline bool is_newer(const uint8_t *job, uint64_t outcome, uint64_t other)
{
    bool stopped = cover_number(other) == COVER_NO_COMMAND && cover_number(outcome) != COVER_NO_COMMAND;
    uint8_t command = stopped ? job[cover_offset(other)] : 0;
    return cover_command_bytes(command) > 0 && !must_know(command);
}

#endif
