/*
 * Sentences for the refusals of varnwalnut.h. This part is C and not proved: it is a table to read, of which
 * no answer of the library depends. Link with libvarnwalnut_text.a, or compile tools/refusal_text.c.
 */
#ifndef VARNWALNUT_TEXT_H
#define VARNWALNUT_TEXT_H

#include <stdint.h>

#ifdef __cplusplus
extern "C" {
#endif

/* A refusal's sentence, without a full stop. For a number that is none, 0 among them, it says so; the answer
 * is never NULL, and lives as long as the program. */
const char *varnwalnut_refusal_text(uint32_t refusal);

/* A refusal's name as in varnwalnut.h, without VARNWALNUT_; empty for a number that has none. */
const char *varnwalnut_refusal_name(uint32_t refusal);

/* What place 0, 1 or 2 of a refusal is ("block", "road", "tick", ..); empty where it is not used. */
const char *varnwalnut_refusal_place(uint32_t refusal, uint32_t place);

#ifdef __cplusplus
}
#endif

#endif
