/* The hub library for C. Link with crates/hub_c/out/libhub_c.a, which `rt lib` in crates/hub_c builds. */
#ifndef MELLFRYD_H
#define MELLFRYD_H

#include <stddef.h>
#include <stdint.h>

/* Replays a journal with the register that it names, and writes the report of its hub, or the fault print where the
 * replay stops, to the start of out. Returns the length of that text; where it exceeds out_len, nothing was written.
 * Bytes of out after the text stay as they were. A text that begins with "fault=" is a fault print. No text is longer
 * than 2048 bytes. Both pointers must be valid, also where a length is 0, and journal and out must not overlap. */
size_t mellfryd_show(const uint8_t *journal, size_t journal_len, uint8_t *out, size_t out_len);

#endif
