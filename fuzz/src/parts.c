/* The ends of the counters, and of the table of their addresses, of each part of the harness: the
 * linker's own names. They are asked for here, in C, since rustc inserts those of the Rust code
 * itself, and would not have them declared twice. */
#include <stddef.h>
#include <stdint.h>

#define ENDS(name)                                                       \
    extern const uint8_t __start_##name##_cntrs[], __stop_##name##_cntrs[]; \
    extern const uintptr_t __start_##name##_pcs[][2];

ENDS(__sancov)
ENDS(library)
ENDS(program)

/* Laid out as `Ends` in coverage.rs. */
const struct {
    const uint8_t *start;
    const uint8_t *stop;
    const uintptr_t (*addresses)[2];
} fuzz_parts[3] = {
    {__start___sancov_cntrs, __stop___sancov_cntrs, __start___sancov_pcs},
    {__start_library_cntrs, __stop_library_cntrs, __start_library_pcs},
    {__start_program_cntrs, __stop_program_cntrs, __start_program_pcs},
};
