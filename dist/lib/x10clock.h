/* x10clock in a process: jobs on bytes in memory. The library opens no file, starts no thread, keeps nothing between
   calls and prints nothing; each function may be called by several threads at once. docs/EMBEDDING.md has more. */
#ifndef X10CLOCK_H
#define X10CLOCK_H
#include <stddef.h>
#include <stdint.h>
#ifdef __cplusplus
extern "C" {
#endif

/* How long the texts are that a call gives, whatever room there was for them. */
struct x10clock_lengths {
    size_t out;
    size_t err;
    size_t log;
};

/* Does what the words ask for, as the program x10clock does, and gives its status: never 5, and 4 where memory ran out;
   then nothing is written, and all lengths are 0.
     words         UTF-8, each word ended by a zero byte, without the program's name: "run\0--order\0last\0mine.x10\0".
                   FILE is only a name, and so is what stands behind --log or --expect: no file is opened. A run by
                   workers is the run in the order first.
     program       what FILE holds.
     input         what is read beside it: a log, a list of outcomes, or the answers of --order ask.
     out, err, log room for standard output, standard error and the log that is written. As much as there is room for is
                   written, and lengths tell how long each is. Where one is longer than its room, call again with more:
                   the answer is the same.
   No pointer may be null, also where a length is 0, and what is written to overlaps nothing else. */
uint8_t x10clock_call(const uint8_t *words, size_t words_length, const uint8_t *program, size_t program_length,
                      const uint8_t *input, size_t input_length, uint8_t *out, size_t out_length, uint8_t *err,
                      size_t err_length, uint8_t *log, size_t log_length, struct x10clock_lengths *lengths);

/* What is known of a source text. Of one that is accepted: the most steps of a run, and the most activities and clocks.
   Of one that isn't: the family of the rule that it breaks (1 for F1 to F15, on source texts, 2 for V1 to V17, the
   verifier's; 0 where it is accepted), the rule's number, and where: an offset in bytes for the first, unit and
   instruction for V1 to V13. What isn't known is 0. */
struct x10clock_checked {
    uint64_t steps;
    size_t at;
    uint32_t activities;
    uint32_t clocks;
    uint32_t family;
    uint32_t number;
    uint32_t unit;
};

/* Whether a source text is accepted: 0 where it is, 1 where it isn't, 4 where memory ran out. */
uint8_t x10clock_check(const uint8_t *program, size_t program_length, struct x10clock_checked *told);

/* The same, with the line and the column of what breaks the rule, as `explain` shows it: both are counted from 1, and 0
   where there is no such place (F4, F9, V14 to V17). */
struct x10clock_diagnosis {
    uint64_t steps;
    size_t at;
    size_t line;
    size_t column;
    uint32_t activities;
    uint32_t clocks;
    uint32_t family;
    uint32_t number;
    uint32_t unit;
};

/* As x10clock_check, in somewhat more time. */
uint8_t x10clock_diagnose(const uint8_t *program, size_t program_length, struct x10clock_diagnosis *told);

#ifdef __cplusplus
}
#endif
#endif
