/* sq in this process: words and files in, the status and two texts out. `./sq library` makes lib/libsq.a and lib/libsq.so.

   `sq_call` does what the program does with these words, but that each file that the words name is one of `files`, of
   which the first with that name counts. It gives the program's status: 0 done, 1 refused, 2 trapped, 3 the words are
   no command (a word that isn't UTF-8 makes them none), 6 out of memory, 7 a file that the words name isn't among
   `files`. No call gives 4 or 5. With 6 both texts are empty; else they are whole, with 0 the result in `out`, and in
   `err` the trace, where one is wanted, and the line that names a refusal or a trap.

   As much of each text as there is room for goes to its room, and `lengths` gets how long both are, also where a room
   was smaller: then call again with more room. Nothing is kept from one call to the next, what is handed in is only
   read, and calls may run in several threads at the same time. A call needs memory by `malloc`, and 1 MiB of stack, or
   3 MiB where it reads a plan file whose brackets stand 1,024 deep; main threads have 8 MiB, others what they are given.

   The caller owes what no call can check: `at` is never null, not even where `len` is 0; no room is null, nor is
   `lengths`; rooms and `lengths` overlap each other nowhere, and nothing that is handed in; and no call is made from a
   signal handler, or in the child of a fork of a process with threads. */
#ifndef SQ_H
#define SQ_H

#include <stddef.h>
#include <stdint.h>

#ifdef __cplusplus
extern "C" {
#endif

struct sq_bytes {
    const uint8_t *at;
    size_t len;
};

struct sq_file {
    struct sq_bytes name, bytes;
};

struct sq_lengths {
    size_t out, err;
};

uint32_t sq_call(const struct sq_bytes *words, size_t word_count, const struct sq_file *files, size_t file_count,
                 uint8_t *out, size_t out_room, uint8_t *err, size_t err_room, struct sq_lengths *lengths);

#ifdef __cplusplus
}
#endif

#endif
