/* libshex: what the programs `shex` and `shextool` do, over files in memory.
 *
 * A call is given words, as the program is, and files by their names, and gives the program's status, what it prints, what it says on
 * its error stream, and what one of the files holds at the end, as a proof that was to be stored. It reads and writes no file of the
 * machine. The words and the statuses are those of docs/USAGE.md.
 *
 * Lengths, rooms and counts are in bytes. A text ends by its length alone, and what stands behind it is not read. No pointer is null:
 * where there is nothing it may point at any byte. What is given has to stay as it is until the call returns; nothing is kept of it
 * then. No place of a reply may overlap another, nor what is given.
 *
 * The caller owns all memory that it names. A call takes memory from malloc and realloc, and gives all of it back by free before it
 * returns. It holds no state between calls, so threads may call at once, each with a reply of its own. A call is not made in a signal
 * handler, nor in the forked child of a process with threads. No input was seen to want more than 2 MiB of stack.
 *
 * A program that is linked against libshex.so finds it where the loader looks, as in a folder that LD_LIBRARY_PATH names; libshex.a is
 * linked in whole.
 */
#ifndef SHEX_H
#define SHEX_H

#include <stddef.h>
#include <stdint.h>

#ifdef __cplusplus
extern "C" {
#endif

/* A text, in UTF-8. */
typedef struct shex_text {
    const uint8_t *bytes;
    size_t length;
} shex_text;

/* A file by its name. */
typedef struct shex_file {
    shex_text name;
    const uint8_t *bytes;
    size_t length;
} shex_file;

/* What is asked: the words of a call, without the program's name; the files that there are; and the name of the file that is handed
 * back. Where nothing is to be handed back the name is empty, and no file has it. */
typedef struct shex_request {
    const shex_text *words;
    size_t word_count;
    const shex_file *files;
    size_t file_count;
    shex_text wanted;
} shex_request;

/* A place for bytes. Its room is set by the caller, and the count by a call: how many bytes there are for it. Where they are more than
 * its room, the place stays as it was, and a call with more room gives them. The status does not depend on the rooms: after each call
 * the caller compares each count with its room. */
typedef struct shex_place {
    uint8_t *bytes;
    size_t room;
    size_t count;
} shex_place;

/* What is handed back: what is printed, what is said on the error stream, and what the wanted file holds (nothing where there is none). */
typedef struct shex_reply {
    shex_place output;
    shex_place errors;
    shex_place file;
} shex_reply;

/* The status of a call. From SHEX_MEMORY on every count is 0, and each place is as it was. The programs end with 7 where they cannot
 * print; a call prints into memory, so 7 is none of its statuses. */
enum shex_status {
    SHEX_ANSWERED = 0,      /* each answer is as it is wanted, the proof is accepted, or the words of shextool are answered */
    SHEX_NOT_AS_WANTED = 1, /* some answer is not as it is wanted */
    SHEX_WORDS = 2,         /* the words are no command's */
    SHEX_REFUSED = 3,       /* a file is refused */
    SHEX_TOO_WIDE = 4,      /* something is not answered, since it depends on a pair that is too wide */
    SHEX_NO_FILE = 5,       /* a file that is to be read is not given */
    SHEX_PROOF = 6,         /* the proof is rejected */
    SHEX_MEMORY = 8,        /* memory ran out */
    SHEX_NOT_UTF8 = 9,      /* a word, or the name of a file, is not UTF-8 */
    SHEX_TWICE = 10         /* two files have one name */
};

/* Does what `shex` does with these words, and gives its status. */
uint8_t shex_call(const shex_request *request, shex_reply *reply);

/* Does what `shextool` does with these words, and gives its status. */
uint8_t shextool_call(const shex_request *request, shex_reply *reply);

#ifdef __cplusplus
}
#endif

#endif
