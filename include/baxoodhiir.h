/* HTTP byte ranges, both ends, as functions on numbers and bytes. Link with libbaxoodhiir.a (`tests/archive`), x86-64 Linux.

   Memory. The caller owns all of it. No function allocates, frees or keeps a pointer: what a call gets is read and written only during that call.
   - A byte string is a pointer and a length in bytes. The pointer is never NULL, not even for the length 0; the length is at most 2^63 - 1.
   - A pointer to size_t is never NULL, and aligned.
   - What a function writes (out, runs, buffer and tag where they are not const, and what a pointer to size_t points to) overlaps nothing else that is passed to the same call. What is only read may overlap.
   - A bool is 0 or 1.
   Apart from that a call may be made with any bytes and any numbers. No function stops the program, and each returns.
   Calls on different memory may run at the same time.

   The bytes of out beyond an answer, a request or a saved file, and all of out where a call refuses, stay as they were. */
#ifndef BAXOODHIIR_H
#define BAXOODHIIR_H

#include <stdbool.h>
#include <stddef.h>
#include <stdint.h>

#ifdef __cplusplus
extern "C" {
#endif

/* Refusals of the server end. */
#define BAXOODHIIR_BAD_METHOD 1          /* the method is neither GET nor HEAD */
#define BAXOODHIIR_FILE_TOO_LONG 2       /* the file is over 1,099,511,627,776 bytes */
#define BAXOODHIIR_BAD_TAG 3             /* the file's tag is not empty and not an entity tag, or over 64 bytes */
#define BAXOODHIIR_BAD_TYPE 4            /* the media type is over 127 bytes, has a byte outside 0x20 to 0x7E or a space at an end, or is multipart/byteranges (any case) before any ';', trimmed */
#define BAXOODHIIR_BAD_BOUNDARY 5        /* the boundary is not 1 to 70 letters, digits, '-' or '_' */
#define BAXOODHIIR_BOUNDARY_IN_DATA 6    /* the answer would be a multipart, and CR LF "--" boundary occurs in CR LF followed by some part's data */
#define BAXOODHIIR_ANSWER_TOO_LONG 7     /* the answer is longer than out */
#define BAXOODHIIR_BAD_TIME 9            /* the Last-Modified time that is given, or the reference time, lies outside 1970 to 9999 */

/* Refusals of an answer by the reader. */
#define BAXOODHIIR_BAD_HEAD 11           /* the head of the answer breaks a rule */
#define BAXOODHIIR_BAD_STATUS 12         /* its status is not 200, 206 or 416 */
#define BAXOODHIIR_OTHER_FILE 13         /* a 200 or 206 without the copy's tag, or a length unlike the copy's */
#define BAXOODHIIR_BAD_CONTENT_RANGE 14  /* its Content-Range is wrong */
#define BAXOODHIIR_BAD_MULTIPART 15      /* its multipart structure is broken, or Content-Length ends before the closing mark */
#define BAXOODHIIR_TOO_MANY_RUNS 16      /* storing the byte would make more separate runs than a list holds */
#define BAXOODHIIR_BYTE_DIFFERS 17       /* the byte differs from the held one */

/* Refusals of a request and of a copy. */
#define BAXOODHIIR_COPY_COMPLETE 18      /* a request is wanted and nothing is missing */
#define BAXOODHIIR_BAD_COPY 19           /* the tag is not a strong entity tag or over 64 bytes, the length is over 1,099,511,627,776, the buffer is not of this length, or the list of runs is not of its size or breaks its rule; in loading, the memory for the tag or the list of runs is not of its size */
#define BAXOODHIIR_REQUEST_TOO_LONG 20   /* the request, or the saved file, is longer than out */

/* Refusals of a saved file. */
#define BAXOODHIIR_BAD_MARK 22               /* it does not begin with "HLD" */
#define BAXOODHIIR_UNKNOWN_VERSION 23        /* its version is neither 1 nor 2 */
#define BAXOODHIIR_BAD_SAVED_TAG 24          /* its tag's count is over 64, or its tag is not a strong entity tag */
#define BAXOODHIIR_SAVED_LENGTH_TOO_LONG 25  /* its length is over 1,099,511,627,776 */
#define BAXOODHIIR_TOO_MANY_SAVED_RUNS 26    /* its count of runs is over what its version allows, 128 under version 2 and 32 under version 1 */
#define BAXOODHIIR_BAD_SAVED_RUNS 27         /* a run's last is below its first, or it begins before the run in front of it, in it or directly behind it */
#define BAXOODHIIR_SAVED_RUN_TOO_FAR 28      /* a run's last is not below the length */
#define BAXOODHIIR_SAVED_CUT_SHORT 29        /* it ends too early */
#define BAXOODHIIR_SAVED_TRAILING 30         /* bytes follow its last run */

/* What baxoodhiir_read says besides a refusal. */
#define BAXOODHIIR_MORE 0                /* more bytes of the answer are wanted */
#define BAXOODHIIR_FINISHED 100          /* the whole answer was read */

/* What baxoodhiir_request and baxoodhiir_save say besides a refusal. */
#define BAXOODHIIR_WRITTEN 0             /* the request, or the saved file, is written */

/* What baxoodhiir_load says besides a refusal. */
#define BAXOODHIIR_LOADED 0              /* the copy is that of the saved file */

/* Reasons of a status: the row of the table of statuses that decided. 0: the request was refused. */
#define BAXOODHIIR_REASON_NOT_ANSWERED 0
#define BAXOODHIIR_REASON_HEAD 1           /* 200 without a body: the method is HEAD */
#define BAXOODHIIR_REASON_NONE 2           /* 200: no Range */
#define BAXOODHIIR_REASON_LONG 3           /* 200: the trimmed Range is over 4,096 bytes */
#define BAXOODHIIR_REASON_UNIT 4           /* 200: the unit is not bytes */
#define BAXOODHIIR_REASON_MALFORMED 5      /* 200: Range is no list of ranges */
#define BAXOODHIIR_REASON_MANY 6           /* 200: over 64 ranges */
#define BAXOODHIIR_REASON_CHANGED_FILE 7   /* 200: If-Range matches neither the file's tag nor its strong Last-Modified */
#define BAXOODHIIR_REASON_INVALID 8        /* 416: a range ends before it begins */
#define BAXOODHIIR_REASON_UNSATISFIABLE 9  /* 416: no range has a position of the file */
#define BAXOODHIIR_REASON_EMPTY 10         /* 200: the file is empty */
#define BAXOODHIIR_REASON_PARTIAL 11       /* 206 */

/* The list of runs of a copy: which positions of the file it holds. Exactly BAXOODHIIR_RUNS_SIZE bytes, every number in 8 bytes, the most significant byte first:

     bytes 0 to 7                    the count of runs, at most BAXOODHIIR_MAX_RUNS
     bytes 8 + 16 i to 15 + 16 i     the first position of run i
     bytes 16 + 16 i to 23 + 16 i    its last position, which belongs to it

   Runs ascend; in each, first is at most last; at least one position lies between two neighbours; all lie below the copy's length; the bytes of unused runs are 0.
   A fresh copy's list is all zeros. A copy is complete when its one run is 0 to length - 1, or when its length is 0. */
#define BAXOODHIIR_MAX_RUNS 128
#define BAXOODHIIR_RUNS_SIZE 2056

/* BAXOODHIIR_RUNS_SIZE. */
size_t baxoodhiir_runs_size(void);

/* The saved file of a copy, its tag of t bytes with k runs, has 16 + t + 16 k bytes, at most BAXOODHIIR_MAX_SAVED. Every number has its most significant byte first:

     bytes 0 to 2                          the mark "HLD"
     bytes 3 and 4                         the version, 2
     byte 5                                t, at most BAXOODHIIR_MAX_TAG
     t bytes                               the tag, a strong entity tag with its quotes
     8 bytes                               the length, at most 1,099,511,627,776
     2 bytes                               k, at most BAXOODHIIR_MAX_RUNS
     16 bytes for each run                 its first and its last position, 8 bytes each, by the same rule as in the list of runs

   One copy has one saved file: what is loaded from it is saved as the same bytes again. A file of version 1, laid out alike with at most 32 runs, is read too, and saved as the same bytes with the version 2.
   The data is not in a saved file, nor is an answer that was not read to its end: that one is asked for anew.
   The caller keeps the data in a file of its own. The saved file claims the bytes of the runs, so it must not reach the disk before them, and the data file must not lose a byte that a saved file claims:
   write the data in place, never emptying or shortening the file, and flush it (fsync), and the directory too where the file is new; then write the new saved file under another name, flush it,
   rename it over the old one, and flush the directory. Whatever then breaks off, there is one whole saved file, and the data has what it claims.
   Before another copy uses the same data file, remove the old saved file, or replace it by one of a copy that holds nothing, and flush the directory. */
#define BAXOODHIIR_MAX_TAG 64
#define BAXOODHIIR_MAX_SAVED 2128

/* BAXOODHIIR_MAX_SAVED. */
size_t baxoodhiir_max_saved(void);

/* Writes the whole HTTP/1.1 answer to a request for a file at the front of out. An empty tag or media type means none; range and if_range are looked at only where has_range and has_if_range are true.
   Where has_modified is true, modified is the file's Last-Modified time in seconds since 1970, and strong says whether RFC 7232, section 2.2.2, makes it a strong validator; else neither is looked at.
   reference is the time, in seconds since 1970, by which a date with a two-digit year in If-Range is read: as the latest year that puts it at most 50 years after that time.
   It is judged at every call, whether or not there is a date.
   Returns the status, 200, 206 or 416, with its reason in *reason and the answer's length in *written; or refuses by 1, 2, 3, 4, 5, 9, 6 or 7, in this order, with 0 in both. */
size_t baxoodhiir_answer(
    const uint8_t *method, size_t method_len,
    bool has_range, const uint8_t *range, size_t range_len,
    bool has_if_range, const uint8_t *if_range, size_t if_range_len,
    const uint8_t *file, size_t file_len,
    const uint8_t *tag, size_t tag_len,
    const uint8_t *media, size_t media_len,
    const uint8_t *boundary, size_t boundary_len,
    bool has_modified, int64_t modified, bool strong, int64_t reference,
    uint8_t *out, size_t out_len,
    size_t *reason, size_t *written);

/* Writes the request lines for what the copy (tag, length, runs) lacks at the front of out: a Range line and an If-Range line, each ending in CR LF.
   Returns BAXOODHIIR_WRITTEN with their length in *written; or refuses by 19, 18 or 20, in this order, with 0 in *written. */
size_t baxoodhiir_request(
    const uint8_t *tag, size_t tag_len,
    size_t length,
    const uint8_t *runs, size_t runs_len,
    uint8_t *out, size_t out_len,
    size_t *written);

/* Reads an answer, or the front of one, from its first byte on into the copy (tag, length, runs, buffer). The buffer has exactly length bytes.
   The answer is fed to a fresh reader in pieces of `piece` bytes, or whole where piece is 0; what is returned and written does not depend on it.
   Returns BAXOODHIIR_MORE, BAXOODHIIR_FINISHED, or the refusal: 11 to 17, or 19. *taken is how many bytes of the answer were taken. What was stored before a refusal stays, and runs and buffer say so;
   with 19 nothing is changed, and *taken is 0. */
size_t baxoodhiir_read(
    const uint8_t *tag, size_t tag_len,
    size_t length,
    uint8_t *runs, size_t runs_len,
    uint8_t *buffer, size_t buffer_len,
    const uint8_t *answer, size_t answer_len,
    size_t piece,
    size_t *taken);

/* Writes the saved file of the copy (tag, length, runs) at the front of out. An out of BAXOODHIIR_MAX_SAVED bytes is always long enough.
   Returns BAXOODHIIR_WRITTEN with the saved file's length in *written; or refuses by 19 or 20, in this order, with 0 in *written. */
size_t baxoodhiir_save(
    const uint8_t *tag, size_t tag_len,
    size_t length,
    const uint8_t *runs, size_t runs_len,
    uint8_t *out, size_t out_len,
    size_t *written);

/* Reads a saved file, all of its bytes, into the memory of a copy: tag has exactly BAXOODHIIR_MAX_TAG bytes, runs exactly BAXOODHIIR_RUNS_SIZE, and what both held does not matter.
   Returns BAXOODHIIR_LOADED with the tag at the front of tag and zeros behind it, its length in *tag_len, the copy's length in *length, and its list of runs in runs;
   or refuses by 19, where tag_size or runs_len is another, or by 22 to 30, and then tag, *tag_len, *length and runs stay as they were.
   The file is judged from the front: mark, version, the tag's count, tag, length, the count of runs, then run by run, each once all its bytes are there, 29 where they are not, 27 before 28 of one run; 30 where all else is right.
   The data file is not looked at: whether it has *length bytes is judged by baxoodhiir_read, which gets it as its buffer. */
size_t baxoodhiir_load(
    const uint8_t *file, size_t file_len,
    uint8_t *tag, size_t tag_size, size_t *tag_len,
    size_t *length,
    uint8_t *runs, size_t runs_len);

#ifdef __cplusplus
}
#endif

#endif
