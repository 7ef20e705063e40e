/* Jobs, and ways to do them, whose times costs.c compares. */
#ifndef COSTS_H
#define COSTS_H

#include <stdint.h>

/* A picture becomes pixels. Of a document the names of its elements are told, or nothing. */
enum { PICTURE, DOCUMENT, DOCUMENT_UNTOLD, NOTHING };
enum { PIXELS_MAX = 16 << 20, FILE_MAX = 8 << 20 };

typedef struct Job {
    const char *title, *file;
    uint32_t kind, len;
    const uint8_t *bytes;
} Job;

/* What came of a job: bytes of pixels or elements, and a sum over the pixels or over the lengths of names. All ways have to agree. */
typedef struct Made {
    uint32_t count, sum;
} Made;

/* ---- common.c */

void need(int holds, const char *what); /* else it ends the process */
uint64_t time_by(int clock);            /* in ns */
uint64_t processor_time(void);          /* of this thread, in ns */
void add_name(Made *made, const char *name);
void add_pixels(Made *made, const uint8_t *pixels, uint32_t count);
Job job_of_file(const char *title, const char *file, uint32_t kind);

/* ---- files.c */

void make_files(void); /* photograph.png, screen.png and long.xml, in this folder */

/* ---- native.c: the libraries as this compiler makes them */

typedef void (*OnName)(void *user, const char *name);
uint32_t native_picture(const Job *job, uint8_t *pixels); /* bytes of pixels, at most PIXELS_MAX */
void native_document(const Job *job, OnName on_name, void *user);
uint64_t native_do(const Job *job, uint8_t *pixels, Made *made); /* processor time */

/* ---- process.c: another process, by pipes or by shared memory, and native32 */

typedef struct Server Server;
Server *server_by_pipe(void);
Server *server_by_memory(void);
Server *server_of_program(const char *program);
uint64_t server_do(Server *server, const Job *job, Made *made); /* processor time of both processes */
void server_end(Server *server);

#endif
