/* The driver: linked with one implementation (bench/peer.h), it does one job over one input file.
   It judges no answer: bench/report.py does.

       PROGRAM jobs                    the jobs that it can do, one a line
       PROGRAM JOB FILE out            do it once and write the answers
       PROGRAM JOB FILE NN             do it NN times (two digits) and write nothing, to be counted

   JOB is mend, name, read, rank, sort, units, or tight or tight-units: mend or units with a buffer
   just as long as the answer, so that nothing may be written before it is known to fit (the length
   is found beforehand, in each run alike). FILE is a row of records: length (4 bytes, low first),
   the bytes, one zero byte. A job takes a record each, rank takes two, name takes its code point
   from a record's four bytes, units takes a 16-bit unit from every two bytes, low first. Answers
   are records too, without the zero byte; where mend, units, name or sort refuses, a length of
   FFFFFFFF with nothing after it; read and rank answer four bytes, low first. */
#include <stdio.h>
#include <string.h>
#include "peer.h"

#define MOST 20000
#define ROOM 49152
#define ROOM_FOR_UNITS 16384

static uint8_t file[1 << 20] __attribute__((aligned(64)));
static uint8_t out[ROOM] __attribute__((aligned(64)));
static struct { const uint8_t *at; size_t length, room; } record[MOST];
static size_t records;
/* The same records as units, if the job takes these. */
static uint16_t file_units[1 << 19] __attribute__((aligned(64)));
static uint16_t out_units[ROOM_FOR_UNITS] __attribute__((aligned(64)));
static struct { const uint16_t *at; size_t length, room; } text[MOST];

static uint32_t low_first(const uint8_t *four)
{
    return four[0] | four[1] << 8 | four[2] << 16 | (uint32_t)four[3] << 24;
}

static int load(const char *path)
{
    FILE *from = fopen(path, "rb");
    size_t size, at = 0;
    if (!from) return 0;
    size = fread(file, 1, sizeof file, from);
    fclose(from);
    while (at + 5 <= size && records < MOST) {
        record[records].at = file + at + 4;
        record[records].length = low_first(file + at);
        record[records].room = ROOM;
        at += 5 + record[records++].length;
    }
    return records > 0 && at == size;
}

/* A record need not stand at an even place; its units do. */
static void load_units(void)
{
    uint16_t *to = file_units;
    for (size_t i = 0; i < records; i++) {
        text[i].at = to;
        text[i].length = record[i].length / 2;
        text[i].room = ROOM_FOR_UNITS;
        for (size_t k = 0; k < text[i].length; k++) *to++ = (uint16_t)(record[i].at[2 * k] | record[i].at[2 * k + 1] << 8);
    }
}

#define ALWAYS static inline __attribute__((always_inline))

ALWAYS long mend(size_t i) { return peer.mend(record[i].at, record[i].length, out, record[i].room); }
ALWAYS long name(size_t i) { return peer.name(low_first(record[i].at), out, 64); }
ALWAYS long read(size_t i) { return peer.read(record[i].at, record[i].length); }
ALWAYS long sort(size_t i) { return peer.sort(record[i].at, record[i].length, out, ROOM); }
ALWAYS long rank(size_t i) { return peer.rank(record[i].at, record[i].length, record[i + 1].at, record[i + 1].length); }
ALWAYS long units(size_t i) { return peer.units(text[i].at, text[i].length, out_units, text[i].room); }

/* A pass over the whole file. Each is a loop of its own, with the call in it, so that the driver
   adds little to what is counted. */
ALWAYS void pass(long (*once)(size_t), size_t takes)
{
    static volatile long sink;
    for (size_t i = 0; i + takes <= records; i += takes) sink = once(i);
    (void)sink;
}

static void mend_all(void) { pass(mend, 1); }
static void name_all(void) { pass(name, 1); }
static void read_all(void) { pass(read, 1); }
static void rank_all(void) { pass(rank, 2); }
static void sort_all(void) { pass(sort, 1); }
static void units_all(void) { pass(units, 1); }

/* writes: how many bytes an element has that it writes */
static struct job { const char *name; long (*once)(size_t); void (*all)(void); size_t takes; int writes, able; } jobs[] = {
    { "mend", mend, mend_all, 1, 1, 0 }, { "tight", mend, mend_all, 1, 1, 0 }, { "name", name, name_all, 1, 1, 0 },
    { "read", read, read_all, 1, 0, 0 }, { "rank", rank, rank_all, 2, 0, 0 }, { "sort", sort, sort_all, 1, 1, 0 },
    { "units", units, units_all, 1, 2, 0 }, { "tight-units", units, units_all, 1, 2, 0 },
};
#define JOBS (sizeof jobs / sizeof *jobs)

static void find_able(void)
{
    jobs[0].able = jobs[1].able = peer.mend != 0;
    jobs[2].able = peer.name != 0;
    jobs[3].able = peer.read != 0;
    jobs[4].able = peer.rank != 0;
    jobs[5].able = peer.sort != 0;
    jobs[6].able = jobs[7].able = peer.units != 0;
}

static void put(uint32_t number)
{
    for (int shift = 0; shift < 32; shift += 8) putchar(number >> shift & 255);
}

static void put_units(long count)
{
    for (long k = 0; k < count; k++) {
        putchar(out_units[k] & 255);
        putchar(out_units[k] >> 8);
    }
}

static void answer(const struct job *job)
{
    for (size_t i = 0; i + job->takes <= records; i += job->takes) {
        memset(out, 0xAA, sizeof out);
        memset(out_units, 0xAA, sizeof out_units);
        long value = job->once(i);
        put((uint32_t)(job->writes == 2 && value > 0 ? 2 * value : value));
        if (job->writes == 1 && value > 0) fwrite(out, 1, (size_t)value, stdout);
        if (job->writes == 2) put_units(value);
    }
}

/* Lends each text just the room that its answer takes. */
static void tighten(void)
{
    for (size_t i = 0; i < records; i++) {
        long length = mend(i);
        record[i].room = length < 0 ? 0 : (size_t)length;
    }
}

static void tighten_units(void)
{
    for (size_t i = 0; i < records; i++) {
        long length = units(i);
        text[i].room = length < 0 ? 0 : (size_t)length;
    }
}

int main(int argc, char **argv)
{
    const struct job *job = 0;
    find_able();
    for (size_t j = 0; j < JOBS; j++) {
        if (argc == 2 && jobs[j].able) puts(jobs[j].name);
        if (argc == 4 && jobs[j].able && !strcmp(argv[1], jobs[j].name)) job = &jobs[j];
    }
    if (argc == 2) return 0;
    if (!job || !load(argv[2])) return 2;
    if (peer.start && peer.start()) return 3;
    if (job->writes == 2) load_units();
    if (!strcmp(job->name, "tight")) tighten();
    if (!strcmp(job->name, "tight-units")) tighten_units();
    if (!strcmp(argv[3], "out")) {
        answer(job);
    } else {
        for (int times = (argv[3][0] - '0') * 10 + argv[3][1] - '0'; times > 0; times--) job->all();
    }
    return 0;
}
