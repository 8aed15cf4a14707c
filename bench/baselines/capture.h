/* Captures of the race's C programs: low byte first, as these machines have it. */
#include <fcntl.h>
#include <stdint.h>
#include <string.h>
#include <sys/mman.h>
#include <sys/stat.h>
#include <unistd.h>

#define CAPTURE_HEAD 24
#define RECORD_HEAD 16
#define LONGEST_FRAME 262144
/* How a capture of microseconds begins; the race reads no other. */
#define MICROSECONDS 0xa1b2c3d4u

struct record {
    uint32_t seconds, fraction, included, original;
};

static const uint8_t emitted_head[CAPTURE_HEAD] = {0x4d, 0x3c, 0xb2, 0xa1, 2, 0, 4, 0, 0, 0, 0, 0,
                                                   0, 0, 0, 0, 0, 0, 4, 0, 1, 0, 0, 0};

/* The head of the record at this place, its fraction in nanoseconds. */
static inline struct record record_at(const uint8_t *place) {
    struct record record;
    memcpy(&record, place, sizeof record);
    record.fraction *= 1000;
    return record;
}

/* A capture that lies in memory whole. */
struct mapped {
    const uint8_t *at, *end;
};

static inline struct mapped map_capture(const char *name) {
    struct stat about;
    int file = open(name, O_RDONLY);
    if (file < 0 || fstat(file, &about) || about.st_size < CAPTURE_HEAD) give_up(name);
    const uint8_t *bytes = mmap(NULL, (size_t)about.st_size, PROT_READ, MAP_PRIVATE | MAP_POPULATE, file, 0);
    if (bytes == MAP_FAILED) give_up(name);
    uint32_t magic;
    memcpy(&magic, bytes, sizeof magic);
    if (magic != MICROSECONDS) give_up("not a capture of microseconds");
    struct mapped mapped = {bytes + CAPTURE_HEAD, bytes + about.st_size};
    return mapped;
}
