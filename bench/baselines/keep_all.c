/* keep_all OUT WORKS CAPTURE..: a C program in onvm's shape. It reads pieces of 64 KiB, takes memory for each frame by itself, works on
   it, keeps all frames of all captures, and only then writes them, through a buffer of 64 KiB. It doesn't free what it kept. */
#include "work.h"
#include "capture.h"

#define PIECE 65536

struct kept {
    struct record head;
    uint8_t *bytes;
};

static struct kept *frames;
static size_t frame_count, frame_room;

static void keep(struct record head, const uint8_t *bytes, const struct works *works, struct nat *nat) {
    if (frame_count == frame_room) {
        frame_room = frame_room ? 2 * frame_room : 4;
        frames = realloc(frames, frame_room * sizeof *frames);
        if (!frames) give_up("realloc");
    }
    struct kept *frame = &frames[frame_count++];
    frame->head = head;
    frame->bytes = malloc(head.included);
    if (!frame->bytes) give_up("malloc");
    memcpy(frame->bytes, bytes, head.included);
    do_works(works, nat, frame->bytes, head.included);
}

static void read_capture(const char *name, const struct works *works, struct nat *nat) {
    static uint8_t piece[PIECE], rest[PIECE + RECORD_HEAD + LONGEST_FRAME];
    int file = open(name, O_RDONLY), begun = 0;
    size_t have = 0;
    ssize_t got = 1;
    if (file < 0) give_up(name);
    while ((got = read(file, piece, PIECE)) > 0) {
        memcpy(rest + have, piece, (size_t)got);
        have += (size_t)got;
        size_t at = begun ? 0 : CAPTURE_HEAD;
        begun = 1;
        while (have - at >= RECORD_HEAD) {
            struct record head = record_at(rest + at);
            if (have - at - RECORD_HEAD < head.included) break;
            keep(head, rest + at + RECORD_HEAD, works, nat);
            at += RECORD_HEAD + head.included;
        }
        memmove(rest, rest + at, have - at);
        have -= at;
    }
    if (got < 0) give_up(name);
    close(file);
}

static void write_all(int file, const uint8_t *bytes, size_t count) {
    while (count) {
        ssize_t put = write(file, bytes, count);
        if (put < 0) give_up("write");
        bytes += put;
        count -= (size_t)put;
    }
}

static void emit(const char *name) {
    static uint8_t buffer[PIECE];
    int file = open(name, O_WRONLY | O_CREAT | O_TRUNC, 0644);
    size_t filled = CAPTURE_HEAD;
    if (file < 0) give_up(name);
    memcpy(buffer, emitted_head, CAPTURE_HEAD);
    for (size_t i = 0; i < frame_count; i++) {
        const struct kept *frame = &frames[i];
        if (filled + RECORD_HEAD + frame->head.included > PIECE) {
            write_all(file, buffer, filled);
            filled = 0;
        }
        memcpy(buffer + filled, &frame->head, RECORD_HEAD);
        memcpy(buffer + filled + RECORD_HEAD, frame->bytes, frame->head.included);
        filled += RECORD_HEAD + frame->head.included;
    }
    write_all(file, buffer, filled);
    if (close(file)) give_up(name);
}

int main(int count, char **words) {
    if (count < 4) return 2;
    struct works works = read_works(words[2]);
    struct nat *nat = new_nat();
    for (int i = 3; i < count; i++) read_capture(words[i], &works, nat);
    emit(words[1]);
    return 0;
}
