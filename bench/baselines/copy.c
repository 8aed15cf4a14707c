/* copy OUT WORKS CAPTURE: the least that a program with functions does. One thread, nothing kept: each frame is taken from the mapped
   capture, worked on and written, through a buffer of 1 MiB. */
#include "work.h"
#include "capture.h"

int main(int count, char **words) {
    if (count != 4) return 2;
    static uint8_t record[RECORD_HEAD + LONGEST_FRAME];
    struct works works = read_works(words[2]);
    struct nat *nat = new_nat();
    struct mapped capture = map_capture(words[3]);
    FILE *out = fopen(words[1], "wb");
    if (!out) give_up(words[1]);
    setvbuf(out, NULL, _IOFBF, 1 << 20);
    fwrite(emitted_head, 1, CAPTURE_HEAD, out);
    while (capture.at < capture.end) {
        struct record head = record_at(capture.at);
        memcpy(record, &head, RECORD_HEAD);
        memcpy(record + RECORD_HEAD, capture.at + RECORD_HEAD, head.included);
        do_works(&works, nat, record + RECORD_HEAD, head.included);
        fwrite(record, 1, RECORD_HEAD + head.included, out);
        capture.at += RECORD_HEAD + head.included;
    }
    if (ferror(out) | fclose(out)) give_up(words[1]);
    return 0;
}
