/* rings OUT WORKS CAPTURE: threads over rings, as OpenNetVM has them, and nothing kept. The main thread takes frames from the mapped
   capture into a pool of buffers, one thread for each work handles them, and one writes them and gives the buffers back. Between them
   are rings of 128 cells with one writer and one reader; whoever finds one empty or full spins, and yields from the 64th time on. */
#define _GNU_SOURCE
#include <pthread.h>
#include <sched.h>
#include <stdatomic.h>
#include "work.h"
#include "capture.h"

#define BUFFERS 1024
#define BUFFER 2064
#define CELLS 128
#define BURST 32

struct ring {
    _Alignas(64) _Atomic uint32_t head;
    uint32_t seen_tail;
    _Alignas(64) _Atomic uint32_t tail;
    uint32_t seen_head;
    _Alignas(64) uint32_t size;
    uint16_t cells[BUFFERS];
};

static struct ring rings[MOST_WORKS + 1], unused;
static uint8_t (*pool)[BUFFER];
static struct works works;
static const char *out_name;
static _Atomic uint64_t frame_count = UINT64_MAX;

static uint32_t push(struct ring *ring, const uint16_t *from, uint32_t count) {
    uint32_t head = atomic_load_explicit(&ring->head, memory_order_relaxed);
    if (ring->size - (head - ring->seen_tail) < count)
        ring->seen_tail = atomic_load_explicit(&ring->tail, memory_order_acquire);
    uint32_t room = ring->size - (head - ring->seen_tail);
    if (count > room) count = room;
    for (uint32_t i = 0; i < count; i++) ring->cells[(head + i) & (ring->size - 1)] = from[i];
    atomic_store_explicit(&ring->head, head + count, memory_order_release);
    return count;
}

static uint32_t pop(struct ring *ring, uint16_t *to, uint32_t count) {
    uint32_t tail = atomic_load_explicit(&ring->tail, memory_order_relaxed);
    if (ring->seen_head - tail < count)
        ring->seen_head = atomic_load_explicit(&ring->head, memory_order_acquire);
    uint32_t there = ring->seen_head - tail;
    if (count > there) count = there;
    for (uint32_t i = 0; i < count; i++) to[i] = ring->cells[(tail + i) & (ring->size - 1)];
    atomic_store_explicit(&ring->tail, tail + count, memory_order_release);
    return count;
}

static void idle(uint32_t *turns) {
    if (++*turns < 64) __builtin_ia32_pause();
    else sched_yield();
}

static void push_all(struct ring *ring, const uint16_t *from, uint32_t count) {
    uint32_t turns = 0;
    for (uint32_t done = 0, put; done < count; done += put)
        if (!(put = push(ring, from + done, count - done))) idle(&turns);
}

/* Pops a burst, or answers 0 once this thread has handled every frame. */
static uint32_t next_burst(struct ring *ring, uint16_t *burst, uint64_t handled) {
    uint32_t turns = 0, got;
    while (!(got = pop(ring, burst, BURST))) {
        if (handled == atomic_load_explicit(&frame_count, memory_order_acquire)) return 0;
        idle(&turns);
    }
    return got;
}

static uint32_t length_of(const uint8_t *buffer) {
    struct record head;
    memcpy(&head, buffer, sizeof head);
    return head.included;
}

static void *function(void *given) {
    size_t number = (size_t)given;
    struct nat *nat = new_nat();
    uint16_t burst[BURST];
    uint64_t handled = 0;
    for (uint32_t got; (got = next_burst(&rings[number], burst, handled)); handled += got) {
        for (uint32_t i = 0; i < got; i++) {
            uint8_t *buffer = pool[burst[i]];
            do_work(works.list[number], nat, buffer + RECORD_HEAD, length_of(buffer));
        }
        push_all(&rings[number + 1], burst, got);
    }
    return NULL;
}

static void *transmit(void *given) {
    (void)given;
    FILE *out = fopen(out_name, "wb");
    uint16_t burst[BURST];
    uint64_t handled = 0;
    if (!out) give_up(out_name);
    setvbuf(out, NULL, _IOFBF, 1 << 20);
    fwrite(emitted_head, 1, CAPTURE_HEAD, out);
    for (uint32_t got; (got = next_burst(&rings[works.count], burst, handled)); handled += got) {
        for (uint32_t i = 0; i < got; i++) {
            uint8_t *buffer = pool[burst[i]];
            fwrite(buffer, 1, RECORD_HEAD + length_of(buffer), out);
        }
        push_all(&unused, burst, got);
    }
    if (ferror(out) | fclose(out)) give_up(out_name);
    return NULL;
}

static void receive(struct mapped capture) {
    uint16_t burst[BURST];
    uint64_t count = 0;
    while (capture.at < capture.end) {
        uint32_t turns = 0, got, used = 0;
        while (!(got = pop(&unused, burst, BURST))) idle(&turns);
        for (; used < got && capture.at < capture.end; used++) {
            struct record head = record_at(capture.at);
            uint8_t *buffer = pool[burst[used]];
            if (head.included > BUFFER - RECORD_HEAD) give_up("a frame is too long");
            memcpy(buffer, &head, RECORD_HEAD);
            memcpy(buffer + RECORD_HEAD, capture.at + RECORD_HEAD, head.included);
            capture.at += RECORD_HEAD + head.included;
        }
        push_all(&rings[0], burst, used);
        count += used;
    }
    atomic_store_explicit(&frame_count, count, memory_order_release);
}

int main(int count, char **words) {
    if (count != 4) return 2;
    pthread_t threads[MOST_WORKS + 1];
    out_name = words[1];
    works = read_works(words[2]);
    struct mapped capture = map_capture(words[3]);
    pool = calloc(BUFFERS, BUFFER);
    if (!pool) give_up("calloc");
    for (int i = 0; i <= works.count; i++) rings[i].size = CELLS;
    unused.size = BUFFERS;
    for (uint16_t i = 0; i < BUFFERS; i++) push(&unused, &i, 1);
    for (int i = 0; i <= works.count; i++)
        if (pthread_create(&threads[i], NULL, i < works.count ? function : transmit, (void *)(size_t)i))
            give_up("pthread_create");
    receive(capture);
    for (int i = 0; i <= works.count; i++) pthread_join(threads[i], NULL);
    return 0;
}
