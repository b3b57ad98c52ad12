/* plain_cache arc|car C TIMES FILE: replays a trace that often from a fresh cache and prints the counts of the last replay and the nanoseconds an operation took, the
 * least over the replays: operations, gets, get hits, updates, new pages, evictions, steps, removals that found their page.
 * A plain C cache by the rules, which the batch is held against: entries linked into their list and into their bucket, no tricks. */
#include <stdint.h>
#include <stdio.h>
#include <stdlib.h>
#include <string.h>
#include <time.h>

enum list { T1, T2, B1, B2, LISTS };
enum { MOST = 1024, ENTRIES = 3 * MOST + 1 };

struct entry {
    struct entry *next, *prev; /* in its list */
    struct entry *chain;       /* in its bucket, or the free entries */
    uint64_t page;
    uint32_t frame;
    uint8_t in, bit;
};

struct cache {
    int car;
    size_t c, target, length[LISTS], mask;
    struct entry head[LISTS]; /* newest first; a clock from its hand */
    struct entry *bucket[4 * MOST], *free;
    struct entry entries[ENTRIES];
};

struct counts {
    uint64_t gets, hits, updates, news, evictions, steps, removals;
};

static void clear(struct cache *k)
{
    for (int i = 0; i < LISTS; i++) {
        k->head[i].next = k->head[i].prev = &k->head[i];
        k->length[i] = 0;
    }
    memset(k->bucket, 0, (k->mask + 1) * sizeof *k->bucket);
    k->free = NULL;
    for (size_t i = 3 * k->c + 1; i-- > 0;) {
        k->entries[i].chain = k->free;
        k->free = &k->entries[i];
    }
    k->target = k->c / 2;
}

static struct entry **bucket(struct cache *k, uint64_t page)
{
    return &k->bucket[(page * 0x9E3779B97F4A7C15u >> 40) & k->mask];
}

static struct entry *find(struct cache *k, uint64_t page)
{
    struct entry *e = *bucket(k, page);
    while (e != NULL && e->page != page)
        e = e->chain;
    return e;
}

static void leave(struct cache *k, struct entry *e)
{
    e->prev->next = e->next;
    e->next->prev = e->prev;
    k->length[e->in]--;
}

/* e comes before f, an entry of that list or its head */
static void enter(struct cache *k, enum list in, struct entry *f, struct entry *e)
{
    e->in = (uint8_t)in;
    e->next = f;
    e->prev = f->prev;
    f->prev->next = e;
    f->prev = e;
    k->length[in]++;
}

static void to_front(struct cache *k, enum list in, struct entry *e) { enter(k, in, k->head[in].next, e); }
static void to_end(struct cache *k, enum list in, struct entry *e) { enter(k, in, &k->head[in], e); }

/* the entry leaves its list and the table */
static void drop(struct cache *k, struct entry *e)
{
    struct entry **at = bucket(k, e->page);
    leave(k, e);
    while (*at != e)
        at = &(*at)->chain;
    *at = e->chain;
    e->chain = k->free;
    k->free = e;
}

/* a resident becomes a ghost; the list's oldest is dropped where it held c */
static void record(struct cache *k, struct entry *e, enum list ghosts)
{
    leave(k, e);
    if (k->length[ghosts] == k->c)
        drop(k, k->head[ghosts].prev);
    to_front(k, ghosts, e);
}

static int from_first(const struct cache *k, int b2_hit)
{
    size_t t1 = k->length[T1];
    return (t1 > 0 && (t1 > k->target || (t1 == k->target && b2_hit))) || k->length[T2] == 0;
}

static void replace(struct cache *k, int b2_hit, struct counts *n)
{
    for (;;) {
        enum list in = from_first(k, b2_hit) ? T1 : T2;
        struct entry *e = k->car ? k->head[in].next : k->head[in].prev;
        n->steps++;
        if (!k->car || e->bit == 0) {
            record(k, e, in == T1 ? B1 : B2);
            n->evictions++;
            return;
        }
        e->bit = 0;
        leave(k, e);
        to_end(k, T2, e);
    }
}

static void insert(struct cache *k, uint64_t page, uint32_t frame, struct counts *n)
{
    struct entry *e;
    enum list in = T1;
    int b2_hit = 0;
    if (k->c == 0)
        return;
    e = find(k, page);
    if (e != NULL && e->in <= T2) {
        n->updates++;
        e->frame = frame;
        if (k->car) {
            e->bit = 1;
        } else {
            leave(k, e);
            to_front(k, T2, e);
        }
        return;
    }
    n->news++;
    if (e != NULL) {
        b2_hit = e->in == B2;
        if (b2_hit && k->target > 0)
            k->target--;
        if (!b2_hit && k->target < k->c)
            k->target++;
        leave(k, e);
        in = T2;
    } else if (!k->car) {
        if (k->length[T1] + k->length[B1] >= k->c) {
            if (k->length[B1] > 0)
                drop(k, k->head[B1].prev);
        } else if (k->length[T1] + k->length[T2] + k->length[B1] + k->length[B2] >= 2 * k->c && k->length[B2] > 0) {
            drop(k, k->head[B2].prev);
        }
    }
    if (k->length[T1] + k->length[T2] >= k->c)
        replace(k, b2_hit, n);
    if (e == NULL) {
        struct entry **at = bucket(k, page);
        e = k->free;
        k->free = e->chain;
        e->page = page;
        e->chain = *at;
        *at = e;
    }
    e->frame = frame;
    e->bit = 0;
    if (k->car)
        to_end(k, in, e);
    else
        to_front(k, in, e);
}

/* the number at *p, which is at most `most` bytes long; none reads as refused */
static int number(const uint8_t **p, const uint8_t *end, int most, uint8_t limit, uint64_t *value)
{
    uint64_t v = 0;
    for (int i = 0; i < most && *p < end; i++) {
        uint8_t b = *(*p)++;
        if (i == most - 1 && b > limit)
            return 0;
        v |= (uint64_t)(b & 0x7f) << (7 * i);
        if (b < 0x80) {
            *value = v;
            return !(b == 0 && i > 0);
        }
    }
    return 0;
}

static uint64_t replay(struct cache *k, const uint8_t *p, const uint8_t *end, struct counts *n, uint64_t *seen)
{
    uint64_t done = 0, page = 0, frame = 0;
    for (; p < end; done++) {
        uint8_t code = *p++;
        struct entry *e;
        if (code < 1 || code > 5 || (code != 4 && !number(&p, end, 10, 1, &page)) || (code == 2 && !number(&p, end, 5, 15, &frame)))
            return done;
        switch (code) {
        case 1:
            n->gets++;
            e = find(k, page);
            if (e != NULL && e->in <= T2) {
                n->hits++;
                *seen += e->frame;
                if (k->car) {
                    e->bit = 1;
                } else {
                    leave(k, e);
                    to_front(k, T2, e);
                }
            }
            break;
        case 2:
            insert(k, page, (uint32_t)frame, n);
            break;
        case 3:
            e = find(k, page);
            if (e != NULL && e->in <= T2) {
                n->removals++;
                drop(k, e);
            }
            break;
        case 4:
            clear(k);
            break;
        default:
            e = find(k, page);
            if (e != NULL && e->in <= T2)
                *seen += e->frame;
        }
    }
    return done;
}

static double now(void)
{
    struct timespec t;
    clock_gettime(CLOCK_PROCESS_CPUTIME_ID, &t);
    return 1e9 * (double)t.tv_sec + (double)t.tv_nsec;
}

int main(int argc, char **argv)
{
    static struct cache k;
    struct counts n = {0};
    FILE *in = argc == 5 ? fopen(argv[4], "rb") : NULL;
    long size;
    uint8_t *bytes;
    uint64_t done = 0, seen = 0;
    double least = 1e18;
    if (in == NULL || fseek(in, 0, SEEK_END) != 0 || (size = ftell(in)) < 0 || (bytes = malloc((size_t)size + 1)) == NULL) {
        fputs("usage: plain_cache arc|car C TIMES FILE\n", stderr);
        return 2;
    }
    rewind(in);
    size = (long)fread(bytes, 1, (size_t)size, in);
    fclose(in);
    k.car = strcmp(argv[1], "car") == 0;
    k.c = (size_t)atoi(argv[2]);
    if (k.c > MOST)
        return 2;
    for (k.mask = 1; k.mask < 3 * k.c; k.mask = 2 * k.mask + 1)
        ;
    for (int i = 0; i < atoi(argv[3]); i++) {
        double began = now();
        memset(&n, 0, sizeof n);
        clear(&k);
        done = replay(&k, bytes, bytes + size, &n, &seen);
        if (now() - began < least)
            least = now() - began;
    }
    printf("%llu %llu %llu %llu %llu %llu %llu %llu  %.2f ns\n", (unsigned long long)done, (unsigned long long)n.gets, (unsigned long long)n.hits, (unsigned long long)n.updates,
        (unsigned long long)n.news, (unsigned long long)n.evictions, (unsigned long long)n.steps, (unsigned long long)n.removals, least / (double)(done ? done : 1));
    free(bytes);
    return seen == 12345;
}
