// Runs the four lent calls from C on document 01's pools P1 to P7 and P10, on calls that are refused, on damaged pools, and on random calls that are undone, and compares
// the number, the list and the position, every cell and every word of the book.
#include <stdio.h>
#include <string.h>

#include "damages.h"

struct list { uint16_t head, tail, share, limit, length; };
struct book { uint16_t lists; struct list list[8]; uint16_t free_head, free_count; };
struct value { struct refusal refusal; uint64_t value; };

enum { WORDS = 43 }; // of the book
_Static_assert(sizeof(struct book) == WORDS * sizeof(uint16_t), "the book has 43 words and no padding");
_Static_assert(offsetof(struct book, list) == 2, "the entries follow the number of lists");
_Static_assert(offsetof(struct book, free_head) == 82, "the free head is the last word but one");
_Static_assert(offsetof(struct book, free_count) == 84, "the free count is the last word");
_Static_assert(offsetof(struct list, head) == 0 && offsetof(struct list, tail) == 2, "head, tail");
_Static_assert(offsetof(struct list, share) == 4 && offsetof(struct list, limit) == 6, "share, limit");
_Static_assert(offsetof(struct list, length) == 8 && sizeof(struct list) == 10, "the length is a list's fifth word and its last");
_Static_assert(sizeof(struct refusal) == 6, "a refusal is three words");
_Static_assert(offsetof(struct refusal, list) == 2 && offsetof(struct refusal, position) == 4, "number, list, position");
_Static_assert(offsetof(struct value, value) == 8, "the value stands after the refusal");

struct refusal flailreeve_lent_push_back(uint16_t *links, size_t links_len, uint64_t *values, size_t values_len, struct book *book, uint16_t list, uint64_t value);
struct refusal flailreeve_lent_push_front(uint16_t *links, size_t links_len, uint64_t *values, size_t values_len, struct book *book, uint16_t list, uint64_t value);
struct value flailreeve_lent_pop_back(uint16_t *links, size_t links_len, uint64_t *values, size_t values_len, struct book *book, uint16_t list);
struct value flailreeve_lent_pop_front(uint16_t *links, size_t links_len, uint64_t *values, size_t values_len, struct book *book, uint16_t list);

enum { N = 6, ROOM = 64 }; // the slots of document 01's pools, and of the largest pool here
enum call { PUSH_BACK, PUSH_FRONT, POP_BACK, POP_FRONT };
static const char *const names[] = { "push back", "push front", "pop back", "pop front" };

// The pool stands between words that no call may touch, and neither may it touch the cells past the slots.
struct memory {
    size_t slots;
    uint16_t before;
    uint16_t links[ROOM];
    uint16_t between;
    uint64_t first;
    uint64_t values[ROOM];
    uint64_t last;
    struct book book;
    uint16_t after;
};

// What a call is to give, and every cell and word that may differ from P1's afterwards.
struct step {
    const char *pool;
    enum call call;
    uint16_t list;
    uint64_t value;
    uint16_t number;
    uint64_t given;
    uint16_t links[N];
    uint64_t values[N];
    uint16_t ends[4];
    uint16_t free_head;
    uint16_t counts[3]; // the lengths of lists 0 and 1, and the free slots
};

static const struct step course[] = {
    { "P2", PUSH_BACK, 0, 20, 0, 0, { 0, 0, 3, 4, 5, 0 }, { 0, 20 }, { 1, 1, 0, 0 }, 2, { 1, 0, 4 } },
    { "P2", PUSH_BACK, 0, 30, 0, 0, { 0, 2, 1, 4, 5, 0 }, { 0, 20, 30 }, { 1, 2, 0, 0 }, 3, { 2, 0, 3 } },
    { "P2", PUSH_FRONT, 0, 10, 0, 0, { 0, 1, 1, 1, 5, 0 }, { 0, 20, 30, 10 }, { 3, 2, 0, 0 }, 4, { 3, 0, 2 } },
    { "P3", PUSH_BACK, 0, 40, 0, 0, { 0, 1, 5, 1, 2, 0 }, { 0, 20, 30, 10, 40 }, { 3, 4, 0, 0 }, 5, { 4, 0, 1 } },
    { "P4", PUSH_BACK, 0, 50, 7, 0, { 0, 1, 5, 1, 2, 0 }, { 0, 20, 30, 10, 40 }, { 3, 4, 0, 0 }, 5, { 4, 0, 1 } },
    { "P4, at the front", PUSH_FRONT, 0, 50, 7, 0, { 0, 1, 5, 1, 2, 0 }, { 0, 20, 30, 10, 40 }, { 3, 4, 0, 0 }, 5, { 4, 0, 1 } },
    { "P5", PUSH_BACK, 1, 60, 0, 0, { 0, 1, 5, 1, 2, 0 }, { 0, 20, 30, 10, 40, 60 }, { 3, 4, 5, 5 }, 0, { 4, 1, 0 } },
    { "P5", PUSH_BACK, 1, 61, 7, 0, { 0, 1, 5, 1, 2, 0 }, { 0, 20, 30, 10, 40, 60 }, { 3, 4, 5, 5 }, 0, { 4, 1, 0 } },
    { "P6", POP_FRONT, 0, 0, 0, 10, { 0, 2, 5, 0, 2, 0 }, { 0, 20, 30, 0, 40, 60 }, { 1, 4, 5, 5 }, 3, { 3, 1, 1 } },
    { "P7", PUSH_BACK, 1, 61, 0, 0, { 0, 2, 5, 5, 2, 3 }, { 0, 20, 30, 61, 40, 60 }, { 1, 4, 5, 3 }, 0, { 3, 2, 0 } },
    { "after P7", POP_BACK, 0, 0, 0, 40, { 0, 2, 1, 5, 0, 3 }, { 0, 20, 30, 61, 0, 60 }, { 1, 2, 5, 3 }, 4, { 2, 2, 1 } },
};

static int calls;

// All slots are free, and there is no list yet.
static struct memory fresh(size_t slots)
{
    struct memory m;
    memset(&m, 0, sizeof m);
    m.slots = slots;
    m.before = m.between = m.after = 0xa5a5;
    m.first = m.last = 0xa5a5a5a5a5a5a5a5u;
    for (uint16_t slot = 1; slot + 1u < slots; slot++)
        m.links[slot] = (uint16_t)(slot + 1);
    m.book.free_head = 1;
    m.book.free_count = (uint16_t)(slots - 1);
    return m;
}

static struct memory p1(void)
{
    struct memory m = fresh(N);
    m.book.lists = 2;
    m.book.list[0] = (struct list){ 0, 0, 2, 5, 0 };
    m.book.list[1] = (struct list){ 0, 0, 1, 3, 0 };
    return m;
}

static struct value run(struct memory *m, size_t values_len, enum call call, uint16_t list, uint64_t value)
{
    struct value out = { { 0xa5a5, 0xa5a5, 0xa5a5 }, 0 };
    calls++;
    switch (call) {
    case PUSH_BACK:
        out.refusal = flailreeve_lent_push_back(m->links, m->slots, m->values, values_len, &m->book, list, value);
        break;
    case PUSH_FRONT:
        out.refusal = flailreeve_lent_push_front(m->links, m->slots, m->values, values_len, &m->book, list, value);
        break;
    case POP_BACK:
        out = flailreeve_lent_pop_back(m->links, m->slots, m->values, values_len, &m->book, list);
        break;
    case POP_FRONT:
        out = flailreeve_lent_pop_front(m->links, m->slots, m->values, values_len, &m->book, list);
        break;
    }
    return out;
}

// How many words differ; each is named.
static int differs(const char *pool, enum call call, const char *what, size_t at, uint64_t is, uint64_t expected)
{
    if (is == expected)
        return 0;
    printf("lent: %s, %s: %s %zu is %llu, not %llu\n", pool, names[call], what, at, (unsigned long long)is, (unsigned long long)expected);
    return 1;
}

static int compare(const char *pool, enum call call, const struct memory *is, const struct memory *expected)
{
    int bad = 0;
    uint16_t words[WORDS], right[WORDS];
    memcpy(words, &is->book, sizeof words);
    memcpy(right, &expected->book, sizeof right);
    for (size_t k = 0; k < WORDS; k++)
        bad += differs(pool, call, "word of the book", k, words[k], right[k]);
    for (size_t k = 0; k < ROOM; k++) {
        bad += differs(pool, call, "link", k, is->links[k], expected->links[k]);
        bad += differs(pool, call, "value", k, is->values[k], expected->values[k]);
    }
    bad += differs(pool, call, "word beside the pool", 0, is->before, expected->before);
    bad += differs(pool, call, "word beside the pool", 1, is->between, expected->between);
    bad += differs(pool, call, "word beside the pool", 2, is->first, expected->first);
    bad += differs(pool, call, "word beside the pool", 3, is->last, expected->last);
    bad += differs(pool, call, "word beside the pool", 4, is->after, expected->after);
    return bad;
}

static int says(const char *pool, enum call call, struct refusal is, struct refusal right)
{
    return differs(pool, call, "number", 0, is.number, right.number) + differs(pool, call, "list", 0, is.list, right.list) +
           differs(pool, call, "position", 0, is.position, right.position);
}

// A number with which no place goes, and the value.
static int answers(const char *pool, enum call call, struct value is, uint16_t number, uint64_t value)
{
    return says(pool, call, is.refusal, (struct refusal){ number, 0, 0 }) + differs(pool, call, "given value", 0, is.value, value);
}

// A call that is refused: value 0, and nothing changes.
static int refused_at(const char *pool, struct memory m, size_t values_len, enum call call, uint16_t list, struct refusal right)
{
    const struct memory was = m;
    const struct value out = run(&m, values_len, call, list, 99);
    return says(pool, call, out.refusal, right) + differs(pool, call, "given value", 0, out.value, 0) + compare(pool, call, &m, &was);
}

static int refused(const char *pool, struct memory m, size_t values_len, enum call call, uint16_t list, uint16_t number)
{
    return refused_at(pool, m, values_len, call, list, (struct refusal){ number, 0, 0 });
}

// Document 01's pools, one after the other. Answers how many words differ, and leaves the memory after the last.
static int in_course(struct memory *m)
{
    int bad = 0;
    *m = p1();
    for (size_t k = 0; k < sizeof course / sizeof course[0]; k++) {
        const struct step *s = &course[k];
        struct memory right = p1();
        memcpy(right.links, s->links, sizeof s->links);
        memcpy(right.values, s->values, sizeof s->values);
        right.book.list[0].head = s->ends[0];
        right.book.list[0].tail = s->ends[1];
        right.book.list[1].head = s->ends[2];
        right.book.list[1].tail = s->ends[3];
        right.book.free_head = s->free_head;
        right.book.list[0].length = s->counts[0];
        right.book.list[1].length = s->counts[1];
        right.book.free_count = s->counts[2];
        bad += answers(s->pool, s->call, run(m, N, s->call, s->list, s->value), s->number, s->given);
        bad += compare(s->pool, s->call, m, &right);
    }
    return bad;
}

static int refusals(struct memory m)
{
    int bad = refused("P10", p1(), N, POP_BACK, 1, 5);
    bad += refused("P10, at the front", p1(), N, POP_FRONT, 1, 5);
    struct memory full = p1();
    full.book.list[0].limit = full.book.list[0].share = 0;
    for (int call = PUSH_BACK; call <= POP_FRONT; call++) {
        bad += refused("lengths differ", m, N - 1, (enum call)call, 0, 1);
        bad += refused("no such list", m, N, (enum call)call, 2, 4);
        if (call <= PUSH_FRONT)
            bad += refused("limit 0", full, N, (enum call)call, 0, 6);
    }
    return bad;
}

// Each damaged pool, by each call, on both lists and on one that there is not.
static int damaged(const struct memory *whole)
{
    int bad = 0;
    for (size_t k = 0; k < sizeof damages / sizeof damages[0]; k++) {
        const struct damage *d = &damages[k];
        struct memory m = *whole;
        for (size_t s = 0; s < STORES; s++) {
            if (d->store[s].cell == LINK)
                m.links[d->store[s].at] = (uint16_t)d->store[s].to;
            if (d->store[s].cell == VALUE)
                m.values[d->store[s].at] = d->store[s].to;
            if (d->store[s].cell == WORD)
                memcpy((char *)&m.book + 2 * d->store[s].at, &(uint16_t){ (uint16_t)d->store[s].to }, 2);
        }
        for (int call = PUSH_BACK; call <= POP_FRONT; call++)
            for (uint16_t list = 0; list < 3; list++)
                bad += refused_at(d->pool, m, N, (enum call)call, list, d->right);
    }
    return bad;
}

// A number below another, or any number where that is 0, from a fixed seed.
static uint64_t dice(uint64_t below)
{
    static uint64_t state = 2;
    uint64_t z = (state += 0x9e3779b97f4a7c15u);
    z = (z ^ (z >> 30)) * 0xbf58476d1ce4e5b9u;
    z = (z ^ (z >> 27)) * 0x94d049bb133111ebu;
    z ^= z >> 31;
    return below == 0 ? z : z % below;
}

// A pool on which random calls are made, and how many elements each of its lists has by the calls that were done.
struct pool {
    struct memory m;
    size_t length[8];
};

static struct pool random_pool(void)
{
    struct pool p = { fresh(2 + dice(dice(2) == 0 ? 7 : ROOM - 1)), { 0 } };
    const size_t most = p.m.slots - 1;
    size_t left = most;
    p.m.book.lists = (uint16_t)(1 + dice(8));
    for (size_t k = 0; k < p.m.book.lists; k++) {
        const size_t share = dice(3) == 0 ? 0 : dice(left + 1);
        p.m.book.list[k].share = (uint16_t)share;
        p.m.book.list[k].limit = (uint16_t)(dice(3) == 0 ? most : share + dice(most - share + 1));
        left -= share;
    }
    return p;
}

static size_t free_slots(const struct pool *p)
{
    size_t many = p->m.slots - 1;
    for (size_t k = 0; k < 8; k++)
        many -= p->length[k];
    return many;
}

// How many slots all lists together lack of their shares.
static size_t lacks(const struct pool *p)
{
    size_t many = 0;
    for (size_t k = 0; k < 8; k++)
        many += p->m.book.list[k].share > p->length[k] ? p->m.book.list[k].share - p->length[k] : 0;
    return many;
}

// How many of the book's counts are not those of the calls that were done.
static int counted(const struct pool *p, enum call call)
{
    int bad = differs("at random", call, "free count", 0, p->m.book.free_count, free_slots(p));
    for (size_t k = 0; k < 8; k++)
        bad += differs("at random", call, "length of list", k, p->m.book.list[k].length, p->length[k]);
    return bad;
}

// The number that a call on a list that there is must give, by document 01.
static uint16_t number_of(const struct pool *p, enum call call, uint16_t list)
{
    const struct list *entry = &p->m.book.list[list];
    if (call >= POP_BACK)
        return p->length[list] == 0 ? 5 : 0;
    if (p->length[list] == entry->limit)
        return 6;
    return p->length[list] >= entry->share && free_slots(p) <= lacks(p) ? 7 : 0;
}

static struct value make(struct pool *p, enum call call, uint16_t list, uint64_t value)
{
    const struct value out = run(&p->m, p->m.slots, call, list, value);
    if (out.refusal.number == 0)
        p->length[list] += call >= POP_BACK ? (size_t)-1 : 1;
    return out;
}

// How many calls were undone, in each of the cases that could go wrong.
enum { PUSHES, LAST_SLOT, POPS, AT_LIMIT, NONE_SPARE, CASES };
static const char *const cases[CASES] = { "push", "push of the last free slot", "pop", "pop at the limit", "pop with no slot to spare" };
static unsigned long times[CASES];

static void count(const struct pool *was, enum call call, uint16_t list)
{
    times[call >= POP_BACK ? POPS : PUSHES]++;
    if (call >= POP_BACK) {
        times[AT_LIMIT] += was->length[list] == was->m.book.list[list].limit;
        times[NONE_SPARE] += free_slots(was) == lacks(was);
    } else {
        times[LAST_SLOT] += free_slots(was) == 1;
    }
}

// A random call, up to `deep` more after it that are undone, and then the call at the same end that undoes it: a pop gives the value that
// was pushed, or a push takes the value that was popped. Every cell and word must be as before. Answers how many are not.
static int undone(struct pool *p, unsigned deep)
{
    const struct pool was = *p;
    const enum call call = (enum call)dice(4);
    const enum call opposite = (enum call)((call + 2) % 4);
    const uint16_t list = (uint16_t)dice(p->m.book.lists);
    const uint64_t value = dice(16) == 0 ? 0 : dice(0);
    const uint16_t number = number_of(p, call, list);
    const struct value given = make(p, call, list, value);
    const uint64_t moved = call >= POP_BACK ? given.value : value;
    int bad = says("to be undone", call, given.refusal, (struct refusal){ number, 0, 0 });
    if (bad == 0 && number == 0) {
        if (deep > 0)
            bad += undone(p, deep - 1);
        bad += answers("undone", opposite, make(p, opposite, list, moved), 0, call >= POP_BACK ? 0 : moved);
        count(&was, call, list);
    }
    return bad + compare(number == 0 ? "undone" : "refused", number == 0 ? opposite : call, &p->m, &was.m);
}

// Random calls, of which some are undone and some stay. It ends at the first pool with a difference.
static int undo_at_random(void)
{
    int bad = 0;
    for (int pools = 0; bad == 0 && pools < 1000; pools++) {
        struct pool p = random_pool();
        for (size_t step = 0; bad == 0 && step < 3 * p.m.slots; step++) {
            const enum call call = (enum call)(dice(4) == 0 ? dice(4) : dice(2) + (step < 2 * p.m.slots ? 0 : 2));
            const uint16_t list = (uint16_t)dice(p.m.book.lists);
            const uint16_t number = number_of(&p, call, list);
            bad += says("at random", call, make(&p, call, list, dice(0)).refusal, (struct refusal){ number, 0, 0 });
            bad += counted(&p, call);
            bad += undone(&p, (unsigned)(dice(2) == 0 ? dice(8) : 0));
        }
    }
    for (int k = 0; bad == 0 && k < CASES; k++)
        if (times[k] == 0) {
            printf("lent: no %s was undone, so nothing is known of it\n", cases[k]);
            return 1;
        }
    return bad;
}

int main(void)
{
    struct memory m;
    int bad = in_course(&m);
    bad += refusals(m);
    const int told = calls;
    bad += damaged(&m);
    const int on_damaged = calls - told;
    bad += undo_at_random();
    if (bad != 0) {
        printf("lent: %d differences in %d calls from C\n", bad, calls);
        return 1;
    }
    printf("lent: %d calls from C over a lent book give document 01's numbers, cells and words\n", told);
    printf("lent: %d calls on %zu damaged pools give document 02's number, list and position\n", on_damaged, sizeof damages / sizeof damages[0]);
    printf("lent: %lu pushes taken back, %lu of the last free slot, and %lu pops put back, %lu at the limit and %lu with no slot to spare, leave every cell and word as before\n",
           times[PUSHES], times[LAST_SLOT], times[POPS], times[AT_LIMIT], times[NONE_SPARE]);
    return 0;
}
