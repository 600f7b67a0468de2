// The memory models of docs/MODELS.md in C, for comparison, by hand on rows of 64 bits: row a of a relation is the set of the
// events that a is related to, and only the rows of events that there are get touched. A line for each measurement: name,
// number of the model, events, rounds, nanoseconds of all rounds, and a checksum of what came out.
//
//     models            every measurement
//     models settle     only the search over all completions
#include <stddef.h>
#include <stdint.h>
#include <stdio.h>
#include <stdlib.h>
#include <string.h>
#include <time.h>

enum { EVENTS = 64, THREADS = 16, AXIOMS = 6, DRAWN = 64, SHEETS = 8, OPEN = 12 };
enum { READ, WRITE, MEMORY_FENCE, PROXY_FENCE };
enum { WEAK, RELAXED, ACQUIRE, RELEASE, ACQUIRE_RELEASE, SC };
enum { THREAD, BLOCK, DEVICE, SYSTEM };
enum { GENERIC, CONSTANT, TEXTURE, SURFACE };
enum { ACYCLIC, IRREFLEXIVE, EMPTY };

typedef uint64_t row;

typedef struct {
    uint8_t thread, kind, grade, scope, proxy;
    uint16_t address;
    uint32_t value;
} event;

typedef struct {
    unsigned threads, n;
    uint8_t block[THREADS], device[THREADS];
    event events[EVENTS];
    row rf[EVENTS], order[EVENTS], atomic[EVENTS], depend[EVENTS];
} sheet;

static row bit(unsigned i) {
    return (row)1 << i;
}

static int has(const row *r, unsigned i, unsigned j) {
    return r[i] >> j & 1;
}

// The lowest event of a set that is not empty, taken out of it.
static unsigned next(row *set) {
    unsigned i = (unsigned)__builtin_ctzll(*set);
    *set &= *set - 1;
    return i;
}

// What the members of `set` are related to.
static row image(row set, const row *r) {
    row all = 0;
    while (set)
        all |= r[next(&set)];
    return all;
}

// The transitive closure in place, of a relation within `set`.
static void close_within(row *r, row set) {
    for (row ks = set; ks;) {
        unsigned k = next(&ks);
        if (r[k])
            for (row is = set; is;) {
                unsigned i = next(&is);
                r[i] |= r[k] & -(r[i] >> k & 1);
            }
    }
}

// The same for the first n events, without a jump in the inner loop.
static void close_all(row *r, unsigned n) {
    for (unsigned k = 0; k < n; k++) {
        row via = r[k];
        if (via)
            for (unsigned i = 0; i < n; i++)
                r[i] |= via & -(r[i] >> k & 1);
    }
}

// A pair more in a relation that is its own closure.
static void close_with(row *r, unsigned n, unsigned a, unsigned b) {
    if (has(r, a, b))
        return;
    row more = r[b] | bit(b);
    for (unsigned i = 0; i < n; i++)
        r[i] |= more & -(r[i] >> a & 1);
    r[a] |= more;
}

// Takes events away that lead to none of those left, the highest first, since program order goes up. A cycle stays.
static int has_cycle(const row *r, row left) {
    for (row before = 0; before != left;) {
        before = left;
        for (row rest = left; rest;) {
            unsigned i = 63 - (unsigned)__builtin_clzll(rest);
            rest ^= bit(i);
            left ^= (row)!(r[i] & left) << i;
        }
    }
    return left != 0;
}

static int has_loop(const row *r, unsigned n) {
    row loops = 0;
    for (unsigned i = 0; i < n; i++)
        loops |= r[i] & bit(i);
    return loops != 0;
}

static int has_pair(const row *r, unsigned n) {
    row all = 0;
    for (unsigned i = 0; i < n; i++)
        all |= r[i];
    return all != 0;
}

// A model is PTX or SC, looks at proxies or not, and is under the view layer or not.

typedef struct {
    int number, ptx, proxies, view;
} model;

static const model MODELS[] = {
    {0, 0, 0, 0}, {2, 1, 0, 0}, {3, 1, 1, 0}, {16, 0, 0, 1}, {18, 1, 0, 1}, {19, 1, 1, 1},
};
enum { MODEL_COUNT = 6 };

static unsigned axioms(const model *m) {
    return m->ptx ? 6 : 2;
}

static int kind(const model *m, unsigned axiom) {
    static const uint8_t sc[] = {ACYCLIC, EMPTY};
    static const uint8_t ptx[] = {ACYCLIC, ACYCLIC, EMPTY, EMPTY, IRREFLEXIVE, ACYCLIC};
    return m->ptx ? ptx[axiom] : sc[axiom];
}

// What does not rest on the order.

typedef struct {
    unsigned n;
    int ptx, proxies;
    row all, writes, paired, sourced;
    // a read and a write of its address; the source of a read that has one
    row near[EVENTS];
    uint8_t source[EVENTS];
    // program order and read-from under SC; the closure of program order and synchronisation under PTX
    row fixed[EVENTS];
    row atomic[EVENTS], rf[EVENTS], thin_air[EVENTS], strong[EVENTS], poloc[EVENTS], rivals[EVENTS];
    // chains of observation
    row seen[EVENTS];
    row sc_fences, observers;
    // events of one proxy and one block
    row together[EVENTS];
    row generic, other, no_access, proxy_fences;
} prepared;

// Events by the value of a field.

typedef struct {
    row kind[4], grade[6], scope[4], proxy[4], thread[THREADS], block[16], device[4], loc[EVENTS];
} sorted;

static void sort_events(const sheet *s, sorted *by) {
    uint16_t seen[EVENTS];
    row same[EVENTS];
    uint8_t class[EVENTS];
    unsigned classes = 0;
    memset(by, 0, offsetof(sorted, loc));
    for (unsigned i = 0; i < s->n; i++) {
        const event *e = &s->events[i];
        by->kind[e->kind] |= bit(i);
        by->grade[e->grade] |= bit(i);
        by->scope[e->scope] |= bit(i);
        by->proxy[e->proxy] |= bit(i);
        by->thread[e->thread] |= bit(i);
        by->block[s->block[e->thread]] |= bit(i);
        by->device[s->device[e->thread]] |= bit(i);
        if (e->kind <= WRITE) {
            unsigned c = 0;
            while (c < classes && seen[c] != e->address)
                c++;
            if (c == classes) {
                seen[c] = e->address;
                same[c] = 0;
                classes++;
            }
            same[c] |= bit(i);
            class[i] = (uint8_t)c;
        }
    }
    for (unsigned i = 0; i < s->n; i++)
        by->loc[i] = s->events[i].kind <= WRITE ? same[class[i]] : 0;
}

// The events whose threads the scope of event i covers, and whose scopes cover the thread of event i.
static row strong_with(const sheet *s, const sorted *by, unsigned i, row all) {
    const event *e = &s->events[i];
    row own = by->thread[e->thread], block = by->block[s->block[e->thread]], device = by->device[s->device[e->thread]];
    row reach[4] = {own, block, device, all};
    row reached = (by->scope[THREAD] & own) | (by->scope[BLOCK] & block) | (by->scope[DEVICE] & device) | by->scope[SYSTEM];
    return reach[e->scope] & reached;
}

static row program_order(const model *m, const sheet *s, const sorted *by, unsigned i) {
    const event *e = &s->events[i];
    row po = by->thread[e->thread] & ~(bit(i) | (bit(i) - 1));
    if (m->view)
        po &= by->proxy[e->proxy] | (e->proxy == GENERIC ? by->kind[PROXY_FENCE] : 0);
    return po;
}

static void prepare_ptx(const model *m, const sheet *s, const sorted *by, prepared *p, const row *po) {
    unsigned n = s->n;
    row reads = by->kind[READ], writes = by->kind[WRITE], fences = by->kind[MEMORY_FENCE];
    row acquires = by->grade[ACQUIRE] | by->grade[ACQUIRE_RELEASE] | by->grade[SC];
    row releases = by->grade[RELEASE] | by->grade[ACQUIRE_RELEASE] | by->grade[SC];
    row ends[EVENTS];
    p->sc_fences = fences & by->grade[SC];
    p->generic = by->proxy[GENERIC];
    p->other = p->all & ~p->generic;
    p->no_access = p->all & ~(reads | writes);
    p->proxy_fences = by->kind[PROXY_FENCE];
    p->observers = 0;
    for (unsigned i = 0; i < n; i++) {
        const event *e = &s->events[i];
        row of_proxy = m->proxies ? by->proxy[e->proxy] : p->all;
        p->rf[i] = s->rf[i];
        p->thin_air[i] = s->rf[i] | s->depend[i];
        p->strong[i] = strong_with(s, by, i, p->all) & of_proxy;
        p->poloc[i] = po[i] & by->loc[i] & of_proxy;
        p->rivals[i] = by->loc[i] & writes & ~bit(i) & -(writes >> i & 1);
        p->seen[i] = p->strong[i] & (s->rf[i] | s->atomic[i]);
        p->observers |= (row)(p->seen[i] != 0) << i;
        p->together[i] = by->proxy[e->proxy] & by->block[s->block[e->thread]];
        row own = (bit(i) | p->poloc[i]) & -(reads >> i & 1);
        ends[i] = (own & reads & acquires) | (po[i] & fences & acquires);
    }
    close_within(p->seen, p->observers);
    memcpy(p->fixed, po, n * sizeof(row));
    for (row as = (writes | fences) & releases; as;) {
        unsigned a = next(&as);
        row starts = writes >> a & 1 ? bit(a) | (p->poloc[a] & writes) : po[a];
        p->fixed[a] |= p->strong[a] & image(image(starts & p->observers, p->seen), ends);
    }
    close_all(p->fixed, n);
}

__attribute__((noinline)) static void prepare(const model *m, const sheet *s, prepared *p) {
    sorted by;
    row po[EVENTS];
    unsigned n = s->n;
    sort_events(s, &by);
    p->n = n;
    p->ptx = m->ptx;
    p->proxies = m->proxies;
    p->all = n == EVENTS ? ~(row)0 : bit(n) - 1;
    p->writes = by.kind[WRITE];
    p->paired = 0;
    p->sourced = 0;
    for (unsigned i = 0; i < n; i++) {
        po[i] = program_order(m, s, &by, i);
        p->near[i] = by.loc[i] & by.kind[WRITE] & -(by.kind[READ] >> i & 1);
        p->atomic[i] = s->atomic[i];
        p->paired |= (row)(s->atomic[i] != 0) << i;
        for (row rs = s->rf[i]; rs;) {
            unsigned r = next(&rs);
            p->source[r] = (uint8_t)i;
            p->sourced |= bit(r);
        }
    }
    if (m->ptx)
        prepare_ptx(m, s, &by, p, po);
    else
        for (unsigned i = 0; i < n; i++)
            p->fixed[i] = po[i] | s->rf[i];
}

// What the axioms share under one order.

typedef struct {
    row co[EVENTS], co_plus[EVENTS], fr[EVENTS], com[EVENTS], base[EVENTS], cause[EVENTS];
} laid;

static void lay_coherence(const prepared *p, const row *order, laid *l) {
    row first = 0;
    for (unsigned i = 0; i < p->n; i++) {
        l->co[i] = l->co_plus[i] = order[i] & p->writes & -(p->writes >> i & 1);
        first |= (row)(l->co[i] != 0) << i;
    }
    close_within(l->co_plus, first);
    for (unsigned i = 0; i < p->n; i++)
        l->fr[i] = p->near[i];
    for (row rs = p->sourced; rs;) {
        unsigned r = next(&rs);
        l->fr[r] &= l->co_plus[p->source[r]];
    }
}

// The pairs of base that are kept where proxies matter.
static void keep(const prepared *p, const row *base, row *kept) {
    row landing[EVENTS];
    for (row fs = p->proxy_fences; fs;) {
        unsigned f = next(&fs);
        landing[f] = base[f] & p->together[f] & p->other;
    }
    for (unsigned x = 0; x < p->n; x++) {
        if (p->no_access >> x & 1) {
            kept[x] = base[x];
            continue;
        }
        row starts = p->generic >> x & 1 ? bit(x) : base[x] & p->together[x] & p->proxy_fences;
        row reached = starts | image(starts, base);
        row landed = (reached & p->generic) | image(reached & p->proxy_fences, landing);
        kept[x] = base[x] & (p->no_access | p->together[x] | landed);
    }
}

static void lay_cause(const prepared *p, const row *order, laid *l) {
    row kept[EVENTS];
    memcpy(l->base, p->fixed, p->n * sizeof(row));
    for (row as = p->sc_fences; as;) {
        unsigned a = next(&as);
        for (row bs = order[a] & p->sc_fences; bs;)
            close_with(l->base, p->n, a, next(&bs));
    }
    if (p->proxies)
        keep(p, l->base, kept);
    else
        memcpy(kept, l->base, p->n * sizeof(row));
    for (unsigned i = 0; i < p->n; i++)
        l->cause[i] = kept[i] | image(p->seen[i], kept);
}

static void lay_com(const prepared *p, laid *l) {
    for (unsigned i = 0; i < p->n; i++)
        l->com[i] = p->rf[i] | l->fr[i] | l->co_plus[i];
}

__attribute__((noinline)) static void lay(const prepared *p, const row *order, laid *l) {
    lay_coherence(p, order, l);
    if (p->ptx) {
        lay_com(p, l);
        lay_cause(p, order, l);
    }
}

// The relations of the axioms.

static void sequence(const prepared *p, const laid *l, row *out) {
    for (unsigned i = 0; i < p->n; i++)
        out[i] = p->fixed[i] | l->co[i] | l->fr[i];
}

static void sc_torn(const prepared *p, const laid *l, row *out) {
    memset(out, 0, p->n * sizeof(row));
    for (row rs = p->paired; rs;) {
        unsigned r = next(&rs);
        out[r] = image(l->fr[r], l->co_plus) & p->atomic[r];
    }
}

static void per_location(const prepared *p, const laid *l, row *out) {
    for (unsigned i = 0; i < p->n; i++)
        out[i] = (p->strong[i] & l->com[i]) | p->poloc[i];
}

static void torn(const prepared *p, const laid *l, row *out) {
    memset(out, 0, p->n * sizeof(row));
    for (row rs = p->paired; rs;) {
        unsigned r = next(&rs);
        for (row ws = p->strong[r] & l->fr[r]; ws;) {
            unsigned w = next(&ws);
            out[r] |= p->strong[w] & l->co_plus[w] & p->atomic[r];
        }
    }
}

static void unordered(const prepared *p, const laid *l, row *out) {
    for (unsigned i = 0; i < p->n; i++)
        out[i] = l->cause[i] & p->rivals[i] & ~l->co_plus[i];
}

static void causality(const prepared *p, const laid *l, row *out) {
    for (unsigned i = 0; i < p->n; i++)
        out[i] = l->cause[i] | image(l->com[i], l->cause);
}

static void relation(const prepared *p, const laid *l, unsigned axiom, row *out) {
    if (!p->ptx) {
        if (axiom == 0)
            sequence(p, l, out);
        else
            sc_torn(p, l, out);
        return;
    }
    switch (axiom) {
    case 0: memcpy(out, p->thin_air, p->n * sizeof(row)); break;
    case 1: per_location(p, l, out); break;
    case 2: torn(p, l, out); break;
    case 3: unordered(p, l, out); break;
    case 4: causality(p, l, out); break;
    case 5: memcpy(out, l->co, p->n * sizeof(row)); break;
    }
}

__attribute__((noinline)) static void relations(const model *m, const prepared *p, const laid *l, row (*out)[EVENTS]) {
    for (unsigned a = 0; a < axioms(m); a++)
        relation(p, l, a, out[a]);
}

static int breaks(int kind, const row *r, const prepared *p) {
    switch (kind) {
    case ACYCLIC: return has_cycle(r, p->all);
    case IRREFLEXIVE: return has_loop(r, p->n);
    default: return has_pair(r, p->n);
    }
}

// The search over all completions.

static int causes_itself(const prepared *p, const laid *l) {
    for (unsigned a = 0; a < p->n; a++) {
        if (has(l->cause, a, a))
            return 1;
        for (row bs = l->com[a]; bs;)
            if (has(l->cause, next(&bs), a))
                return 1;
    }
    return 0;
}

// The lowest axiom that is violated under an order, or -1. What a later axiom needs is laid out only if it is looked at.
__attribute__((noinline)) static int lowest_violated(const prepared *p, const row *order) {
    laid l;
    row r[EVENTS];
    if (!p->ptx) {
        lay_coherence(p, order, &l);
        sequence(p, &l, r);
        if (has_cycle(r, p->all))
            return 0;
        sc_torn(p, &l, r);
        return has_pair(r, p->n) ? 1 : -1;
    }
    if (has_cycle(p->thin_air, p->all))
        return 0;
    lay_coherence(p, order, &l);
    lay_com(p, &l);
    per_location(p, &l, r);
    if (has_cycle(r, p->all))
        return 1;
    torn(p, &l, r);
    if (has_pair(r, p->n))
        return 2;
    lay_cause(p, order, &l);
    unordered(p, &l, r);
    if (has_pair(r, p->n))
        return 3;
    if (causes_itself(p, &l))
        return 4;
    return has_loop(l.co_plus, p->n) ? 5 : -1;
}

static int is_sc_fence(const event *e) {
    return e->kind == MEMORY_FENCE && e->grade == SC;
}

static int can_order(const event *e, const event *f) {
    return (e->kind == WRITE && f->kind == WRITE && e->address == f->address) || (is_sc_fence(e) && is_sc_fence(f));
}

static int covers(const sheet *s, const event *e, const event *f) {
    switch (e->scope) {
    case THREAD: return e->thread == f->thread;
    case BLOCK: return s->block[e->thread] == s->block[f->thread];
    case DEVICE: return s->device[e->thread] == s->device[f->thread];
    default: return 1;
    }
}

static int needs(const model *m, const sheet *s, unsigned i, unsigned j) {
    const event *e = &s->events[i], *f = &s->events[j];
    if (i == j || !can_order(e, f))
        return 0;
    if (!m->ptx)
        return e->kind == WRITE;
    return covers(s, e, f) && covers(s, f, e) && (!m->proxies || e->proxy == f->proxy);
}

static unsigned open_pairs(const model *m, const sheet *s, uint8_t (*pairs)[2]) {
    unsigned k = 0;
    for (unsigned i = 0; i < s->n; i++)
        for (unsigned j = i + 1; j < s->n; j++)
            if (needs(m, s, i, j) && !has(s->order, i, j) && !has(s->order, j, i)) {
                if (k < OPEN) {
                    pairs[k][0] = (uint8_t)i;
                    pairs[k][1] = (uint8_t)j;
                }
                k++;
            }
    return k;
}

// The lowest consistent completion; -1 if there is none, -2 if more than 12 pairs are open. `lowest`, if not null, is told
// which axioms were the lowest violated ones.
__attribute__((noinline)) static int settle(const model *m, const sheet *s, unsigned *lowest) {
    uint8_t pairs[OPEN][2];
    row order[EVENTS];
    prepared p;
    unsigned k = open_pairs(m, s, pairs);
    if (k > OPEN)
        return -2;
    prepare(m, s, &p);
    memcpy(order, s->order, sizeof order);
    for (unsigned i = 0; i < k; i++)
        order[pairs[i][0]] |= bit(pairs[i][1]);
    for (unsigned c = 0; c < 1u << k; c++) {
        // the pairs whose direction is another than in the completion before
        for (row turned = c ? c ^ (c - 1) : 0; turned;) {
            unsigned i = next(&turned);
            order[pairs[i][0]] ^= bit(pairs[i][1]);
            order[pairs[i][1]] ^= bit(pairs[i][0]);
        }
        int v = lowest_violated(&p, order);
        if (v < 0)
            return (int)c;
        if (lowest)
            *lowest |= 1u << v;
    }
    return -1;
}

// Random sheets.

static uint64_t state = 2026;

static unsigned below(unsigned bound) {
    state = state * 6364136223846793005u + 1442695040888963407u;
    return (unsigned)((state >> 33) % bound);
}

// An event by seven draws, in this order: thread, kind, grade, scope, proxy, address, and whether a write that could be one
// atomic step with it follows. Reads, writes, memory fences and proxy fences come 6 : 7 : 2 : 1.
static event drawn(const sheet *s, unsigned addresses, int follows, int *followed) {
    unsigned thread = below(s->threads), d = below(16), g = below(12), scope = below(3), proxy = below(8);
    unsigned address = below(addresses), pair = below(4);
    event e = {0};
    if (follows) {
        e = s->events[s->n - 1];
        e.kind = WRITE;
        e.grade = e.scope == THREAD ? WEAK : g % 2 ? RELEASE : RELAXED;
        *followed = 0;
        return e;
    }
    static const uint8_t write_grades[3] = {WEAK, RELAXED, RELEASE};
    e.thread = (uint8_t)thread;
    e.kind = d < 6 ? READ : d < 13 ? WRITE : d < 15 ? MEMORY_FENCE : PROXY_FENCE;
    switch (e.kind) {
    case READ: e.grade = g % 3; break;
    case WRITE: e.grade = write_grades[g % 3]; break;
    case MEMORY_FENCE: e.grade = (uint8_t)(2 + g % 4); break;
    default: e.grade = WEAK;
    }
    e.scope = e.grade == WEAK ? THREAD : (uint8_t)(1 + scope);
    if (e.kind == PROXY_FENCE)
        e.proxy = (uint8_t)(1 + proxy % 3);
    else if (e.kind == READ && e.grade == WEAK && proxy < 4)
        e.proxy = (uint8_t)proxy;
    else if (e.kind == WRITE && e.grade == WEAK && proxy == SURFACE)
        e.proxy = SURFACE;
    e.address = e.kind <= WRITE ? (uint16_t)address : 0;
    *followed = e.kind == READ && e.proxy == GENERIC && pair == 0;
    return e;
}

static int read_from(sheet *s, unsigned w, unsigned r) {
    const event *e = &s->events[w], *f = &s->events[r];
    if (e->kind != WRITE || f->kind != READ || e->address != f->address || e->value != f->value)
        return 0;
    for (unsigned i = 0; i < s->n; i++)
        if (has(s->rf, i, r))
            return 0;
    s->rf[w] |= bit(r);
    return 1;
}

static void atomic_step(sheet *s, unsigned r) {
    const event *e = &s->events[r], *f = &s->events[r + 1];
    if (e->kind == READ && f->kind == WRITE && e->thread == f->thread && e->address == f->address && e->proxy == GENERIC &&
        f->proxy == GENERIC && e->scope == f->scope)
        s->atomic[r] |= bit(r + 1);
}

static void depend(sheet *s, unsigned r, unsigned later) {
    if (s->events[r].kind == READ && s->events[later].thread == s->events[r].thread && later > r)
        s->depend[r] |= bit(later);
}

static void order_edge(sheet *s, unsigned a, unsigned b) {
    if (a != b && can_order(&s->events[a], &s->events[b]) && !has(s->order, a, b) && !has(s->order, b, a))
        s->order[a] |= bit(b);
}

// The recipe: n / 8 + 1 threads in four blocks of two devices, n events over as many addresses, every value 0. Then for each
// event two draws: from which event on a source is looked for, and whether it shall have one; an atomic step wherever an
// event and the next one can be one; for each event a draw of what depends on it; for each pair a draw of its order, forwards
// 5, backwards 2, none 1. What the rules refuse is left out.
static void draw_sheet(sheet *s, unsigned n) {
    memset(s, 0, sizeof *s);
    s->threads = n / 8 + 1;
    for (unsigned t = 0; t < s->threads; t++) {
        s->block[t] = (uint8_t)below(4);
        s->device[t] = s->block[t] / 2;
    }
    int follows = 0;
    for (; s->n < n; s->n++)
        s->events[s->n] = drawn(s, n / 8 + 1, follows, &follows);
    for (unsigned r = 0; r < n; r++) {
        unsigned start = below(n), wanted = below(4);
        for (unsigned k = 0; wanted && k < n; k++)
            if (read_from(s, (start + k) % n, r))
                break;
    }
    for (unsigned r = 0; r + 1 < n; r++)
        atomic_step(s, r);
    for (unsigned r = 0; r < n; r++)
        depend(s, r, below(n));
    for (unsigned i = 0; i < n; i++)
        for (unsigned j = i + 1; j < n; j++) {
            unsigned d = below(8);
            if (d < 5)
                order_edge(s, i, j);
            else if (d < 7)
                order_edge(s, j, i);
        }
}

// Measurements.

static uint64_t nanos(void) {
    struct timespec t;
    clock_gettime(CLOCK_MONOTONIC, &t);
    return (uint64_t)t.tv_sec * 1000000000u + (uint64_t)t.tv_nsec;
}

static uint32_t mixed(uint32_t check, uint32_t byte) {
    return (check ^ byte) * 16777619u;
}

enum { CHECK = 2166136261u };

static uint32_t told(const row *r, unsigned n, uint32_t check) {
    return mixed(check, (uint32_t)has(r, (check >> 16) % n, (check >> 24) % n));
}

// Every pair of every axiom under the order of the sheet.
static uint32_t digest(const model *m, const prepared *p, const row *order, uint32_t check) {
    laid l;
    row out[AXIOMS][EVENTS];
    lay(p, order, &l);
    relations(m, p, &l, out);
    for (unsigned a = 0; a < axioms(m); a++)
        for (unsigned i = 0; i < p->n; i++)
            for (unsigned j = 0; j < p->n; j++)
                check = mixed(check, (uint32_t)has(out[a], i, j));
    return check;
}

static void say(const char *name, const model *m, unsigned n, uint32_t rounds, uint64_t time, uint32_t check) {
    printf("%s %d %u %u %llu %u\n", name, m->number, n, rounds, (unsigned long long)time, check);
}

// The rounds are gone through more than once, since one time is too short to measure here. Which sheet and which pair a round
// takes hangs on what the round before read, so that no round can be left out.
enum { AGAIN = 64 };

static void time_prepare(const model *m, const sheet *sheets, unsigned n, uint32_t rounds) {
    static prepared slots[SHEETS];
    uint32_t check = CHECK;
    for (unsigned s = 0; s < SHEETS; s++)
        prepare(m, &sheets[s], &slots[s]);
    uint64_t start = nanos();
    for (unsigned again = 0; again < AGAIN; again++) {
        check = CHECK;
        for (uint32_t i = 0; i < rounds; i++) {
            unsigned s = (check >> 16) % SHEETS;
            prepare(m, &sheets[s], &slots[s]);
            check = mixed(check, s);
        }
    }
    uint64_t time = nanos() - start;
    for (unsigned s = 0; s < SHEETS; s++)
        check = digest(m, &slots[s], sheets[s].order, check);
    say("prepare", m, n, rounds * AGAIN, time, check);
}

static void time_axioms(const model *m, const sheet *sheets, unsigned n, uint32_t rounds, int verdict) {
    static prepared slots[SHEETS];
    static row out[AXIOMS][EVENTS];
    laid l;
    uint32_t check = CHECK;
    for (unsigned s = 0; s < SHEETS; s++)
        prepare(m, &sheets[s], &slots[s]);
    uint64_t start = nanos();
    for (unsigned again = 0; again < AGAIN; again++) {
        check = CHECK;
        for (uint32_t i = 0; i < rounds; i++) {
            unsigned s = (check >> 8) % SHEETS;
            row order[EVENTS];
            memcpy(order, sheets[s].order, sizeof order);
            order[(check >> 16) % n] ^= bit((check >> 24) % n);
            lay(&slots[s], order, &l);
            relations(m, &slots[s], &l, out);
            for (unsigned a = 0; a < axioms(m); a++)
                check = verdict ? mixed(check, (uint32_t)breaks(kind(m, a), out[a], &slots[s])) : told(out[a], n, check);
        }
    }
    say(verdict ? "verdict" : "axioms", m, n, rounds * AGAIN, nanos() - start, check);
}

// All pairs of many sheets; and the search's way to look at axioms one by one must agree with their relations.
static void compare_many(const model *m, const sheet *sheets, unsigned count, unsigned n) {
    static prepared p;
    static row out[AXIOMS][EVENTS];
    laid l;
    uint32_t check = CHECK;
    for (unsigned s = 0; s < count; s++) {
        prepare(m, &sheets[s], &p);
        check = digest(m, &p, sheets[s].order, check);
        lay(&p, sheets[s].order, &l);
        relations(m, &p, &l, out);
        unsigned a = 0;
        while (a < axioms(m) && !breaks(kind(m, a), out[a], &p))
            a++;
        if (lowest_violated(&p, sheets[s].order) != (a < axioms(m) ? (int)a : -1)) {
            fprintf(stderr, "model %d, %u events, sheet %u: not axiom %u\n", m->number, n, s, a);
            exit(1);
        }
    }
    say("same", m, n, 1, 1, check);
}

static void time_size(unsigned n, uint32_t rounds) {
    static sheet sheets[DRAWN];
    for (unsigned s = 0; s < DRAWN; s++)
        draw_sheet(&sheets[s], n);
    for (unsigned i = 0; i < MODEL_COUNT; i++) {
        const model *m = &MODELS[i];
        compare_many(m, sheets, DRAWN, n);
        time_prepare(m, sheets, n, rounds);
        // under the view layer only the preparation is another one
        if (!m->view) {
            time_axioms(m, sheets, n, rounds, 0);
            time_axioms(m, sheets, n, rounds, 1);
        }
    }
}

// The search at its longest: 64 events, 12 open pairs under every model, and no consistent completion.
//
// Threads 0 to 7, thread t in block t / 2 and device t / 4. Every value is 0, and every event is generic where nothing else
// is said.
//
//     events 0 to 23      for k from 0 to 11: thread 0, then thread 1, each a relaxed write of system scope to address k.
//                         These are the 12 open pairs, and each completion of them suits every axiom.
//     events 24 to 27     the part that is forbidden, see below
//     events 28 to 63     for j from 0 to 8, in thread 4 + j % 4: an acquire read of system scope of address 300 + j, from the
//                         release write of the j before if there is one; then if j % 3 is 0 a weak write to 400 + j, if it is
//                         1 a proxy fence of surface, if it is 2 a weak surface write to 400 + j; then an SC fence of system
//                         scope; then a release write of system scope to address 301 + j
//     order               of the nine SC fences, each before every later one
//
// The part that is forbidden:
//
//     first (axiom 0 of every model): threads 2, 2, 3, 3: a weak read of 100, a weak write to 101, a weak read of 101, a weak
//         write to 100; read-from 27 to 24 and 25 to 26; depend 24 to 25 and 26 to 27
//     late under SC (axiom 1): threads 2, 3, 2, 2: a write, a write, a read and a write of address 100, all relaxed of system
//         scope; read-from 24 to 26; atomic 26 to 27; order 24 to 25, 25 to 27, 24 to 27
//     late under PTX (axiom 4; axiom 5 is never the lowest violated one): threads 2, 2, 3, 3: a weak write to 100, a release
//         write of system scope to 101, an acquire read of system scope of 101, a weak read of 100; read-from 25 to 26

static unsigned put(sheet *s, unsigned thread, unsigned kind, unsigned grade, unsigned proxy, unsigned address) {
    event e = {.thread = (uint8_t)thread, .kind = (uint8_t)kind, .grade = (uint8_t)grade, .proxy = (uint8_t)proxy};
    e.scope = grade == WEAK ? THREAD : SYSTEM;
    e.address = (uint16_t)address;
    s->events[s->n] = e;
    return s->n++;
}

static void forbid_first(sheet *s) {
    put(s, 2, READ, WEAK, GENERIC, 100);
    put(s, 2, WRITE, WEAK, GENERIC, 101);
    put(s, 3, READ, WEAK, GENERIC, 101);
    put(s, 3, WRITE, WEAK, GENERIC, 100);
    read_from(s, 27, 24);
    read_from(s, 25, 26);
    depend(s, 24, 25);
    depend(s, 26, 27);
}

static void forbid_late_sc(sheet *s) {
    put(s, 2, WRITE, RELAXED, GENERIC, 100);
    put(s, 3, WRITE, RELAXED, GENERIC, 100);
    put(s, 2, READ, RELAXED, GENERIC, 100);
    put(s, 2, WRITE, RELAXED, GENERIC, 100);
    read_from(s, 24, 26);
    atomic_step(s, 26);
    order_edge(s, 24, 25);
    order_edge(s, 25, 27);
    order_edge(s, 24, 27);
}

static void forbid_late_ptx(sheet *s) {
    put(s, 2, WRITE, WEAK, GENERIC, 100);
    put(s, 2, WRITE, RELEASE, GENERIC, 101);
    put(s, 3, READ, ACQUIRE, GENERIC, 101);
    put(s, 3, READ, WEAK, GENERIC, 100);
    read_from(s, 25, 26);
}

static void put_group(sheet *s, unsigned j) {
    unsigned t = 4 + j % 4;
    unsigned r = put(s, t, READ, ACQUIRE, GENERIC, 300 + j);
    if (j % 3 == 1)
        put(s, t, PROXY_FENCE, WEAK, SURFACE, 0);
    else
        put(s, t, WRITE, WEAK, j % 3 == 0 ? GENERIC : SURFACE, 400 + j);
    unsigned f = put(s, t, MEMORY_FENCE, SC, GENERIC, 0);
    put(s, t, WRITE, RELEASE, GENERIC, 301 + j);
    if (j > 0)
        read_from(s, r - 1, r);
    for (unsigned before = 30; before < f; before += 4)
        order_edge(s, before, f);
}

static void worst(sheet *s, void (*forbid)(sheet *)) {
    memset(s, 0, sizeof *s);
    s->threads = 8;
    for (unsigned t = 0; t < 8; t++) {
        s->block[t] = (uint8_t)(t / 2);
        s->device[t] = (uint8_t)(t / 4);
    }
    for (unsigned k = 0; k < OPEN; k++) {
        put(s, 0, WRITE, RELAXED, GENERIC, k);
        put(s, 1, WRITE, RELAXED, GENERIC, k);
    }
    forbid(s);
    for (unsigned j = 0; j < 9; j++)
        put_group(s, j);
}

static void time_settle(const char *name, const model *m, const sheet *s, unsigned axiom, uint32_t rounds) {
    uint8_t pairs[OPEN][2];
    unsigned lowest = 0, open = open_pairs(m, s, pairs);
    int answer = settle(m, s, &lowest);
    if (s->n != EVENTS || open != OPEN || answer != -1 || lowest != 1u << axiom) {
        fprintf(stderr, "%s %d: %u events, %u open, answer %d, axioms %x\n", name, m->number, s->n, open, answer, lowest);
        exit(1);
    }
    uint32_t check = CHECK;
    uint64_t start = nanos();
    for (uint32_t i = 0; i < rounds; i++)
        check = mixed(check, (uint32_t)(settle(m, s, 0) + 1));
    say(name, m, EVENTS, rounds, nanos() - start, check);
}

static void time_search(void) {
    static sheet first, late_sc, late_ptx;
    worst(&first, forbid_first);
    worst(&late_sc, forbid_late_sc);
    worst(&late_ptx, forbid_late_ptx);
    for (unsigned i = 0; i < MODEL_COUNT; i++) {
        const model *m = &MODELS[i];
        time_settle("settle_first", m, &first, 0, 16);
        time_settle("settle_late", m, m->ptx ? &late_ptx : &late_sc, m->ptx ? 4 : 1, 16);
    }
}

int main(int count, char **words) {
    if (count > 1 && strcmp(words[1], "settle") == 0) {
        time_search();
        return 0;
    }
    time_size(8, 2048);
    time_size(16, 2048);
    time_size(32, 1024);
    time_size(64, 512);
    time_search();
    return 0;
}
