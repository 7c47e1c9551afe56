/* load.c: a load generator for servers that speak memcached's classic text
 * protocol.
 *
 * Threads with one epoll each, a closed loop of D outstanding requests on
 * every connection, an optional login by a first `set`, keys drawn from a
 * zipf distribution. Every reply is checked in full: a `set` must be answered
 * STORED, and a hit must be the asked key with that key's flags, length and
 * bytes. Anything else is counted as unexpected, never as done, and the exit
 * status is then 1.
 *
 *   cc -O2 -pthread -o load load.c -lm
 */
#define _GNU_SOURCE
#include <arpa/inet.h>
#include <errno.h>
#include <fcntl.h>
#include <math.h>
#include <netdb.h>
#include <netinet/tcp.h>
#include <pthread.h>
#include <stdatomic.h>
#include <stdint.h>
#include <stdio.h>
#include <stdlib.h>
#include <string.h>
#include <sys/epoll.h>
#include <sys/resource.h>
#include <sys/socket.h>
#include <sys/time.h>
#include <time.h>
#include <unistd.h>

enum { KEYLEN = 12, RING = 1 << 19, PAT = 8192, SUB = 64, HIST = 48 * SUB };

static struct {
    const char *host, *port, *login[64], *name;
    int logins, threads, conns, depth, multi, idle, json, prefill, misses_bad, aside;
    uint32_t keys, vmin, vmax;
    double zipf, secs, warm, stall;
    int get_pct;
    uint64_t requests, seed;
} O = { .host = "127.0.0.1", .port = "11211", .name = "", .threads = 2, .conns = 50, .depth = 1,
        .multi = 1, .prefill = 1, .keys = 100000, .vmin = 100, .vmax = 100, .zipf = 0.99,
        .secs = 5, .warm = 1, .stall = 15, .get_pct = 90, .seed = 1 };

static char pattern[PAT + (2u << 20)];
static double *cdf;
static atomic_int phase; /* 0 before, 1 warm-up, 2 measured, 3 ended */
static atomic_ullong issued;

static uint64_t now_ns(void) {
    struct timespec t;
    clock_gettime(CLOCK_MONOTONIC, &t);
    return (uint64_t)t.tv_sec * 1000000000u + (uint64_t)t.tv_nsec;
}
static uint64_t mix(uint64_t x) {
    x += 0x9e3779b97f4a7c15u;
    x = (x ^ (x >> 30)) * 0xbf58476d1ce4e5b9u;
    x = (x ^ (x >> 27)) * 0x94d049bb133111ebu;
    return x ^ (x >> 31);
}
static void die(const char *what) {
    fprintf(stderr, "load: %s%s%s\n", what, errno ? ": " : "", errno ? strerror(errno) : "");
    exit(2);
}

/* ---- keys and values: a value is a function of its key ---- */
static void key_text(uint32_t k, char *p) { /* KEYLEN bytes: "k" and 11 digits */
    p[0] = 'k';
    for (int i = KEYLEN - 1; i > 0; i--) { p[i] = (char)('0' + k % 10); k /= 10; }
}
static uint32_t value_len(uint32_t k) {
    if (O.vmin == O.vmax) return O.vmin;
    return O.vmin + (uint32_t)(mix(k) % (O.vmax - O.vmin + 1));
}
static uint32_t value_flags(uint32_t k) { return (uint32_t)(mix((uint64_t)k + 77) & 0xffff); }
static void value_write(uint32_t k, char *p, uint32_t n) {
    char kt[KEYLEN];
    key_text(k, kt);
    uint32_t h = n < KEYLEN ? n : KEYLEN;
    memcpy(p, kt, h);
    memcpy(p + h, pattern + mix(k) % PAT, n - h);
}
static int value_good(uint32_t k, const char *p, uint32_t n) {
    char kt[KEYLEN];
    key_text(k, kt);
    uint32_t h = n < KEYLEN ? n : KEYLEN;
    return n == value_len(k) && !memcmp(p, kt, h) && !memcmp(p + h, pattern + mix(k) % PAT, n - h);
}

/* ---- histogram of nanoseconds: 64 parts to each power of two ---- */
typedef struct { uint64_t n[HIST], count, max; double sum; } Hist;
static int slot_of(uint64_t v) {
    if (v < SUB) return (int)v;
    int e = 63 - __builtin_clzll(v);            /* v >= 64: e >= 6 */
    int s = (e - 5) * SUB + (int)((v >> (e - 6)) & (SUB - 1));
    return s < HIST ? s : HIST - 1;
}
static uint64_t value_of(int s) {
    if (s < SUB) return (uint64_t)s;
    int e = s / SUB + 5;
    return ((uint64_t)(SUB + s % SUB) << (e - 6)) + ((1ull << (e - 6)) >> 1);
}
static void hist_add(Hist *h, uint64_t v) {
    h->n[slot_of(v)]++; h->count++; h->sum += (double)v;
    if (v > h->max) h->max = v;
}
static double hist_at(const Hist *h, double q) { /* microseconds */
    uint64_t want = (uint64_t)ceil(q * (double)h->count), seen = 0;
    if (!h->count) return 0;
    for (int i = 0; i < HIST; i++)
        if ((seen += h->n[i]) >= want) return (double)value_of(i) / 1000.0;
    return (double)h->max / 1000.0;
}

/* ---- connections ---- */
typedef struct { uint32_t *keys; int nkeys, next, is_set; uint64_t sent; } Req;
typedef struct {
    int fd, dead, want_out, index;
    char *in; size_t in_len, in_at, in_cap;
    char *out; size_t out_len, out_at, out_cap;
    Req *q; int q_head, q_len;
    uint32_t *owed; int n_owed;         /* keys missed, to be set (-A) */
    uint64_t last;
} Conn;

typedef struct {
    int no, n; Conn *c; int ep;
    uint32_t *ring, ring_at; uint64_t rng;
    Hist h; uint64_t reqs, keys, hits, misses, sets, bytes;
    uint64_t bad, lost; char first_bad[160];
    pthread_t id;
} Work;

static int dial(void) {
    struct addrinfo hint = { .ai_socktype = SOCK_STREAM }, *a;
    if (getaddrinfo(O.host, O.port, &hint, &a)) return -1;
    int fd = socket(a->ai_family, SOCK_STREAM, 0);
    struct timeval tv = { 10, 0 };
    if (fd >= 0) {
        setsockopt(fd, SOL_SOCKET, SO_RCVTIMEO, &tv, sizeof tv);
        setsockopt(fd, SOL_SOCKET, SO_SNDTIMEO, &tv, sizeof tv);
        int one = 1;
        setsockopt(fd, IPPROTO_TCP, TCP_NODELAY, &one, sizeof one);
        int tries = 0;
        while (connect(fd, a->ai_addr, a->ai_addrlen)) {
            if (errno != ECONNREFUSED && errno != EAGAIN) { close(fd); fd = -1; break; }
            if (++tries == 50) { close(fd); fd = -1; break; }
            usleep(20000);
        }
    }
    freeaddrinfo(a);
    return fd;
}
static int send_all(int fd, const char *p, size_t n) {
    while (n) {
        ssize_t w = send(fd, p, n, MSG_NOSIGNAL);
        if (w <= 0) { if (w < 0 && errno == EINTR) continue; return -1; }
        p += w; n -= (size_t)w;
    }
    return 0;
}
static int expect(int fd, const char *want) {
    size_t n = strlen(want), at = 0;
    char b[64];
    while (at < n) {
        ssize_t r = recv(fd, b + at, n - at, 0);
        if (r <= 0) return -1;
        at += (size_t)r;
    }
    return memcmp(b, want, n) ? -1 : 0;
}
static int login(int fd, int index) {
    if (!O.logins) return 0;
    const char *l = O.login[index % O.logins];
    char b[512];
    int n = snprintf(b, sizeof b, "set auth 0 0 %zu\r\n%s\r\n", strlen(l), l);
    if (send_all(fd, b, (size_t)n)) return -1;
    return expect(fd, "STORED\r\n");
}

static void room(char **p, size_t *cap, size_t need) {
    if (*cap >= need) return;
    size_t n = *cap ? *cap : 4096;
    while (n < need) n *= 2;
    if (!(*p = realloc(*p, n))) die("memory");
    *cap = n;
}
static size_t put_set(char *o, uint32_t k) {
    uint32_t n = value_len(k);
    char kt[KEYLEN + 1]; key_text(k, kt); kt[KEYLEN] = 0;
    int h = sprintf(o, "set %s %u 0 %u\r\n", kt, value_flags(k), n);
    value_write(k, o + h, n);
    o[h + (int)n] = '\r'; o[h + (int)n + 1] = '\n';
    return (size_t)h + n + 2;
}
static size_t put_get(char *o, const uint32_t *k, int n) {
    char *p = o;
    memcpy(p, "get", 3); p += 3;
    for (int i = 0; i < n; i++) { *p++ = ' '; key_text(k[i], p); p += KEYLEN; }
    *p++ = '\r'; *p++ = '\n';
    return (size_t)(p - o);
}

static uint32_t draw(Work *w) {
    uint32_t k = w->ring[w->ring_at];
    w->ring_at = (w->ring_at + 1) & (RING - 1);
    return k;
}
static int may_issue(void) {
    int ph = atomic_load_explicit(&phase, memory_order_relaxed);
    if (ph == 3) return 0;
    if (O.requests && ph == 2)
        return atomic_fetch_add_explicit(&issued, 1, memory_order_relaxed) < O.requests;
    return 1;
}
static void fill(Work *w, Conn *c) {
    while (!c->dead && c->q_len < O.depth && may_issue()) {
        Req *r = &c->q[(c->q_head + c->q_len) % O.depth];
        w->rng = mix(w->rng);
        r->is_set = (int)(w->rng % 100) >= O.get_pct;
        r->next = 0;
        if (c->n_owed) r->is_set = 1;
        if (r->is_set) {
            r->nkeys = 1; r->keys[0] = c->n_owed ? c->owed[--c->n_owed] : draw(w);
            room(&c->out, &c->out_cap, c->out_len + value_len(r->keys[0]) + 128);
            c->out_len += put_set(c->out + c->out_len, r->keys[0]);
        } else {
            r->nkeys = O.multi;
            for (int i = 0; i < O.multi; i++) r->keys[i] = draw(w);
            room(&c->out, &c->out_cap, c->out_len + 32 + (size_t)O.multi * (KEYLEN + 16));
            c->out_len += put_get(c->out + c->out_len, r->keys, O.multi);
        }
        r->sent = now_ns();
        c->q_len++;
    }
}
static void kill_conn(Work *w, Conn *c, const char *why, const char *at, size_t n) {
    if (c->dead) return;
    c->dead = 1;
    if (!w->first_bad[0]) {
        int o = snprintf(w->first_bad, 64, "%s: ", why);
        for (size_t i = 0; i < n && o < 150; i++)
            o += sprintf(w->first_bad + o, at[i] >= 32 && at[i] < 127 && at[i] != '"' && at[i] != '\\' ? "%c" : ".", at[i]);
    }
    epoll_ctl(w->ep, EPOLL_CTL_DEL, c->fd, NULL);
    close(c->fd);
}
static void flush_out(Work *w, Conn *c) {
    while (!c->dead && c->out_at < c->out_len) {
        ssize_t n = send(c->fd, c->out + c->out_at, c->out_len - c->out_at, MSG_NOSIGNAL | MSG_DONTWAIT);
        if (n > 0) { c->out_at += (size_t)n; continue; }
        if (n < 0 && errno == EINTR) continue;
        if (n < 0 && (errno == EAGAIN || errno == EWOULDBLOCK)) break;
        w->lost++; kill_conn(w, c, "write failed", "", 0); return;
    }
    int more = c->out_at < c->out_len;
    if (!more) c->out_at = c->out_len = 0;
    if (!c->dead && more != c->want_out) {
        struct epoll_event e = { .events = EPOLLIN | (more ? EPOLLOUT : 0), .data.ptr = c };
        epoll_ctl(w->ep, EPOLL_CTL_MOD, c->fd, &e);
        c->want_out = more;
    }
}
static void owe(Conn *c, uint32_t k) {
    if (O.aside && c->n_owed < O.depth * O.multi) c->owed[c->n_owed++] = k;
}
static void done(Work *w, Conn *c, Req *r) {
    uint64_t t = now_ns();
    if (atomic_load_explicit(&phase, memory_order_relaxed) == 2) {
        hist_add(&w->h, t - r->sent);
        w->reqs++; w->keys += (uint64_t)r->nkeys; w->sets += (uint64_t)r->is_set;
    }
    c->q_head = (c->q_head + 1) % O.depth; c->q_len--; c->last = t;
}
static uint64_t digits(const char **p, const char *end, int *ok) {
    uint64_t v = 0; int n = 0;
    while (*p < end && **p >= '0' && **p <= '9' && n < 20) { v = v * 10 + (uint64_t)(**p - '0'); (*p)++; n++; }
    if (!n) *ok = 0;
    return v;
}
/* One step of reading replies: 1 progress, 0 more bytes needed, -1 unexpected. */
static int parse(Work *w, Conn *c) {
    const char *p = c->in + c->in_at, *end = c->in + c->in_len;
    if (p == end) return 0;
    if (!c->q_len) return -1;
    Req *r = &c->q[c->q_head];
    const char *nl = memchr(p, '\n', (size_t)(end - p));
    if (!nl) return end - p > 400 ? -1 : 0;
    if (nl == p || nl[-1] != '\r') return -1;
    size_t ll = (size_t)(nl + 1 - p);
    int meas = atomic_load_explicit(&phase, memory_order_relaxed) == 2;
    if (r->is_set) {
        const char *want = "STORED\r\n";
        if (ll != strlen(want) || memcmp(p, want, ll)) return -1;
        c->in_at += ll; done(w, c, r);
        return 1;
    }
    int ok = 1;
    if (ll == 5 && !memcmp(p, "END\r\n", 5)) {
        if (meas) w->misses += (uint64_t)(r->nkeys - r->next);
        for (int i = r->next; i < r->nkeys; i++) owe(c, r->keys[i]);
        if (O.misses_bad && r->next < r->nkeys) return -1;
        c->in_at += ll; done(w, c, r);
        return 1;
    }
    if (ll < 6 + KEYLEN || memcmp(p, "VALUE ", 6)) return -1;
    const char *k = p + 6, *q = k + KEYLEN;
    if (*q++ != ' ') return -1;
    uint64_t fl = digits(&q, nl, &ok);
    if (!ok || *q++ != ' ') return -1;
    uint64_t n = digits(&q, nl, &ok);
    if (!ok || q != nl - 1 || n > (4u << 20)) return -1;
    if ((uint64_t)(end - nl - 1) < n + 2) return 0;
    int i = r->next, found = 0;
    for (; i < r->nkeys && !found; i++) {          /* in the order asked */
        char kt[KEYLEN]; key_text(r->keys[i], kt);
        if (!memcmp(kt, k, KEYLEN)) { found = 1; break; }
        if (meas) w->misses++;
        owe(c, r->keys[i]);
        if (O.misses_bad) return -1;
    }
    if (!found) return -1;
    if (fl != value_flags(r->keys[i]) || !value_good(r->keys[i], nl + 1, (uint32_t)n)) return -1;
    if (memcmp(nl + 1 + n, "\r\n", 2)) return -1;
    r->next = i + 1;
    if (meas) { w->hits++; w->bytes += n; }
    c->in_at += ll + n + 2;
    return 1;
}
static void on_readable(Work *w, Conn *c) {
    for (int round = 0; round < 4 && !c->dead; round++) {
        if (c->in_at == c->in_len) c->in_at = c->in_len = 0;
        else if (c->in_at && c->in_cap - c->in_len < 16384) {
            memmove(c->in, c->in + c->in_at, c->in_len - c->in_at);
            c->in_len -= c->in_at; c->in_at = 0;
        }
        room(&c->in, &c->in_cap, c->in_len + 65536);
        size_t want = c->in_cap - c->in_len;
        ssize_t n = recv(c->fd, c->in + c->in_len, want, MSG_DONTWAIT);
        if (n < 0 && errno == EINTR) continue;
        if (n < 0 && (errno == EAGAIN || errno == EWOULDBLOCK)) break;
        if (n <= 0) { w->lost++; kill_conn(w, c, "closed by the server", "", 0); return; }
        c->in_len += (size_t)n;
        int s;
        while ((s = parse(w, c)) > 0) { }
        if (s < 0) {
            w->bad++;
            kill_conn(w, c, "unexpected", c->in + c->in_at, c->in_len - c->in_at);
            return;
        }
        if ((size_t)n < want) break;
    }
    fill(w, c);
    flush_out(w, c);
}
static void *work(void *arg) {
    Work *w = arg;
    struct epoll_event ev[256];
    while (atomic_load(&phase) == 0) usleep(1000);
    for (int i = 0; i < w->n; i++) { w->c[i].last = now_ns(); fill(w, &w->c[i]); flush_out(w, &w->c[i]); }
    uint64_t last_check = now_ns(), ended = 0;
    for (;;) {
        int n = epoll_wait(w->ep, ev, 256, 50);
        for (int i = 0; i < n; i++) {
            Conn *c = ev[i].data.ptr;
            if (c->dead) continue;
            if (ev[i].events & EPOLLOUT) flush_out(w, c);
            if (!c->dead && (ev[i].events & (EPOLLIN | EPOLLHUP | EPOLLERR))) on_readable(w, c);
        }
        uint64_t t = now_ns();
        int ph = atomic_load(&phase), open = 0, waiting = 0;
        if (ph == 3 && !ended) ended = t;
        if (t - last_check > 50000000u || ph == 3 || n == 0) {
            last_check = t;
            for (int i = 0; i < w->n; i++) {
                Conn *c = &w->c[i];
                if (c->dead) continue;
                open++; waiting += c->q_len > 0;
                if (c->q_len && (double)(t - c->last) / 1e9 > O.stall) {
                    w->lost++; kill_conn(w, c, "no reply in time", "", 0);
                }
            }
            if (!open) break;
            if (!waiting && (ph == 3 || (O.requests && ph == 2))) break;
            if (ended && (double)(t - ended) / 1e9 > O.stall) { w->lost += (uint64_t)waiting; break; }
        }
    }
    return NULL;
}
/* ---- before the run: every key set once ---- */
static int fill_user;
static void *prefill(void *arg) {
    Work *w = arg;
    int fd = dial();
    if (fd < 0 || login(fd, fill_user)) { w->lost++; snprintf(w->first_bad, 160, "prefill: no connection or login"); return NULL; }
    uint32_t batch = O.vmax > 4096 ? 4 : 64;
    char *b = malloc((size_t)batch * (O.vmax + 256u)), in[8192];
    const char *want = "STORED\r\n";
    size_t wl = strlen(want);
    for (uint64_t k = (uint64_t)w->no; k < O.keys;) {
        size_t n = 0, got = 0; uint32_t m = 0;
        for (; m < batch && k < O.keys; m++, k += (uint64_t)O.threads) n += put_set(b + n, (uint32_t)k);
        if (send_all(fd, b, n)) { w->lost++; break; }
        while (got < m * wl) {
            ssize_t r = recv(fd, in + got, m * wl - got, 0);
            if (r <= 0) { w->lost++; goto end; }
            got += (size_t)r;
        }
        for (uint32_t i = 0; i < m; i++)
            if (memcmp(in + i * wl, want, wl)) {
                w->bad++; snprintf(w->first_bad, 160, "prefill: a set was not answered STORED"); goto end;
            }
    }
end:
    free(b); close(fd);
    return NULL;
}

static void usage(void) {
    fputs("load [options]\n"
          " -h HOST -p PORT   server (127.0.0.1 11211)\n"
          " -L 'NAME TOKEN'   login sent as a first set on each connection; where -L is\n"
          "                   given several times, connections take them in turn\n"
          " -t N  threads (2)          -c N  connections (50)\n"
          " -P N  pipeline depth (1)   -m N  keys in each get (1)\n"
          " -g N  percent of gets (90) -k N  keys (100000)\n"
          " -z S  zipf skew, 0 is uniform (0.99)\n"
          " -v N or MIN-MAX   value bytes, by key where a range (100)\n"
          " -d SECS measured (5)  -w SECS warm-up (1)  -n N requests instead of -d\n"
          " -i N  idle connections, checked at the end (0)\n"
          " -A    a missed key is set at once, as a cache in front of a store is used\n"
          " -s N  seed (1)   -F  no prefill   -M  a miss is unexpected\n"
          " -S SECS without a reply before a connection counts as lost (15)\n"
          " -j  one line of JSON\n", stderr);
    exit(2);
}
int main(int argc, char **argv) {
    int o; char *x;
    while ((o = getopt(argc, argv, "h:p:L:t:c:P:m:g:k:z:v:d:w:n:i:s:S:N:AFMj")) != -1)
        switch (o) {
        case 'h': O.host = optarg; break;      case 'p': O.port = optarg; break;
        case 'L': if (O.logins < 64) O.login[O.logins++] = optarg;
                  break;
        case 't': O.threads = atoi(optarg); break;
        case 'c': O.conns = atoi(optarg); break; case 'P': O.depth = atoi(optarg); break;
        case 'm': O.multi = atoi(optarg); break; case 'g': O.get_pct = atoi(optarg); break;
        case 'k': O.keys = (uint32_t)strtoul(optarg, 0, 10); break;
        case 'z': O.zipf = atof(optarg); break;
        case 'v': O.vmin = O.vmax = (uint32_t)strtoul(optarg, &x, 10);
                  if (*x == '-') O.vmax = (uint32_t)strtoul(x + 1, 0, 10);
                  break;
        case 'd': O.secs = atof(optarg); break; case 'w': O.warm = atof(optarg); break;
        case 'n': O.requests = strtoull(optarg, 0, 10); break;
        case 'i': O.idle = atoi(optarg); break; case 's': O.seed = strtoull(optarg, 0, 10); break;
        case 'S': O.stall = atof(optarg); break; case 'N': O.name = optarg; break;
        case 'A': O.aside = 1; break;          case 'F': O.prefill = 0; break; case 'M': O.misses_bad = 1; break;
        case 'j': O.json = 1; break;
        default: usage();
        }
    if (O.threads < 1 || O.conns < 1 || O.depth < 1 || O.multi < 1 || O.keys < 1 || O.vmax < O.vmin ||
        O.vmax > (2u << 20) || O.get_pct < 0 || O.get_pct > 100) usage();
    if (O.threads > O.conns) O.threads = O.conns;
    struct rlimit rl;
    getrlimit(RLIMIT_NOFILE, &rl); rl.rlim_cur = rl.rlim_max; setrlimit(RLIMIT_NOFILE, &rl);
    uint64_t s = O.seed;
    for (size_t i = 0; i < sizeof pattern; i++) { s = mix(s + i); pattern[i] = "abcdefghijklmnopqrstuvwxyzABCDEFGHIJKLMNOPQRSTUVWXYZ0123456789-_\r\n"[s % 66]; }
    cdf = malloc(sizeof *cdf * O.keys);
    if (!cdf) die("memory");
    double sum = 0;
    for (uint32_t i = 0; i < O.keys; i++) cdf[i] = sum += pow((double)i + 1, -O.zipf);
    Work *w = calloc((size_t)O.threads, sizeof *w);
    for (int t = 0; t < O.threads; t++) { w[t].no = t; w[t].rng = mix(O.seed * 1000 + (uint64_t)t); }
    for (fill_user = 0; O.prefill && fill_user < (O.logins ? O.logins : 1); fill_user++) {
        for (int t = 0; t < O.threads; t++) pthread_create(&w[t].id, 0, prefill, &w[t]);
        for (int t = 0; t < O.threads; t++) pthread_join(w[t].id, 0);
        for (int t = 0; t < O.threads; t++)
            if (w[t].bad || w[t].lost) { errno = 0; die(w[t].first_bad[0] ? w[t].first_bad : "prefill failed"); }
    }
    int *idle = calloc((size_t)O.idle + 1, sizeof *idle), idle_open = 0, idle_good = 0;
    for (int i = 0; i < O.idle; i++) {
        idle[i] = dial();
        if (idle[i] >= 0 && !login(idle[i], i)) idle_open++;
        else if (idle[i] >= 0) { close(idle[i]); idle[i] = -1; }
    }
    int per = O.conns / O.threads, extra = O.conns % O.threads, index = 0;
    for (int t = 0; t < O.threads; t++) {
        w[t].n = per + (t < extra);
        w[t].c = calloc((size_t)w[t].n, sizeof(Conn));
        w[t].ep = epoll_create1(0);
        w[t].ring = malloc(sizeof(uint32_t) * RING);
        uint64_t r = w[t].rng;
        for (int i = 0; i < RING; i++) {
            r = mix(r);
            double u = (double)(r >> 11) / 9007199254740992.0 * sum;
            uint32_t lo = 0, hi = O.keys - 1;
            while (lo < hi) { uint32_t mid = lo + (hi - lo) / 2; if (cdf[mid] > u) hi = mid; else lo = mid + 1; }
            w[t].ring[i] = lo;
        }
        for (int i = 0; i < w[t].n; i++) {
            Conn *c = &w[t].c[i];
            c->index = index++;
            c->fd = dial();
            if (c->fd < 0) die("cannot connect");
            if (login(c->fd, c->index)) { errno = 0; die("login refused"); }
            c->q = calloc((size_t)O.depth, sizeof(Req));
            c->owed = malloc(sizeof(uint32_t) * (size_t)(O.depth * O.multi));
            for (int d = 0; d < O.depth; d++) c->q[d].keys = malloc(sizeof(uint32_t) * (size_t)O.multi);
            struct epoll_event e = { .events = EPOLLIN, .data.ptr = c };
            epoll_ctl(w[t].ep, EPOLL_CTL_ADD, c->fd, &e);
        }
    }
    for (int t = 0; t < O.threads; t++) pthread_create(&w[t].id, 0, work, &w[t]);
    if (O.warm > 0) { atomic_store(&phase, 1); usleep((useconds_t)(O.warm * 1e6)); }
    uint64_t t0 = now_ns();
    atomic_store(&phase, 2);
    if (O.requests) {
        for (int t = 0; t < O.threads; t++) pthread_join(w[t].id, 0);
    } else {
        usleep((useconds_t)(O.secs * 1e6));
    }
    uint64_t t1 = now_ns();
    atomic_store(&phase, 3);
    if (!O.requests) for (int t = 0; t < O.threads; t++) pthread_join(w[t].id, 0);
    for (int i = 0; i < O.idle; i++) {               /* every idle one must still answer */
        if (idle[i] < 0) continue;
        const char *ask = "get nokey\r\n";
        if (!send_all(idle[i], ask, strlen(ask)) && !expect(idle[i], "END\r\n")) idle_good++;
        close(idle[i]);
    }
    Hist h; memset(&h, 0, sizeof h);
    uint64_t reqs = 0, keys = 0, hits = 0, misses = 0, sets = 0, bad = 0, lost = 0, bytes = 0;
    const char *first = "";
    for (int t = 0; t < O.threads; t++) {
        for (int i = 0; i < HIST; i++) h.n[i] += w[t].h.n[i];
        h.count += w[t].h.count; h.sum += w[t].h.sum; if (w[t].h.max > h.max) h.max = w[t].h.max;
        reqs += w[t].reqs; keys += w[t].keys; hits += w[t].hits; misses += w[t].misses;
        sets += w[t].sets; bad += w[t].bad; lost += w[t].lost; bytes += w[t].bytes;
        if (w[t].first_bad[0]) first = w[t].first_bad;
    }
    double secs = (double)(t1 - t0) / 1e9;
    int good = !bad && !lost && idle_good == O.idle && reqs > 0;
    if (O.json)
        printf("{\"name\":\"%s\",\"good\":%s,\"secs\":%.3f,\"requests\":%llu,\"rps\":%.1f,\"keys_per_s\":%.1f,"
               "\"MBps\":%.2f,\"hit_ratio\":%.5f,\"hits\":%llu,\"misses\":%llu,\"sets\":%llu,\"unexpected\":%llu,\"lost\":%llu,"
               "\"idle_open\":%d,\"idle_good\":%d,\"mean_us\":%.1f,\"p50_us\":%.1f,\"p99_us\":%.1f,"
               "\"p999_us\":%.1f,\"max_us\":%.1f,\"first\":\"%s\"}\n",
               O.name, good ? "true" : "false", secs, (unsigned long long)reqs, (double)reqs / secs,
               (double)keys / secs, (double)bytes / secs / 1e6,
               hits + misses ? (double)hits / (double)(hits + misses) : 0.0, (unsigned long long)hits,
               (unsigned long long)misses, (unsigned long long)sets, (unsigned long long)bad,
               (unsigned long long)lost, idle_open, idle_good,
               h.count ? h.sum / (double)h.count / 1000.0 : 0.0, hist_at(&h, .5), hist_at(&h, .99),
               hist_at(&h, .999), (double)h.max / 1000.0, first);
    else {
        printf("requests %llu in %.2f s: %.0f requests/s, %.0f keys/s, %.1f MB/s of hits\n",
               (unsigned long long)reqs, secs, (double)reqs / secs, (double)keys / secs, (double)bytes / secs / 1e6);
        printf("hit ratio %.4f, ", hits + misses ? (double)hits / (double)(hits + misses) : 0.0);
        printf("sets %llu hits %llu misses %llu unexpected %llu lost %llu idle %d of %d\n",
               (unsigned long long)sets, (unsigned long long)hits, (unsigned long long)misses,
               (unsigned long long)bad, (unsigned long long)lost, idle_good, O.idle);
        printf("latency us: p50 %.0f p99 %.0f p99.9 %.0f max %.0f\n",
               hist_at(&h, .5), hist_at(&h, .99), hist_at(&h, .999), (double)h.max / 1000.0);
        if (first[0]) printf("first: %s\n", first);
    }
    return good ? 0 : 1;
}
