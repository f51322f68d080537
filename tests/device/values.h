/* Random values for the differential test, and what a script says of each. The generated program includes it behind defmtl.h. */
#include <inttypes.h>
#include <stdio.h>
#include <stdlib.h>
#include <string.h>

static FILE *frames;
static uint64_t random_state;

/* splitmix64, with small values and zeros often */
static uint64_t any(void) {
    uint64_t z = (random_state += 0x9e3779b97f4a7c15u);
    z = (z ^ (z >> 30)) * 0xbf58476d1ce4e5b9u;
    z = (z ^ (z >> 27)) * 0x94d049bb133111ebu;
    z ^= z >> 31;
    return (z & 7) == 0 ? (z >> 8 & 0xff) : (z & 7) == 1 ? (z >> 8 & 0xff00ff) : z >> 3;
}

/* The eight arguments of a statement have a buffer each. */
static char texts[8][300], hexes[8][700], shown[8][4000];
static uint8_t bytes[8][300];

static void fill(uint8_t *b, uint32_t n) {
    uint64_t zeros = any() % 3;
    for (uint32_t k = 0; k < n; k++) b[k] = zeros == 0 ? (uint8_t)(any() | 1) : any() % 4 == 0 ? 0 : (uint8_t)any();
}

static const char *any_text(int i) {
    uint32_t n = (uint32_t)(any() % 8 == 0 ? any() % 290 : any() % 12);
    for (uint32_t k = 0; k < n; k++) texts[i][k] = (char)('a' + any() % 26);
    texts[i][n] = 0;
    return texts[i];
}

static uint32_t any_bytes(int i) {
    uint32_t n = (uint32_t)(any() % 8 == 0 ? any() % 300 : any() % 12);
    fill(bytes[i], n);
    return n;
}

static const char *hex(int i, const uint8_t *b, uint32_t n) {
    hexes[i][0] = 0;
    for (uint32_t k = 0; k < n; k++) snprintf(hexes[i] + 2 * k, 3, "%02x", b[k]);
    return hexes[i];
}

/* Format values: a struct, an enum, a struct of both, and a union. */
struct point {
    int16_t x, y;
};
enum state { IDLE, MOVING, STOPPED };
struct line {
    struct point a, b;
    enum state s;
};
struct shape {
    int kind;
    uint16_t r;
    const char *name;
};
DEFMTL_FORMAT(struct point, point, "Point {{ x: {=i16}, y: {=i16} }}", self->x, self->y)
DEFMTL_ENUM(enum state, state, "Idle|Moving|Stopped")
DEFMTL_FORMAT(struct line, line, "{=?} to {=?} {=?}", FMT(point, &self->a), FMT(point, &self->b), FMT(state, &self->s))
DEFMTL_UNION(struct shape, shape, self->kind, "Dot|Ring({=u16}, {=str})|Mark {1=u8} {0=u16}", (), (self->r, self->name), (self->r, 7))

static struct point a_point[8][6];
static struct line a_line[8][6];
static enum state a_state[8][6];
static struct shape a_shape[8][6];

static void any_point(struct point *p) { p->x = (int16_t)any(), p->y = (int16_t)any(); }
static void any_state(enum state *s) { *s = (enum state)(any() % 3); }
static void any_line(struct line *l) { any_point(&l->a), any_point(&l->b), any_state(&l->s); }
static void any_shape(struct shape *s) {
    static const char *const names[] = {"", "a", "ring of a name"};
    s->kind = (int)(any() % 3), s->r = (uint16_t)any(), s->name = names[any() % 3];
}

static int show_point(char *to, const struct point *p, int named) { return sprintf(to, "%s(%d %d)", named ? "Fpoint" : "", p->x, p->y); }
static int show_state(char *to, const enum state *s, int named) { return sprintf(to, "%s%d()", named ? "Fstate:" : "", (int)*s); }
static int show_line(char *to, const struct line *l, int named) {
    int n = sprintf(to, "%s(", named ? "Fline" : "");
    n += show_point(to + n, &l->a, 1), to[n++] = ' ';
    n += show_point(to + n, &l->b, 1), to[n++] = ' ';
    n += show_state(to + n, &l->s, 1);
    return n + sprintf(to + n, ")");
}
static int show_shape(char *to, const struct shape *s, int named) {
    const char *front = named ? "Fshape:" : "";
    if (s->kind == 1) return sprintf(to, "%s1(%u \"%s\")", front, s->r, s->name);
    return s->kind == 2 ? sprintf(to, "%s2(%u 7)", front, s->r) : sprintf(to, "%s0()", front);
}

#define SHOWN(w, type)                                                                                                 \
    static const char *one_##w(int i, const type *a) {                                                                 \
        show_##w(shown[i], a, 1);                                                                                      \
        return shown[i];                                                                                               \
    }                                                                                                                  \
    static const char *list_##w(int i, const type *a, uint32_t n) {                                                    \
        int at = sprintf(shown[i], n ? "F" #w "[" : "[");                                                              \
        for (uint32_t k = 0; k < n; k++) {                                                                             \
            if (k) shown[i][at++] = ' ';                                                                               \
            at += show_##w(shown[i] + at, &a[k], 0);                                                                   \
        }                                                                                                              \
        sprintf(shown[i] + at, "]");                                                                                   \
        return shown[i];                                                                                               \
    }
SHOWN(point, struct point)
SHOWN(line, struct line)
SHOWN(state, enum state)
SHOWN(shape, struct shape)

/* A clock as a script's: 1000, 1250, 1500. The message that is being made has the number of those before it. */
#ifdef __cplusplus
extern "C"
#endif
uint64_t defmtl_now(void) { return 1000 + 250 * (uint64_t)defmtl_messages(0); }

static void drain(void) {
    uint8_t taken[64];
    for (uint32_t n; (n = defmtl_drain(0, taken, sizeof taken)) > 0;) fwrite(taken, 1, n, frames);
}
