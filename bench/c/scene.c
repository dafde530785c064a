// The peer of the reader of scenes: reads the files of scenes.in, each behind its length in four bytes, and writes to
// peer.out what is said of each, as the product does: a fault, or the scene's line, its models' file and its script. Prints
// the microseconds of the best of five rounds and the number of bytes written. Models are taken as they are; all else of
// the rules in oracle/scenes.py is tested.

#include <stdbool.h>
#include <stdint.h>
#include <stdio.h>
#include <stdlib.h>
#include <string.h>
#include <time.h>

struct bytes { uint8_t *at; size_t length, room; };

static void need(struct bytes *b, size_t more)
{
    if (b->length + more <= b->room) return;
    b->room = (b->length + more) * 2;
    if (!(b->at = realloc(b->at, b->room))) exit(125);
}

static void put(struct bytes *b, const void *from, size_t n)
{
    need(b, n);
    memcpy(b->at + b->length, from, n);
    b->length += n;
}

static void put_number(struct bytes *b, uint32_t n) { put(b, &n, 4); }

struct cut { const uint8_t *at; size_t left; bool fits; };

static uint32_t number(struct cut *c)
{
    uint32_t n = 0;
    if (!c->fits || c->left < 4) { c->fits = false; return 0; }
    memcpy(&n, c->at, 4);
    c->at += 4;
    c->left -= 4;
    return n;
}

static struct cut string(struct cut *c)
{
    uint32_t n = number(c);
    struct cut text = { c->at, n, true };
    if (!c->fits || c->left < n) { c->fits = false; return text; }
    c->at += n;
    c->left -= n;
    return text;
}

struct frame { struct cut turn, move; bool has_turn, has_move; };

static void dictionary(struct cut *c, struct frame *f)
{
    uint32_t n = number(c);
    while (c->fits && n--) {
        struct cut key = string(c), value = string(c);
        if (!c->fits || !f || key.left != 2 || key.at[0] != '_') continue;
        if (key.at[1] == 'r' && !f->has_turn) { f->turn = value; f->has_turn = true; }
        if (key.at[1] == 't' && !f->has_move) { f->move = value; f->has_move = true; }
    }
}

struct turning { int column[3], sign[3]; };

static bool turning_of(const struct frame *f, struct turning *t)
{
    unsigned bits = 4;
    if (f->has_turn) {
        bits = 0;
        if (f->turn.left < 1 || f->turn.left > 3) return false;
        for (size_t k = 0; k < f->turn.left; k++) {
            unsigned d = f->turn.at[k] - '0';
            if (d > 9) return false;
            bits = 10 * bits + d;
        }
        if (bits > 255) return false;
    }
    unsigned first = bits & 3, second = bits >> 2 & 3;
    if (first > 2 || second > 2 || first == second) return false;
    t->column[0] = first;
    t->column[1] = second;
    t->column[2] = 3 - first - second;
    for (int k = 0; k < 3; k++) t->sign[k] = bits >> (4 + k) & 1 ? -1 : 1;
    return true;
}

static bool move_of(const struct frame *f, int32_t *v)
{
    v[0] = v[1] = v[2] = 0;
    if (!f->has_move) return true;
    const uint8_t *p = f->move.at, *end = p + f->move.left;
    for (int k = 0; k < 3; k++) {
        bool below = p < end && *p == '-';
        p += below;
        int digits = 0;
        for (; p < end && *p >= '0' && *p <= '9' && digits < 7; p++, digits++) v[k] = 10 * v[k] + (*p - '0');
        if (digits < 1 || digits > 6) return false;
        if (below) v[k] = -v[k];
        if (k < 2 && (p == end || *p++ != ' ')) return false;
    }
    return p == end;
}

enum does { MOVES, GROUPS, SHOWS };

struct node {
    uint32_t id, child, count;
    enum does does;
    const uint8_t *children;
    bool shows;
    struct turning turning;
    int32_t move[3];
};

struct model { uint32_t size[3]; const uint8_t *voxels; uint32_t length; };

struct placed { uint32_t model; struct turning turning; int64_t at[3]; };

static struct node *nodes;
static size_t number_of_nodes, room_for_nodes;
static uint32_t *table;
static size_t table_size;
static struct model models[1024];
static size_t number_of_models;
static struct placed placed[1024];
static size_t number_placed, visits;
static uint32_t fault_kind, fault_at;

static struct node *find(uint32_t id)
{
    if (!table_size) return NULL;
    for (size_t k = id * 2654435761u & (table_size - 1); table[k]; k = (k + 1) & (table_size - 1))
        if (nodes[table[k] - 1].id == id) return &nodes[table[k] - 1];
    return NULL;
}

static void enter(size_t index)
{
    size_t k = nodes[index].id * 2654435761u & (table_size - 1);
    while (table[k]) k = (k + 1) & (table_size - 1);
    table[k] = index + 1;
}

static void add(const struct node *n)
{
    if (number_of_nodes == room_for_nodes) {
        room_for_nodes = room_for_nodes * 2 + 64;
        nodes = realloc(nodes, room_for_nodes * sizeof *nodes);
    }
    nodes[number_of_nodes++] = *n;
    if (number_of_nodes * 2 > table_size) {
        table_size = table_size * 2 + (table_size ? 0 : 128);
        table = realloc(table, table_size * sizeof *table);
        memset(table, 0, table_size * sizeof *table);
        for (size_t k = 0; k < number_of_nodes; k++) enter(k);
    } else {
        enter(number_of_nodes - 1);
    }
}

static bool refuse(uint32_t kind, uint32_t at)
{
    fault_kind = kind;
    fault_at = at;
    return false;
}

static bool read_node(const uint8_t *name, struct cut c, uint32_t place)
{
    struct node n = { .id = number(&c) };
    struct frame first = { 0 };
    dictionary(&c, NULL);
    if (!memcmp(name, "nTRN", 4)) {
        n.does = MOVES;
        n.child = number(&c);
        number(&c);
        number(&c);
        uint32_t frames = number(&c);
        for (uint32_t k = 0; c.fits && k < frames; k++) dictionary(&c, k ? NULL : &first);
    } else if (!memcmp(name, "nGRP", 4)) {
        n.does = GROUPS;
        n.count = number(&c);
        n.children = c.at;
        if (c.left / 4 < n.count) c.fits = false;
    } else {
        n.does = SHOWS;
        n.count = number(&c);
        for (uint32_t k = 0; c.fits && k < n.count; k++) {
            uint32_t model = number(&c);
            dictionary(&c, NULL);
            if (!k) { n.child = model; n.shows = true; }
        }
    }
    if (!c.fits) return refuse(1, place);
    if (find(n.id)) return refuse(2, place);
    if (n.does == MOVES) {
        if (!turning_of(&first, &n.turning)) return refuse(3, place);
        if (!move_of(&first, n.move)) return refuse(4, place);
    }
    add(&n);
    return true;
}

static bool read_chunks(const uint8_t *file, size_t length)
{
    uint32_t content, children;
    memcpy(&content, file + 12, 4);
    memcpy(&children, file + 16, 4);
    size_t at = 20 + (size_t)content, end = at + children;
    number_of_nodes = number_of_models = 0;
    if (table) memset(table, 0, table_size * sizeof *table);
    (void)length;
    while (at < end) {
        const uint8_t *name = file + at;
        memcpy(&content, file + at + 4, 4);
        memcpy(&children, file + at + 8, 4);
        struct cut c = { file + at + 12, content, true };
        struct model *m = &models[number_of_models];
        if (!memcmp(name, "SIZE", 4)) memcpy(m->size, c.at, 12);
        if (!memcmp(name, "XYZI", 4)) {
            memcpy(&m->length, c.at, 4);
            m->voxels = c.at + 4;
            number_of_models++;
        }
        if (!memcmp(name, "nTRN", 4) || !memcmp(name, "nGRP", 4) || !memcmp(name, "nSHP", 4))
            if (!read_node(name, c, at)) return false;
        at += 12 + (size_t)content + children;
    }
    return true;
}

static bool visit(uint32_t id, const struct turning *t, const int64_t *at, int depth)
{
    struct node *n = find(id);
    if (!n) return refuse(5, id);
    if (depth == 65) return refuse(6, id);
    bool shows = n->does == SHOWS && n->shows;
    if (++visits == 65537 || (shows && number_placed == 1024)) return refuse(8, id);
    if (shows && n->child >= number_of_models) return refuse(7, id);
    if (shows) {
        struct placed *p = &placed[number_placed++];
        *p = (struct placed){ n->child, *t, { at[0], at[1], at[2] } };
    } else if (n->does == MOVES) {
        struct turning inner;
        int64_t to[3];
        for (int k = 0; k < 3; k++) {
            int c = t->column[k];
            inner.column[k] = n->turning.column[c];
            inner.sign[k] = t->sign[k] * n->turning.sign[c];
            to[k] = at[k] + t->sign[k] * n->move[c];
        }
        return visit(n->child, &inner, to, depth + 1);
    } else if (n->does == GROUPS) {
        for (uint32_t k = 0; k < n->count; k++) {
            uint32_t child;
            memcpy(&child, n->children + 4 * (size_t)k, 4);
            if (!visit(child, t, at, depth + 1)) return false;
        }
    }
    return true;
}

// Writes a turned model's chunks: its colours go into a row with a place each, which is listed then.
static void put_model(struct bytes *out, const struct model *m, const struct turning *t, uint8_t *row)
{
    uint32_t size[3], stride[3], step[3];
    for (int k = 0; k < 3; k++) size[k] = m->size[t->column[k]];
    stride[0] = 1;
    stride[1] = size[0];
    stride[2] = size[0] * size[1];
    size_t places = (size_t)size[0] * size[1] * size[2];
    memset(row, 0, places);
    uint32_t base = 0;
    for (int k = 0; k < 3; k++) {
        step[t->column[k]] = t->sign[k] < 0 ? -stride[k] : stride[k];
        if (t->sign[k] < 0) base += (size[k] - 1) * stride[k];
    }
    for (uint32_t k = 0; k < m->length; k++) {
        const uint8_t *v = m->voxels + 4 * (size_t)k;
        row[(uint32_t)(base + v[0] * step[0] + v[1] * step[1] + v[2] * step[2])] = v[3];
    }
    size_t head = out->length;
    need(out, 40 + 4 * (size_t)m->length);
    put(out, "SIZE\x0c\0\0\0\0\0\0\0", 12);
    for (int k = 0; k < 3; k++) put_number(out, size[k]);
    put(out, "XYZI\0\0\0\0\0\0\0\0\0\0\0\0", 16);
    uint8_t *to = out->at + out->length;
    const uint8_t *from = row;
    for (uint32_t z = 0; z < size[2]; z++)
        for (uint32_t y = 0; y < size[1]; y++)
            for (uint32_t x = 0; x < size[0]; x++, from++)
                if (*from) {
                    to[0] = x;
                    to[1] = y;
                    to[2] = z;
                    to[3] = *from;
                    to += 4;
                }
    out->length = to - out->at;
    uint32_t number = (out->length - head - 40) / 4, content = 4 + 4 * number;
    memcpy(out->at + head + 28, &content, 4);
    memcpy(out->at + head + 36, &number, 4);
}

static uint32_t cells_of(const struct model *m, uint8_t *row)
{
    size_t places = (size_t)m->size[0] * m->size[1] * m->size[2];
    uint32_t cells = 0;
    memset(row, 0, places);
    for (uint32_t k = 0; k < m->length; k++) {
        const uint8_t *v = m->voxels + 4 * (size_t)k;
        uint8_t *c = &row[(v[2] * m->size[1] + v[1]) * m->size[0] + v[0]];
        cells += !!v[3] - !!*c;
        *c = v[3];
    }
    return cells;
}

static void say(struct bytes *out, const uint8_t *file, size_t length, uint8_t *row)
{
    static uint32_t cells[1024];
    static int64_t corner[1024][3];
    static const struct turning rest = { { 0, 1, 2 }, { 1, 1, 1 } };
    char line[64];
    number_placed = visits = 0;
    bool good = read_chunks(file, length);
    if (good && number_of_nodes) {
        good = visit(0, &rest, (int64_t[]){ 0, 0, 0 }, 1);
    } else if (good) {
        for (; number_placed < number_of_models; number_placed++)
            placed[number_placed] = (struct placed){ number_placed, rest, { 0 } };
    }
    if (good) {
        int64_t least[3] = { 0 }, most = 4;
        uint64_t total = 20;
        for (size_t k = 0; k < number_of_models; k++) cells[k] = cells_of(&models[k], row);
        for (size_t k = 0; k < number_placed; k++) {
            total += 40 + 4 * (uint64_t)cells[placed[k].model];
            for (int j = 0; j < 3; j++) {
                uint32_t extent = models[placed[k].model].size[placed[k].turning.column[j]];
                corner[k][j] = number_of_nodes ? placed[k].at[j] - extent / 2 : 0;
                if (!k || corner[k][j] < least[j]) least[j] = corner[k][j];
            }
        }
        for (size_t k = 0; k < number_placed; k++)
            for (int j = 0; j < 3; j++) {
                corner[k][j] -= least[j];
                int64_t end = corner[k][j] + models[placed[k].model].size[placed[k].turning.column[j]];
                if (end > most) most = end;
            }
        if (most > 4096 || total > 268435456) {
            good = refuse(9, 0);
        } else {
            int side = 4;
            while (side < most) side *= 2;
            put(out, line, sprintf(line, "side %d placements %zu\n", side, number_placed));
            need(out, total);
            put(out, "VOX \x96\0\0\0MAIN\0\0\0\0", 16);
            put_number(out, total - 20);
            for (size_t k = 0; k < number_placed; k++) put_model(out, &models[placed[k].model], &placed[k].turning, row);
            for (size_t k = 0; k < number_placed; k++)
                put(out, line, sprintf(line, "stamp %zu %d %d %d\n", k, (int)corner[k][0], (int)corner[k][1], (int)corner[k][2]));
        }
    }
    if (!good) put(out, line, sprintf(line, "fault %u %u\n", fault_kind, fault_at));
}

static double now(void)
{
    struct timespec t;
    clock_gettime(CLOCK_MONOTONIC, &t);
    return t.tv_sec * 1e6 + t.tv_nsec / 1e3;
}

int main(void)
{
    FILE *f = fopen("scenes.in", "rb");
    struct bytes in = { 0 }, out = { 0 };
    uint8_t part[65536], *row = malloc(1 << 24);
    size_t n;
    double best = 1e18;
    if (!f || !row) return 125;
    while ((n = fread(part, 1, sizeof part, f))) put(&in, part, n);
    fclose(f);
    for (int round = 0; round < 5; round++) {
        free(out.at);
        out = (struct bytes){ 0 };
        double start = now();
        for (size_t at = 0; at + 4 <= in.length;) {
            uint32_t length;
            memcpy(&length, in.at + at, 4);
            say(&out, in.at + at + 4, length, row);
            at += 4 + (size_t)length;
        }
        double took = now() - start;
        if (took < best) best = took;
    }
    printf("%.0f %zu\n", best, out.length);
    f = fopen("peer.out", "wb");
    return !f || fwrite(out.at, 1, out.length, f) != out.length || fclose(f) ? 125 : 0;
}
