/* Each allocation of a short session fails in turn. The status is NO_MEMORY then, and nothing changed. */
#include "voxdag.h"
#include <stdio.h>
#include <stdlib.h>

static long left = -1;

/* The library's allocations come here (tools/test-library links it so); after `left` of them the next one fails. */
void *__real_malloc(size_t size);
void *__wrap_malloc(size_t size);
void *__wrap_malloc(size_t size)
{
    if (left == 0) { left = -1; return NULL; }
    if (left > 0) left--;
    return __real_malloc(size);
}

void *__real_realloc(void *old, size_t size);
void *__wrap_realloc(void *old, size_t size);
void *__wrap_realloc(void *old, size_t size)
{
    if (left == 0) { left = -1; return NULL; }
    if (left > 0) left--;
    return __real_realloc(old, size);
}

static const voxdag_box part = {{0, 0, 0}, {8, 8, 8}};
static const voxdag_place far = {7, 7, 7};

/* Opens, fills, saves, shows and lists versions with the nth allocation failing. 0: none failed; 1: told as it should be; 2: wrong. */
static int session(long n)
{
    voxdag_world w = VOXDAG_CLOSED;
    static uint8_t out[4096];
    static voxdag_shown seen[296];
    size_t needed = 7;
    uint64_t cells = 0;
    uint32_t newest = 7;
    left = n;
    voxdag_status s = voxdag_open(&w, 16);
    if (s != VOXDAG_OK) return s == VOXDAG_NO_MEMORY && voxdag_close(&w) == VOXDAG_IS_CLOSED ? 1 : 2;
    int failed = 0;
    /* More records than there is room for at the start, so that a change wants memory too. */
    for (uint32_t k = 0; k < 1500; k++) {
        s = voxdag_fill(&w, &part);
        if (s == VOXDAG_NO_MEMORY) {
            failed = 1;
            if (voxdag_newest(&w, &newest) || newest != k || voxdag_fill(&w, &part)) return 2;
        } else if (s != VOXDAG_OK) return 2;
    }
    s = voxdag_save(&w, 1500, &part, out, sizeof out, &needed);
    if (s == VOXDAG_NO_MEMORY) {
        failed = 1;
        if (needed != 7 || voxdag_save(&w, 1500, &part, out, sizeof out, &needed)) return 2;
    } else if (s != VOXDAG_OK) return 2;
    needed = 7;
    s = voxdag_surface(&w, 1500, &part, seen, 296, &needed);
    if (s == VOXDAG_NO_MEMORY) {
        failed = 1;
        if (needed != 7 || voxdag_surface(&w, 1500, &part, seen, 296, &needed)) return 2;
    } else if (s != VOXDAG_OK) return 2;
    needed = 7;
    s = voxdag_flood(&w, 1500, &part, &far, &cells, out, sizeof out, &needed);
    if (s == VOXDAG_NO_MEMORY) {
        failed = 1;
        if (cells || needed != 7 || voxdag_flood(&w, 1500, &part, &far, &cells, out, sizeof out, &needed)) return 2;
    } else if (s != VOXDAG_OK) return 2;
    needed = 7;
    s = voxdag_dag(&w, out, sizeof out, &needed);
    if (s == VOXDAG_NO_MEMORY) {
        failed = 1;
        /* The file has 8 bytes for each of 1,501 versions, and more. */
        if (needed != 7 || voxdag_dag(&w, out, sizeof out, &needed) != VOXDAG_TOO_SMALL) return 2;
    } else if (s != VOXDAG_TOO_SMALL) return 2;
    needed = 7;
    s = voxdag_journal(&w, out, sizeof out, &needed);
    if (s == VOXDAG_NO_MEMORY) {
        failed = 1;
        if (needed != 7) return 2;
    } else if (s != VOXDAG_TOO_SMALL) return 2;
    left = -1;
    if (voxdag_count(&w, 1500, &part, &cells) || cells != 512 || voxdag_close(&w)) return 2;
    return failed;
}

/* The same of a journal with a forgotten version that is gone on with. */
static int going_on(long n)
{
    static const char text[] = "voxdag journal 1\nside 16\n1 0 1 fill 0 0 0 8 8 8\n2 0 2 undo\n3 0 3 redo\nmark 1 3 0 4\nend\n";
    const voxdag_plan usual = {0, 0, 0, 0};
    voxdag_world w = VOXDAG_CLOSED;
    uint64_t cells = 0;
    uint32_t line = 7;
    left = n;
    voxdag_status s = voxdag_open_journal(&w, &usual, NULL, 0, (const uint8_t *)text, sizeof text - 1, &line);
    left = -1;
    if (line != 7) return 2;
    if (s != VOXDAG_OK) return s == VOXDAG_NO_MEMORY && voxdag_close(&w) == VOXDAG_IS_CLOSED ? 1 : 2;
    return voxdag_count(&w, 3, &part, &cells) || cells != 512 || voxdag_close(&w) ? 2 : 0;
}

/* The same of a scene without nodes, where a model of one cell stands once. */
static int scene(long n)
{
    static const uint8_t file[] = {
        'V', 'O', 'X', ' ', 150, 0, 0, 0, 'M', 'A', 'I', 'N', 0, 0, 0, 0, 44, 0, 0, 0, 'S', 'I', 'Z', 'E', 12, 0, 0, 0, 0, 0, 0, 0, 1, 0, 0, 0, 1, 0, 0, 0, 1, 0, 0, 0,
        'X', 'Y', 'Z', 'I', 8, 0, 0, 0, 0, 0, 0, 0, 1, 0, 0, 0, 0, 0, 0, 5,
    };
    const voxdag_plan usual = {0, 0, 0, 0};
    voxdag_world w = VOXDAG_CLOSED;
    voxdag_scene told = {7, 7, 7};
    const voxdag_box all = {{0, 0, 0}, {4, 4, 4}};
    uint64_t cells = 0;
    left = n;
    voxdag_status s = voxdag_open_scene(&w, &usual, file, sizeof file, &told);
    left = -1;
    if (s != VOXDAG_OK) return s == VOXDAG_NO_MEMORY && told.placements == 7 && told.at == 7 && voxdag_close(&w) == VOXDAG_IS_CLOSED ? 1 : 2;
    return told.placements != 1 || voxdag_count(&w, 1, &all, &cells) || cells != 1 || voxdag_close(&w) ? 2 : 0;
}

/* The same of a file of versions, whose questions want no memory. */
static int held(long n)
{
    /* Side 4, two versions, one leaf: version 0 has nothing, and version 2 the leaf with all cells. */
    static const uint8_t file[] = {
        'V', 'D', 'A', 'G', 1, 0, 0, 0, 4, 0, 0, 0, 2, 0, 0, 0, 1, 0, 0, 0, 255, 255, 255, 255, 255, 255, 255, 255,
        0, 0, 0, 0, 0, 0, 0, 0, 2, 0, 0, 0, 1, 0, 0, 0,
    };
    const voxdag_box all = {{0, 0, 0}, {4, 4, 4}};
    voxdag_versions v = VOXDAG_NO_VERSIONS;
    static uint8_t out[512];
    size_t needed = 7;
    uint64_t cells = 0, at = 7;
    left = n;
    voxdag_status s = voxdag_versions_open(&v, file, sizeof file, &at);
    if (at != 7) return 2;
    if (s != VOXDAG_OK) return s == VOXDAG_NO_MEMORY && left == -1 && voxdag_versions_close(&v) == VOXDAG_IS_CLOSED ? 1 : 2;
    int failed = 0;
    s = voxdag_versions_save(&v, 2, &all, out, sizeof out, &needed);
    if (s == VOXDAG_NO_MEMORY) {
        failed = 1;
        if (needed != 7 || voxdag_versions_save(&v, 2, &all, out, sizeof out, &needed)) return 2;
    } else if (s != VOXDAG_OK) return 2;
    left = 0;
    s = voxdag_versions_count(&v, 2, &all, &cells);
    left = -1;
    return s || cells != 64 || needed != 60 + 4 * 64 || voxdag_versions_close(&v) ? 2 : failed;
}

/* The same of a world with tints, up to the file of a box and what can be seen of it. */
static int tinted(long n)
{
    const voxdag_plan kind = {16, 0, 0, 1};
    voxdag_world w = VOXDAG_CLOSED;
    static uint8_t out[4096];
    static voxdag_shown seen[512];
    size_t needed = 7, many = 7;
    int failed = 0;
    left = n;
    voxdag_status s = voxdag_open_as(&w, &kind, NULL, 0);
    if (s != VOXDAG_OK) return s == VOXDAG_NO_MEMORY && voxdag_close(&w) == VOXDAG_IS_CLOSED ? 1 : 2;
    s = voxdag_fill_tint(&w, &part, 7);
    if (s == VOXDAG_NO_MEMORY) {
        failed = 1;
        if (voxdag_fill_tint(&w, &part, 7)) return 2;
    } else if (s != VOXDAG_OK) return 2;
    s = voxdag_save(&w, 1, &part, out, sizeof out, &needed);
    if (s == VOXDAG_NO_MEMORY) {
        failed = 1;
        if (needed != 7 || voxdag_save(&w, 1, &part, out, sizeof out, &needed)) return 2;
    } else if (s != VOXDAG_OK) return 2;
    s = voxdag_surface(&w, 1, &part, seen, 512, &many);
    if (s == VOXDAG_NO_MEMORY) {
        failed = 1;
        if (many != 7 || voxdag_surface(&w, 1, &part, seen, 512, &many)) return 2;
    } else if (s != VOXDAG_OK) return 2;
    left = -1;
    /* 8 x 8 x 8 cells of four bytes behind the 60 of what comes first, each with its tint as its last byte; all but 6 x 6 x 6 are seen. */
    return needed != 60 + 4 * 512 || out[63] != 7 || many != 512 - 216 || seen[295].tint != 7 || voxdag_close(&w) ? 2 : failed;
}

int main(void)
{
    long n = 0, told;
    while ((told = session(n)) == 1) n++;
    if (told) printf("memory: allocation %ld is wrongly told\n", n);
    if (told || n < 5) return 1;
    long m = 0;
    while ((told = going_on(m)) == 1) m++;
    if (told) printf("memory: allocation %ld of a journal is wrongly told\n", m);
    if (told || m < 5) return 1;
    long l = 0;
    while ((told = scene(l)) == 1) l++;
    if (told) printf("memory: allocation %ld of a scene is wrongly told\n", l);
    if (told || l < 5) return 1;
    long h = 0;
    while ((told = held(h)) == 1) h++;
    if (told) printf("memory: allocation %ld of a file of versions is wrongly told\n", h);
    if (told || h < 2) return 1;
    long k = 0;
    while ((told = tinted(k)) == 1) k++;
    if (told) printf("memory: allocation %ld of a world with tints is wrongly told\n", k);
    else printf("memory: %ld allocations failed in turn\n", n + m + l + h + k);
    return told != 0 || k < 5;
}
