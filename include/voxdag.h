/* voxdag.h: a proved voxel world with versions, for C and C++.
 *
 * A world is a cube of SIDE cells on each axis, each of them set or clear; in a world with tints a
 * set cell has one of 255. Every change that is accepted makes a version; version 0 is the empty
 * world, and any version can be asked until it is forgotten. Coordinates count cells; z is up.
 * docs/LIBRARY.md says how to build and link.
 *
 * OWNERSHIP. A voxdag_world is a struct that the caller owns: begin with VOXDAG_CLOSED, hand its
 * address to every call, and read and write none of its fields. Don't copy it, and close it before
 * it goes. It may be moved (the old bytes are never used again). After voxdag_close it is a closed
 * one again, which every call but voxdag_open refuses.
 *
 * ARGUMENTS. Every number is tested, whatever it is, and a status says what was wrong with it; so
 * is every pointer for null, by the functions of this header: what the library exports takes no
 * null. What can't be tested: a pointer that isn't null points to one value of its type (a buffer:
 * to `size` bytes), which nothing else reads or writes during the call; an output doesn't overlap
 * another argument; a voxdag_world is one that these functions left, or VOXDAG_CLOSED.
 *
 * OUTPUTS are written where a comment says so, and else stay what they were. They need not be
 * initialized. A call that answers anything but VOXDAG_OK changed no version, forgot none, and made
 * none.
 *
 * MEMORY. A world takes all memory of its store when it is opened (docs/LIBRARY.md says how much).
 * Opening, any change, saving, surfaces, regions, the journal and the file of versions may answer
 * VOXDAG_NO_MEMORY at any time, and then nothing changed: that memory is there is nothing a library can
 * promise. Closing, forgetting and questions never do. No call ends the program, waits or prints.
 * malloc, realloc and free are those of the program: of one allocator, and aligned as C asks.
 *
 * VERSIONS. A voxdag_versions holds a file of versions (docs/DAG_FILES.md) that is only asked. What is
 * said here of a voxdag_world holds of it too; its calls are the last ones of this header.
 *
 * THREADS. One call at a time on each world: keep it on one thread, or put a lock of your own round
 * each call; then a world may go from thread to thread. Different worlds have nothing in common.
 * Not from a signal handler, nor in the forked child of a process with threads.
 */
#ifndef VOXDAG_H
#define VOXDAG_H

#include <stdbool.h>
#include <stddef.h>
#include <stdint.h>

#ifdef __cplusplus
extern "C" {
#endif

typedef uint32_t voxdag_status;

enum {
    VOXDAG_OK = 0,              /* it was done */
    VOXDAG_IS_CLOSED = 1,       /* no world is open here */
    VOXDAG_NO_MEMORY = 2,       /* want of memory */
    VOXDAG_OUTSIDE = 3,         /* a place, box, ball or model leaves the world, or a size is 0 */
    VOXDAG_NO_VERSION = 4,      /* there is no such version yet */
    VOXDAG_FORGOTTEN = 5,       /* the version was forgotten */
    VOXDAG_NOTHING_TO_UNDO = 6, /* no change is left to undo */
    VOXDAG_NOTHING_TO_REDO = 7, /* no undo is left to take back */
    VOXDAG_HISTORY_FULL = 8,    /* there are 65,535 records, the most that a history has */
    VOXDAG_STORE_FULL = 9,      /* a bucket of the store has no room for what the change needs */
    VOXDAG_IS_NEWEST = 10,      /* the newest version can't be forgotten */
    VOXDAG_TOO_SMALL = 11,      /* the buffer is too small for what is to be written */
    VOXDAG_BAD_PLAN = 12,       /* no side of a world, or no number of slots of a bucket */
    VOXDAG_IS_OPEN = 13,        /* a world is open here, and stays open */
    VOXDAG_NO_MODEL = 14,       /* there is no model of this number */
    VOXDAG_BAD_FILE = 15,       /* no VOX file whose models can be read, or over 2^28 bytes */
    VOXDAG_BAD_WAY = 16,        /* a ray's step isn't from -1,024 to 1,024, or all of them are 0 */
    VOXDAG_NULL = 17,           /* an argument is null */
    VOXDAG_BAD_JOURNAL = 18,    /* no journal: the first line that doesn't fit is told */
    VOXDAG_NOT_LEGAL = 19,      /* a record of the journal breaks a rule: its line is told */
    VOXDAG_OTHER_KIND = 20,     /* a call for worlds with tints where cells have none, or the reverse */
    VOXDAG_BAD_TINT = 21,       /* a tint isn't from 1 to 255 */
    VOXDAG_BAD_SCENE = 22,      /* the file's scene breaks a rule: which, and where, is told */
    VOXDAG_BAD_DAG = 23         /* no file of versions: the place of its first fault is told */
};

/* All bytes 0: no world is open. */
typedef struct voxdag_world {
    bool is_open;
    void *at;
} voxdag_world;

/* The same of a file of versions. */
typedef struct voxdag_versions {
    bool is_open;
    void *at;
} voxdag_versions;

#ifdef __cplusplus
#define VOXDAG_CLOSED voxdag_world{}
#define VOXDAG_NO_VERSIONS voxdag_versions{}
#else
#define VOXDAG_CLOSED ((voxdag_world){0})
#define VOXDAG_NO_VERSIONS ((voxdag_versions){0})
#endif

/* A place, or a size, in cells. A negative number is a very large one here, and so is refused. */
typedef struct voxdag_place { uint32_t x, y, z; } voxdag_place;

/* A box: its least corner and its size, which is at least 1 on each axis. */
typedef struct voxdag_box { voxdag_place at, size; } voxdag_box;

/* A cell that can be seen: its place from a box's corner on, its tint (1 in a world without tints),
 * and the sides beside which nothing is set: bits 0 to 5 for -x, +x, -y, +y, -z and +z. */
typedef struct voxdag_shown { uint8_t x, y, z, tint, sides; } voxdag_shown;

/* How a world is opened. What is 0 is as usual. */
typedef struct voxdag_plan {
    uint32_t side;  /* 4, 8, 16, .., 4096, and with tints 1024 at most */
    uint32_t cap;   /* how many nodes a bucket of the store has room for, 1 to 256; 0: 128 */
    uint32_t keep;  /* how many of the last versions are kept, as by `voxdag run --keep`; 0: all */
    uint32_t tints; /* 0: cells are set or clear; 1: set cells have tints */
} voxdag_plan;

/* What is told of a file's scene: how many models stand in it, and 0 and 0; or 0, and the kind and the
 * place of its first fault, as docs/FLOODS_AND_SCENES.md has them. */
typedef struct voxdag_scene { uint32_t placements, kind, at; } voxdag_scene;

/* What the library exports. These test all but null, and a bool that they are given is 0 or 1: call
 * the functions below. */
voxdag_status voxdag_c_open(voxdag_world *w, uint32_t side, uint16_t cap, const uint8_t *file, size_t size);
voxdag_status voxdag_c_open_as(voxdag_world *w, uint32_t side, uint16_t cap, uint32_t keep, bool tint,
                               const uint8_t *file, size_t size);
voxdag_status voxdag_c_open_journal(voxdag_world *w, uint16_t cap, uint32_t keep, const uint8_t *file, size_t size,
                                    const uint8_t *journal, size_t length, uint32_t *line);
voxdag_status voxdag_c_open_scene(voxdag_world *w, uint32_t side, uint16_t cap, uint32_t keep, bool tint,
                                  const uint8_t *file, size_t size, voxdag_scene *scene);
voxdag_status voxdag_c_close(voxdag_world *w);
voxdag_status voxdag_c_fill(voxdag_world *w, const voxdag_box *part);
voxdag_status voxdag_c_erase(voxdag_world *w, const voxdag_box *part);
voxdag_status voxdag_c_ball(voxdag_world *w, const voxdag_place *centre, uint32_t radius);
voxdag_status voxdag_c_carve(voxdag_world *w, const voxdag_place *centre, uint32_t radius);
voxdag_status voxdag_c_fill_tint(voxdag_world *w, const voxdag_box *part, uint32_t tint);
voxdag_status voxdag_c_ball_tint(voxdag_world *w, const voxdag_place *centre, uint32_t radius, uint32_t tint);
voxdag_status voxdag_c_copy(voxdag_world *w, const voxdag_box *part, const voxdag_place *to);
voxdag_status voxdag_c_stamp(voxdag_world *w, uint16_t model, const voxdag_place *at);
voxdag_status voxdag_c_undo(voxdag_world *w);
voxdag_status voxdag_c_redo(voxdag_world *w);
voxdag_status voxdag_c_forget(voxdag_world *w, uint32_t version);
voxdag_status voxdag_c_newest(voxdag_world *w, uint32_t *version);
voxdag_status voxdag_c_about(voxdag_world *w, voxdag_plan *plan);
voxdag_status voxdag_c_model_size(voxdag_world *w, uint16_t model, voxdag_place *size);
voxdag_status voxdag_c_get(voxdag_world *w, uint32_t version, const voxdag_place *at, bool *set);
voxdag_status voxdag_c_colour(voxdag_world *w, uint32_t version, const voxdag_place *at, uint8_t *tint);
voxdag_status voxdag_c_count(voxdag_world *w, uint32_t version, const voxdag_box *part, uint64_t *cells);
voxdag_status voxdag_c_faces(voxdag_world *w, uint32_t version, const voxdag_box *part, uint64_t *faces);
voxdag_status voxdag_c_bounds(voxdag_world *w, uint32_t version, bool *some, voxdag_box *least);
voxdag_status voxdag_c_ray(voxdag_world *w, uint32_t version, const voxdag_place *from, int16_t dx, int16_t dy, int16_t dz,
                           bool *some, voxdag_place *hit);
voxdag_status voxdag_c_same(voxdag_world *w, uint32_t a, uint32_t b, bool *same);
voxdag_status voxdag_c_save(voxdag_world *w, uint32_t version, const voxdag_box *part, uint8_t *out, size_t size, size_t *needed);
voxdag_status voxdag_c_journal(voxdag_world *w, uint8_t *out, size_t size, size_t *needed);
voxdag_status voxdag_c_dag(voxdag_world *w, uint8_t *out, size_t size, size_t *needed);
voxdag_status voxdag_c_changes(voxdag_world *w, uint32_t a, uint32_t b, bool *some, voxdag_box *least);
voxdag_status voxdag_c_surface(voxdag_world *w, uint32_t version, const voxdag_box *part, voxdag_shown *out, size_t room,
                               size_t *needed);
voxdag_status voxdag_c_flood(voxdag_world *w, uint32_t version, const voxdag_box *part, const voxdag_place *from,
                             uint64_t *cells, uint8_t *out, size_t size, size_t *needed);
voxdag_status voxdag_c_versions_open(voxdag_versions *v, const uint8_t *file, size_t size, uint64_t *at);
voxdag_status voxdag_c_versions_close(voxdag_versions *v);
voxdag_status voxdag_c_versions_side(voxdag_versions *v, uint32_t *side);
voxdag_status voxdag_c_versions_newest(voxdag_versions *v, uint32_t *version);
voxdag_status voxdag_c_versions_get(voxdag_versions *v, uint32_t version, const voxdag_place *at, bool *set);
voxdag_status voxdag_c_versions_count(voxdag_versions *v, uint32_t version, const voxdag_box *part, uint64_t *cells);
voxdag_status voxdag_c_versions_faces(voxdag_versions *v, uint32_t version, const voxdag_box *part, uint64_t *faces);
voxdag_status voxdag_c_versions_bounds(voxdag_versions *v, uint32_t version, bool *some, voxdag_box *least);
voxdag_status voxdag_c_versions_ray(voxdag_versions *v, uint32_t version, const voxdag_place *from, int16_t dx, int16_t dy,
                                    int16_t dz, bool *some, voxdag_place *hit);
voxdag_status voxdag_c_versions_same(voxdag_versions *v, uint32_t a, uint32_t b, bool *same);
voxdag_status voxdag_c_versions_changes(voxdag_versions *v, uint32_t a, uint32_t b, bool *some, voxdag_box *least);
voxdag_status voxdag_c_versions_save(voxdag_versions *v, uint32_t version, const voxdag_box *part, uint8_t *out, size_t size,
                                     size_t *needed);
voxdag_status voxdag_c_versions_surface(voxdag_versions *v, uint32_t version, const voxdag_box *part, voxdag_shown *out,
                                        size_t room, size_t *needed);
voxdag_status voxdag_c_versions_flood(voxdag_versions *v, uint32_t version, const voxdag_box *part, const voxdag_place *from,
                                      uint64_t *cells, uint8_t *out, size_t size, size_t *needed);

/* ---- Opening and closing */

/* Opens an empty world. side: 4, 8, 16, .., 4096. cap: how many nodes a bucket of the store has
 * room for, 1 to 256, and 0 for the usual 128. file: the bytes of a VOX file whose models can be
 * stamped, which are read here and not kept; null with size 0 for no models.
 *   IS_OPEN     exactly where w has a world already
 *   BAD_PLAN    exactly where no world has this side, or no bucket this cap
 *   BAD_FILE    a rule of VOX files is broken, or size is over 2^28
 *   NO_MEMORY   at any other time */
static inline voxdag_status voxdag_open_with(voxdag_world *w, uint32_t side, uint32_t cap, const uint8_t *file, size_t size)
{
    static const uint8_t none = 0;
    if (!w || (!file && size)) return VOXDAG_NULL;
    if (w->is_open) return VOXDAG_IS_OPEN;
    if (cap > 256) return VOXDAG_BAD_PLAN;
    return voxdag_c_open(w, side, (uint16_t)cap, file ? file : &none, size);
}

/* The same with the usual cap and no models. */
static inline voxdag_status voxdag_open(voxdag_world *w, uint32_t side)
{
    return voxdag_open_with(w, side, 0, NULL, 0);
}

/* The same by a plan. With plan->keep, each change that is made forgets the version that then falls
 * out of so many last ones, unless it is forgotten already. BAD_PLAN also where tints is neither 0
 * nor 1, and where it is 1 and the side over 1,024. */
static inline voxdag_status voxdag_open_as(voxdag_world *w, const voxdag_plan *plan, const uint8_t *file, size_t size)
{
    static const uint8_t none = 0;
    if (!w || !plan || (!file && size)) return VOXDAG_NULL;
    if (w->is_open) return VOXDAG_IS_OPEN;
    if (plan->cap > 256 || plan->tints > 1) return VOXDAG_BAD_PLAN;
    return voxdag_c_open_as(w, plan->side, (uint16_t)plan->cap, plan->keep, plan->tints == 1, file ? file : &none, size);
}

/* Opens the world that stands behind a journal, as when its last command was done: with its versions
 * and forgotten versions, and with what can be undone and redone. voxdag_journal gives its bytes
 * again. Side and tints are the journal's: plan->side and plan->tints aren't looked at; plan->keep
 * counts from the next change on. file and size as above: the models that the journal stamps. A
 * journal that `voxdag run` wrote will do as well.
 *   IS_OPEN      exactly where w has a world already
 *   BAD_PLAN     exactly where no bucket has this cap
 *   BAD_FILE     a rule of VOX files is broken, or size is over 2^28
 *   BAD_JOURNAL  *line: the first line that doesn't fit, from 1
 *   NOT_LEGAL    *line: that of the first record whose act leaves the world or stamps no model, or
 *                which is an undo or a redo with no version to go to, or with a forgotten one
 *   STORE_FULL   a bucket has no room for what a record needs
 *   NO_MEMORY    at any other time. *line is written with BAD_JOURNAL and NOT_LEGAL alone */
static inline voxdag_status voxdag_open_journal(voxdag_world *w, const voxdag_plan *plan, const uint8_t *file, size_t size,
                                                const uint8_t *journal, size_t length, uint32_t *line)
{
    static const uint8_t none = 0;
    if (!w || !plan || !line || (!file && size) || (!journal && length)) return VOXDAG_NULL;
    if (w->is_open) return VOXDAG_IS_OPEN;
    if (plan->cap > 256) return VOXDAG_BAD_PLAN;
    return voxdag_c_open_journal(w, (uint16_t)plan->cap, plan->keep, file ? file : &none, size, journal ? journal : &none, length, line);
}

/* Opens the world of a VOX file's scene, as `voxdag scene` reads it: its turned models are the world's,
 * by their order, and version n is version n - 1 with model n - 1 stamped where it stands. plan->side 0
 * is the least side that holds the scene; plan->keep counts from the next change on.
 *   IS_OPEN      exactly where w has a world already
 *   BAD_PLAN     exactly where voxdag_open_as would say so, but for a side of 0
 *   BAD_FILE     a rule of VOX files is broken, or size is over 2^28
 *   BAD_SCENE    *scene: what is wrong with the scene, and where
 *   OUTSIDE      a model leaves the world; or side 0 was asked for, with tints, and is over 1,024
 *   STORE_FULL   a bucket has no room for what a stamp needs
 *   NO_MEMORY    at any other time. *scene is written with OK and BAD_SCENE alone */
static inline voxdag_status voxdag_open_scene(voxdag_world *w, const voxdag_plan *plan, const uint8_t *file, size_t size,
                                              voxdag_scene *scene)
{
    static const uint8_t none = 0;
    if (!w || !plan || !scene || (!file && size)) return VOXDAG_NULL;
    if (w->is_open) return VOXDAG_IS_OPEN;
    if (plan->cap > 256 || plan->tints > 1) return VOXDAG_BAD_PLAN;
    return voxdag_c_open_scene(w, plan->side, (uint16_t)plan->cap, plan->keep, plan->tints == 1, file ? file : &none, size, scene);
}

/* Closes the world and gives its memory back. IS_CLOSED where there was none. */
static inline voxdag_status voxdag_close(voxdag_world *w)
{
    if (!w) return VOXDAG_NULL;
    return voxdag_c_close(w);
}

/* ---- Changes
 *
 * With OK there is one version more, whose number is the newest one's and one: it has the cells of
 * the newest version but for what the change says, and every earlier version has what it had.
 * With anything else no version came:
 *   IS_CLOSED      exactly where no world is open
 *   NO_MODEL       exactly where the model isn't there
 *   OUTSIDE        exactly where a change whose model is there leaves the world
 *   NO_MEMORY      at any other change: nothing promises that it doesn't come
 *   STORE_FULL     a bucket has no room for what the change needs; the world can still be asked.
 *                  Never at an undo or a redo
 *   HISTORY_FULL   only where there are 65,535 records already, and there OK never comes */

/* Sets, or clears, the cells of a box that lies in the world. In a world with tints what is set by
 * this and by voxdag_ball has tint 1. */
static inline voxdag_status voxdag_fill(voxdag_world *w, const voxdag_box *part)
{
    if (!w || !part) return VOXDAG_NULL;
    return voxdag_c_fill(w, part);
}

static inline voxdag_status voxdag_erase(voxdag_world *w, const voxdag_box *part)
{
    if (!w || !part) return VOXDAG_NULL;
    return voxdag_c_erase(w, part);
}

/* Sets, or clears, the cells of a ball: those whose distance from the centre, a cell of the world,
 * is at most the radius, 0 to 4,095. What lies outside the world is nobody's. */
static inline voxdag_status voxdag_ball(voxdag_world *w, const voxdag_place *centre, uint32_t radius)
{
    if (!w || !centre) return VOXDAG_NULL;
    return voxdag_c_ball(w, centre, radius);
}

static inline voxdag_status voxdag_carve(voxdag_world *w, const voxdag_place *centre, uint32_t radius)
{
    if (!w || !centre) return VOXDAG_NULL;
    return voxdag_c_carve(w, centre, radius);
}

/* Gives the cells of a box, or of a ball, a tint from 1 to 255. Before OUTSIDE come
 *   OTHER_KIND   exactly where the world has no tints
 *   BAD_TINT     exactly where it has, and the number is no tint */
static inline voxdag_status voxdag_fill_tint(voxdag_world *w, const voxdag_box *part, uint32_t tint)
{
    if (!w || !part) return VOXDAG_NULL;
    return voxdag_c_fill_tint(w, part, tint);
}

static inline voxdag_status voxdag_ball_tint(voxdag_world *w, const voxdag_place *centre, uint32_t radius, uint32_t tint)
{
    if (!w || !centre) return VOXDAG_NULL;
    return voxdag_c_ball_tint(w, centre, radius, tint);
}

/* Puts the cells of a box, set and clear ones with their tint, where its least corner goes to `to`.
 * Both boxes lie in the world, and may overlap: what is put is what the box had before. */
static inline voxdag_status voxdag_copy(voxdag_world *w, const voxdag_box *part, const voxdag_place *to)
{
    if (!w || !part || !to) return VOXDAG_NULL;
    return voxdag_c_copy(w, part, to);
}

/* Sets the cells of a model, whose number counts from 0 in its file, with its least corner at `at`.
 * The model's whole size lies in the world. In a world with tints they get the model's colours. */
static inline voxdag_status voxdag_stamp(voxdag_world *w, uint32_t model, const voxdag_place *at)
{
    if (!w || !at) return VOXDAG_NULL;
    return voxdag_c_stamp(w, model > UINT16_MAX ? UINT16_MAX : (uint16_t)model, at);
}

/* The next version has the cells of the one before the last change that isn't undone; redo takes the
 * last undo back, until a change that is no undo and no redo.
 *   NOTHING_TO_UNDO, NOTHING_TO_REDO   where there is no version to go to
 *   FORGOTTEN                          where that version is forgotten
 * In both cases OK never comes; elsewhere neither of them does. */
static inline voxdag_status voxdag_undo(voxdag_world *w)
{
    if (!w) return VOXDAG_NULL;
    return voxdag_c_undo(w);
}

static inline voxdag_status voxdag_redo(voxdag_world *w)
{
    if (!w) return VOXDAG_NULL;
    return voxdag_c_redo(w);
}

/* Forgets a version for good, so that what only it needs makes room. No version comes.
 *   NO_VERSION   exactly where it is above the newest one
 *   FORGOTTEN    exactly where it is forgotten already
 *   IS_NEWEST    exactly where it is the newest one */
static inline voxdag_status voxdag_forget(voxdag_world *w, uint32_t version)
{
    if (!w) return VOXDAG_NULL;
    return voxdag_c_forget(w, version);
}

/* ---- Questions of a version
 *
 * They change nothing. With OK, and with OK alone, the outputs are written. Which status comes is
 * told by the arguments and the world: the first of these whose cause is there, and else OK.
 *   IS_CLOSED    no world is open
 *   OTHER_KIND   a call says that it is for the other kind of world
 *   OUTSIDE      the place or box leaves the world
 *   BAD_WAY      the steps of a ray are none
 *   NO_VERSION   the version is above the newest one (of two: the first one's status comes first)
 *   FORGOTTEN    it is forgotten */

/* The number of the newest version, which is the number of records: 0 to 65,535. */
static inline voxdag_status voxdag_newest(voxdag_world *w, uint32_t *version)
{
    if (!w || !version) return VOXDAG_NULL;
    return voxdag_c_newest(w, version);
}

/* How the world is open: its side, its cap as a number from 1 to 256, how many of its last versions it
 * keeps, 0 for all, and whether its cells have tints. */
static inline voxdag_status voxdag_about(voxdag_world *w, voxdag_plan *plan)
{
    if (!w || !plan) return VOXDAG_NULL;
    return voxdag_c_about(w, plan);
}

/* The size of a model. NO_MODEL exactly where there is none of this number, counted from 0. */
static inline voxdag_status voxdag_model_size(voxdag_world *w, uint32_t model, voxdag_place *size)
{
    if (!w || !size) return VOXDAG_NULL;
    return voxdag_c_model_size(w, model > UINT16_MAX ? UINT16_MAX : (uint16_t)model, size);
}

/* Whether the cell is set. */
static inline voxdag_status voxdag_get(voxdag_world *w, uint32_t version, const voxdag_place *at, bool *set)
{
    bool is = false;
    voxdag_status status;
    if (!w || !at || !set) return VOXDAG_NULL;
    status = voxdag_c_get(w, version, at, &is);
    if (!status) *set = is;
    return status;
}

/* The tint of the cell, 0 where it is clear. OTHER_KIND exactly where the world has no tints. */
static inline voxdag_status voxdag_colour(voxdag_world *w, uint32_t version, const voxdag_place *at, uint8_t *tint)
{
    if (!w || !at || !tint) return VOXDAG_NULL;
    return voxdag_c_colour(w, version, at, tint);
}

/* How many cells of the box are set. */
static inline voxdag_status voxdag_count(voxdag_world *w, uint32_t version, const voxdag_box *part, uint64_t *cells)
{
    if (!w || !part || !cells) return VOXDAG_NULL;
    return voxdag_c_count(w, version, part, cells);
}

/* How many pairs there are of a set cell of the box and one of its six neighbours that isn't set; a
 * neighbour outside the world isn't. */
static inline voxdag_status voxdag_faces(voxdag_world *w, uint32_t version, const voxdag_box *part, uint64_t *faces)
{
    if (!w || !part || !faces) return VOXDAG_NULL;
    return voxdag_c_faces(w, version, part, faces);
}

/* The least box that has all set cells. *some: whether there are any; where not, *least stays. */
static inline voxdag_status voxdag_bounds(voxdag_world *w, uint32_t version, bool *some, voxdag_box *least)
{
    bool are = false;
    voxdag_status status;
    if (!w || !some || !least) return VOXDAG_NULL;
    status = voxdag_c_bounds(w, version, &are, least);
    if (!status) *some = are;
    return status;
}

/* A ray's step as 16 bits; one that is out of range stays so. */
static inline int16_t voxdag_step(int32_t d)
{
    return (int16_t)(d < -1025 ? -1025 : d > 1025 ? 1025 : d);
}

/* The first set cell on the ray from the centre of the cell `from`, which may be that cell itself.
 * The steps are each from -1,024 to 1,024, and not all 0. *some: whether there is one; where not,
 * *hit stays. */
static inline voxdag_status voxdag_ray(voxdag_world *w, uint32_t version, const voxdag_place *from, int32_t dx, int32_t dy, int32_t dz,
                                       bool *some, voxdag_place *hit)
{
    bool is = false;
    voxdag_status status;
    if (!w || !from || !some || !hit) return VOXDAG_NULL;
    status = voxdag_c_ray(w, version, from, voxdag_step(dx), voxdag_step(dy), voxdag_step(dz), &is, hit);
    if (!status) *some = is;
    return status;
}

/* Whether two versions have the same cells, and in a world with tints the same tints. */
static inline voxdag_status voxdag_same(voxdag_world *w, uint32_t a, uint32_t b, bool *same)
{
    bool is = false;
    voxdag_status status;
    if (!w || !same) return VOXDAG_NULL;
    status = voxdag_c_same(w, a, b, &is);
    if (!status) *same = is;
    return status;
}

/* The least box of all cells that one of two versions has and the other hasn't, and in a world with
 * tints of all whose tints differ. *some: whether there are any; where not, *least stays. The two
 * versions come in any order. */
static inline voxdag_status voxdag_changes(voxdag_world *w, uint32_t a, uint32_t b, bool *some, voxdag_box *least)
{
    bool are = false;
    voxdag_status status;
    if (!w || !some || !least) return VOXDAG_NULL;
    status = voxdag_c_changes(w, a, b, &are, least);
    if (!status) *some = are;
    return status;
}

/* ---- Bytes and cells
 *
 * Written at the front of `out` where `size` is enough; the bytes behind them stay. *needed is how
 * many bytes there are, with OK and with TOO_SMALL, so that a first call may come with null and size
 * 0; else it stays.
 *   TOO_SMALL   where size is less than that, and never else; out stays
 *   NO_MEMORY   at any time; out and *needed stay */

/* The VOX file of a box of a version, with one model of the box's size, at most 256 on each axis
 * (OUTSIDE where it is more): each cell has its tint as its colour, and 1 where cells have none.
 * IS_CLOSED, OUTSIDE, NO_VERSION and FORGOTTEN as of questions. */
static inline voxdag_status voxdag_save(voxdag_world *w, uint32_t version, const voxdag_box *part, uint8_t *out, size_t size,
                                        size_t *needed)
{
    uint8_t none = 0;
    if (!w || !part || !needed || (!out && size)) return VOXDAG_NULL;
    return voxdag_c_save(w, version, part, out ? out : &none, size, needed);
}

/* The set cells of a box of a version that have an unset cell or the world's outside beside them, by
 * rising z, then y, then x, each with its tint. Here *needed and `room` count cells. The box has at
 * most 256 on each axis (OUTSIDE where it is more). IS_CLOSED, OUTSIDE, NO_VERSION and FORGOTTEN as of
 * questions. */
static inline voxdag_status voxdag_surface(voxdag_world *w, uint32_t version, const voxdag_box *part, voxdag_shown *out, size_t room,
                                           size_t *needed)
{
    voxdag_shown none = {0, 0, 0, 0, 0};
    if (!w || !part || !needed || (!out && room)) return VOXDAG_NULL;
    return voxdag_c_surface(w, version, part, out ? out : &none, room, needed);
}

/* The cells of a box of a version that ways through its clear cells join with `from`, a cell of the
 * box: *cells is how many, with OK and with TOO_SMALL, and the VOX file has them as its one model's,
 * of the box's size: at most 256 on each axis (OUTSIDE where it is more). None where that cell is set.
 * IS_CLOSED, OUTSIDE, NO_VERSION and FORGOTTEN as of questions. */
static inline voxdag_status voxdag_flood(voxdag_world *w, uint32_t version, const voxdag_box *part, const voxdag_place *from,
                                         uint64_t *cells, uint8_t *out, size_t size, size_t *needed)
{
    uint8_t none = 0;
    if (!w || !part || !from || !cells || !needed || (!out && size)) return VOXDAG_NULL;
    return voxdag_c_flood(w, version, part, from, cells, out ? out : &none, size, needed);
}

/* The text of the journal: all records and marks. What was done by these calls is of session 0, and
 * has as its line its own number among the changes and forgotten versions that were accepted, from 1,
 * or from one more than the number of those that the journal had by which the world was opened. */
static inline voxdag_status voxdag_journal(voxdag_world *w, uint8_t *out, size_t size, size_t *needed)
{
    uint8_t none = 0;
    if (!w || !needed || (!out && size)) return VOXDAG_NULL;
    return voxdag_c_journal(w, out ? out : &none, size, needed);
}

/* The file of all versions that aren't forgotten, as `voxdag dag` makes one of the world's journal
 * (docs/DAG_FILES.md); with tints that of their store, of four times the side. */
static inline voxdag_status voxdag_dag(voxdag_world *w, uint8_t *out, size_t size, size_t *needed)
{
    uint8_t none = 0;
    if (!w || !needed || (!out && size)) return VOXDAG_NULL;
    return voxdag_c_dag(w, out ? out : &none, size, needed);
}

/* ---- A file of versions
 *
 * What voxdag_dag or `voxdag dag` wrote, which is only asked: begin with VOXDAG_NO_VERSIONS. Its versions
 * have the numbers that they had, and a version that was forgotten isn't there. */

/* Opens the file of versions that these bytes are, and keeps a copy of them: besides, opening takes a
 * bit for each entry of a level, 2 MiB at most.
 *   IS_OPEN     exactly where v has a file already
 *   BAD_DAG     *at: the place of the first fault, which docs/DAG_FILES.md orders; exactly where a rule is
 *               broken and there was memory
 *   NO_MEMORY   at any other time. *at is written with BAD_DAG alone */
static inline voxdag_status voxdag_versions_open(voxdag_versions *v, const uint8_t *file, size_t size, uint64_t *at)
{
    static const uint8_t none = 0;
    if (!v || !at || (!file && size)) return VOXDAG_NULL;
    if (v->is_open) return VOXDAG_IS_OPEN;
    return voxdag_c_versions_open(v, file ? file : &none, size, at);
}

/* Closes the file and gives its memory back. IS_CLOSED where there was none. */
static inline voxdag_status voxdag_versions_close(voxdag_versions *v)
{
    if (!v) return VOXDAG_NULL;
    return voxdag_c_versions_close(v);
}

/* The side of its worlds in cells: of a world with tints that of its store, which is four times as long. */
static inline voxdag_status voxdag_versions_side(voxdag_versions *v, uint32_t *side)
{
    if (!v || !side) return VOXDAG_NULL;
    return voxdag_c_versions_side(v, side);
}

/* The greatest number of a version. NO_VERSION exactly where the file has none. */
static inline voxdag_status voxdag_versions_newest(voxdag_versions *v, uint32_t *version)
{
    if (!v || !version) return VOXDAG_NULL;
    return voxdag_c_versions_newest(v, version);
}

/* These answer as the questions of a world do: IS_CLOSED, OUTSIDE, BAD_WAY, and NO_VERSION exactly where
 * all else is right and the file hasn't the version. They take no memory. */
static inline voxdag_status voxdag_versions_get(voxdag_versions *v, uint32_t version, const voxdag_place *at, bool *set)
{
    bool is = false;
    voxdag_status status;
    if (!v || !at || !set) return VOXDAG_NULL;
    status = voxdag_c_versions_get(v, version, at, &is);
    if (!status) *set = is;
    return status;
}

static inline voxdag_status voxdag_versions_count(voxdag_versions *v, uint32_t version, const voxdag_box *part, uint64_t *cells)
{
    if (!v || !part || !cells) return VOXDAG_NULL;
    return voxdag_c_versions_count(v, version, part, cells);
}

static inline voxdag_status voxdag_versions_faces(voxdag_versions *v, uint32_t version, const voxdag_box *part, uint64_t *faces)
{
    if (!v || !part || !faces) return VOXDAG_NULL;
    return voxdag_c_versions_faces(v, version, part, faces);
}

static inline voxdag_status voxdag_versions_bounds(voxdag_versions *v, uint32_t version, bool *some, voxdag_box *least)
{
    bool are = false;
    voxdag_status status;
    if (!v || !some || !least) return VOXDAG_NULL;
    status = voxdag_c_versions_bounds(v, version, &are, least);
    if (!status) *some = are;
    return status;
}

static inline voxdag_status voxdag_versions_ray(voxdag_versions *v, uint32_t version, const voxdag_place *from, int32_t dx, int32_t dy,
                                                int32_t dz, bool *some, voxdag_place *hit)
{
    bool is = false;
    voxdag_status status;
    if (!v || !from || !some || !hit) return VOXDAG_NULL;
    status = voxdag_c_versions_ray(v, version, from, voxdag_step(dx), voxdag_step(dy), voxdag_step(dz), &is, hit);
    if (!status) *some = is;
    return status;
}

/* Of two versions NO_VERSION comes where the file lacks one of them. */
static inline voxdag_status voxdag_versions_same(voxdag_versions *v, uint32_t a, uint32_t b, bool *same)
{
    bool is = false;
    voxdag_status status;
    if (!v || !same) return VOXDAG_NULL;
    status = voxdag_c_versions_same(v, a, b, &is);
    if (!status) *same = is;
    return status;
}

static inline voxdag_status voxdag_versions_changes(voxdag_versions *v, uint32_t a, uint32_t b, bool *some, voxdag_box *least)
{
    bool are = false;
    voxdag_status status;
    if (!v || !some || !least) return VOXDAG_NULL;
    status = voxdag_c_versions_changes(v, a, b, &are, least);
    if (!status) *some = are;
    return status;
}

/* These write bytes and cells as the calls of a world without tints do, and may answer NO_MEMORY. */
static inline voxdag_status voxdag_versions_save(voxdag_versions *v, uint32_t version, const voxdag_box *part, uint8_t *out, size_t size,
                                                 size_t *needed)
{
    uint8_t none = 0;
    if (!v || !part || !needed || (!out && size)) return VOXDAG_NULL;
    return voxdag_c_versions_save(v, version, part, out ? out : &none, size, needed);
}

static inline voxdag_status voxdag_versions_surface(voxdag_versions *v, uint32_t version, const voxdag_box *part, voxdag_shown *out,
                                                    size_t room, size_t *needed)
{
    voxdag_shown none = {0, 0, 0, 0, 0};
    if (!v || !part || !needed || (!out && room)) return VOXDAG_NULL;
    return voxdag_c_versions_surface(v, version, part, out ? out : &none, room, needed);
}

static inline voxdag_status voxdag_versions_flood(voxdag_versions *v, uint32_t version, const voxdag_box *part, const voxdag_place *from,
                                                  uint64_t *cells, uint8_t *out, size_t size, size_t *needed)
{
    uint8_t none = 0;
    if (!v || !part || !from || !cells || !needed || (!out && size)) return VOXDAG_NULL;
    return voxdag_c_versions_flood(v, version, part, from, cells, out ? out : &none, size, needed);
}

#ifdef __cplusplus
}
#endif
#endif
