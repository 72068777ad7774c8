/* Manifests of an archive, on byte slices: encoded manifests, plain bytes and numbers in, numbers and encoded bytes out.
 * The proved functions behind it are those of crates/exports_c and, for manifest_union alone, of crates/exports_union_c: `host/build host`
 * writes host/target/x86_64/libexports.a and libexports_union.a beside it, both for x86-64 Linux; they are out/libexports_c.a and
 * out/libexports_union_c.a, which `rt lib` makes in those crates. Link both, in any order. Union has a crate of its own since its
 * twenty-one slices take the prover half as long as the nine other calls together.
 *
 * What each call is owed, and owes:
 *  - A slice is a pointer and a length. The pointer is not NULL, not even where the length is 0, and it is aligned.
 *  - The slices and structs that one call may write overlap nothing else that it is given.
 *  - A refused call leaves `out` as it was, to the byte; any other leaves it so behind the result. What the working tables
 *    hold after a call is of no use, and what they held before does not matter.
 *  - Nothing is kept from call to call, nothing is allocated, every call ends.
 *
 * Refusals come in this order: 2 for all that can be judged without a manifest; 4 if a working table is too short; 18, 19, 1
 * manifest by manifest; 5 and the operation's own; 15; 4 for the room and for `out`; 16.
 */
#ifndef MANIFEST_H
#define MANIFEST_H

#include <stddef.h>
#include <stdint.h>

#ifdef __cplusplus
extern "C" {
#endif

enum {
    /* The most that a lawful manifest has of each record, and of bytes in prefixes, keys, paths and names. */
    MANIFEST_SEGMENTS = 64,
    MANIFEST_VIEWS = 512,
    MANIFEST_RUNS = 128,
    MANIFEST_BORROWS = 32,
    MANIFEST_IDS = 512,
    MANIFEST_BYTES = 8192,
    /* The longest encoded manifest that is read; none is longer when written. */
    MANIFEST_ENCODED = 65536,
    /* The least words of each working table: so many records of 12, 16, 3, 9 and 2 words. A shorter one is refusal 4. */
    MANIFEST_SEGMENT_WORDS = 768,
    MANIFEST_VIEW_WORDS = 8192,
    MANIFEST_RUN_WORDS = 384,
    MANIFEST_BORROW_WORDS = 288,
    MANIFEST_ID_WORDS = 1024
};

/* `number` is 0 and then come the answer's numbers, or it is the refusal's and `first` its place. What is not named is 0. */
struct manifest_answer {
    size_t number;
    size_t first;
    size_t second;
    size_t third;
};

/* What the result may fill. More than the limits above does not lift them. */
struct manifest_room {
    uint64_t segments;
    uint64_t views;
    uint64_t runs;
    uint64_t borrows;
    uint64_t ids;
    uint64_t bytes;
};

/* A bound: its kind, and where its key stands in the bytes `args` of the same call; unread if it is unbounded. */
enum { MANIFEST_UNBOUNDED = 0, MANIFEST_INCLUDED = 1, MANIFEST_EXCLUDED = 2 };
struct manifest_bound {
    uint64_t kind; /* any other is refusal 2 */
    uint64_t at;
    uint64_t len;
};

struct manifest_range {
    struct manifest_bound start;
    struct manifest_bound end;
};

/* The working tables for one manifest. Some 85 kB: not for a small stack. */
struct manifest_work {
    uint64_t segments[MANIFEST_SEGMENT_WORDS];
    uint64_t views[MANIFEST_VIEW_WORDS];
    uint64_t runs[MANIFEST_RUN_WORDS];
    uint64_t borrows[MANIFEST_BORROW_WORDS];
    uint64_t ids[MANIFEST_ID_WORDS];
};

/* A struct manifest_work behind a pointer, as the last arguments of a call. */
#define MANIFEST_WORK(w)                                                                             \
    (w)->segments, MANIFEST_SEGMENT_WORDS, (w)->views, MANIFEST_VIEW_WORDS, (w)->runs,               \
        MANIFEST_RUN_WORDS, (w)->borrows, MANIFEST_BORROW_WORDS, (w)->ids, MANIFEST_ID_WORDS

/* The tables in which a resulting manifest is laid out before it is written: working memory too. Some 94 kB. */
struct manifest_result {
    uint64_t segments[MANIFEST_SEGMENT_WORDS];
    uint64_t views[MANIFEST_VIEW_WORDS];
    uint64_t runs[MANIFEST_RUN_WORDS];
    uint64_t borrows[MANIFEST_BORROW_WORDS];
    uint64_t ids[MANIFEST_ID_WORDS];
    uint8_t pool[MANIFEST_BYTES];
};

/* A struct manifest_result behind a pointer, as arguments of a call. */
#define MANIFEST_RESULT(r)                                                                           \
    (r)->segments, MANIFEST_SEGMENT_WORDS, (r)->views, MANIFEST_VIEW_WORDS, (r)->runs,               \
        MANIFEST_RUN_WORDS, (r)->borrows, MANIFEST_BORROW_WORDS, (r)->ids, MANIFEST_ID_WORDS,        \
        (r)->pool, MANIFEST_BYTES

/* Reads a manifest and writes it anew, in the shortest forms, at the front of `out`. `first`: how many bytes. */
struct manifest_answer manifest_read(
    const uint8_t *s, size_t s_len,
    const struct manifest_room *room,
    uint64_t *segments, size_t segments_len,
    uint64_t *views, size_t views_len,
    uint64_t *runs, size_t runs_len,
    uint64_t *borrows, size_t borrows_len,
    uint64_t *ids, size_t ids_len,
    uint8_t *out, size_t out_len);

/* The tree of a prefix. `first`: 0 the unsegmented one, 1 that of segment `second`, 2 there is none. */
struct manifest_answer manifest_lookup(
    const uint8_t *s, size_t s_len,
    const uint8_t *prefix, size_t prefix_len,
    uint64_t *segments, size_t segments_len,
    uint64_t *views, size_t views_len,
    uint64_t *runs, size_t runs_len,
    uint64_t *borrows, size_t borrows_len,
    uint64_t *ids, size_t ids_len);

/* The segments with some key in a range. `first`: 0 the manifest has no segments, 1 those from `second` on, up to but not
 * including `third`; 0 to 0 is none of them. */
struct manifest_answer manifest_select(
    const uint8_t *s, size_t s_len,
    const uint8_t *args, size_t args_len,
    const struct manifest_range *range,
    uint64_t *segments, size_t segments_len,
    uint64_t *views, size_t views_len,
    uint64_t *runs, size_t runs_len,
    uint64_t *borrows, size_t borrows_len,
    uint64_t *ids, size_t ids_len);

/* The segment of a prefix. `first`: 0 it is held, as segment `second`, and nothing is written; 1 it entered as segment `second`,
 * with an empty tree, and the manifest that it is then in is written at the front of `out`. `third`: how many bytes. */
struct manifest_answer manifest_insert(
    const uint8_t *s, size_t s_len,
    const uint8_t *prefix, size_t prefix_len,
    const struct manifest_room *room,
    uint64_t *segments, size_t segments_len,
    uint64_t *views, size_t views_len,
    uint64_t *runs, size_t runs_len,
    uint64_t *borrows, size_t borrows_len,
    uint64_t *ids, size_t ids_len,
    uint64_t *out_segments, size_t out_segments_len,
    uint64_t *out_views, size_t out_views_len,
    uint64_t *out_runs, size_t out_runs_len,
    uint64_t *out_borrows, size_t out_borrows_len,
    uint64_t *out_ids, size_t out_ids_len,
    uint8_t *out_pool, size_t out_pool_len,
    uint8_t *out, size_t out_len);

/* The SST ids that a manifest uses and borrows from no one, in record order, repeats kept, at the front of `out`: two words each,
 * the high one first. `first`: how many ids. */
struct manifest_answer manifest_owned(
    const uint8_t *s, size_t s_len,
    uint64_t *segments, size_t segments_len,
    uint64_t *views, size_t views_len,
    uint64_t *runs, size_t runs_len,
    uint64_t *borrows, size_t borrows_len,
    uint64_t *ids, size_t ids_len,
    uint64_t *out, size_t out_len);

/* A manifest that borrows all it uses, from the parent at `path` or from those that the parent borrows from, at the front of `out`.
 * Ids are two words each, the high one first: the parent's checkpoint, and the fresh UUIDs, one for each borrow of the result.
 * `first`: how many bytes. */
struct manifest_answer manifest_clone(
    const uint8_t *s, size_t s_len,
    const uint8_t *path, size_t path_len,
    const uint64_t checkpoint[2],
    const uint64_t *fresh, size_t fresh_len,
    const struct manifest_room *room,
    uint64_t *segments, size_t segments_len,
    uint64_t *views, size_t views_len,
    uint64_t *runs, size_t runs_len,
    uint64_t *borrows, size_t borrows_len,
    uint64_t *ids, size_t ids_len,
    uint64_t *out_segments, size_t out_segments_len,
    uint64_t *out_views, size_t out_views_len,
    uint64_t *out_runs, size_t out_runs_len,
    uint64_t *out_borrows, size_t out_borrows_len,
    uint64_t *out_ids, size_t out_ids_len,
    uint8_t *out_pool, size_t out_pool_len,
    uint8_t *out, size_t out_len);

/* The working tables that hold two manifests at a time, and the pool of the list that comes of them. Some 195 kB. */
struct manifest_both {
    uint64_t segments[2 * MANIFEST_SEGMENT_WORDS];
    uint64_t views[2 * MANIFEST_VIEW_WORDS];
    uint64_t runs[2 * MANIFEST_RUN_WORDS];
    uint64_t borrows[2 * MANIFEST_BORROW_WORDS];
    uint64_t ids[2 * MANIFEST_ID_WORDS];
    uint8_t pool[2 * MANIFEST_BYTES];
    uint8_t result[MANIFEST_BYTES];
};

/* A struct manifest_both behind a pointer, as arguments of a call. */
#define MANIFEST_BOTH(b)                                                                             \
    (b)->segments, 2 * MANIFEST_SEGMENT_WORDS, (b)->views, 2 * MANIFEST_VIEW_WORDS, (b)->runs,       \
        2 * MANIFEST_RUN_WORDS, (b)->borrows, 2 * MANIFEST_BORROW_WORDS, (b)->ids,                   \
        2 * MANIFEST_ID_WORDS, (b)->pool, 2 * MANIFEST_BYTES, (b)->result, MANIFEST_BYTES

/* The writer's segments, each tree merged with the compactor's: the list is written at the front of `out`, an array of segment
 * records. `first`: how many bytes. Data that only the compactor has is refusal 6. Of `room` the borrows and ids are not asked for. */
struct manifest_answer manifest_merge_from_writer(
    const uint8_t *writer, size_t writer_len,
    const uint8_t *compactor, size_t compactor_len,
    const struct manifest_room *room,
    uint64_t *segments, size_t segments_len,
    uint64_t *views, size_t views_len,
    uint64_t *runs, size_t runs_len,
    uint64_t *borrows, size_t borrows_len,
    uint64_t *ids, size_t ids_len,
    uint64_t *both_segments, size_t both_segments_len,
    uint64_t *both_views, size_t both_views_len,
    uint64_t *both_runs, size_t both_runs_len,
    uint64_t *both_borrows, size_t both_borrows_len,
    uint64_t *both_ids, size_t both_ids_len,
    uint8_t *both_pool, size_t both_pool_len,
    uint8_t *pool, size_t pool_len,
    uint8_t *out, size_t out_len);

/* The segments of either manifest that are not empty once merged, in the same way. Kept prefixes that nest are refusal 7. */
struct manifest_answer manifest_merge_from_compactor(
    const uint8_t *writer, size_t writer_len,
    const uint8_t *compactor, size_t compactor_len,
    const struct manifest_room *room,
    uint64_t *segments, size_t segments_len,
    uint64_t *views, size_t views_len,
    uint64_t *runs, size_t runs_len,
    uint64_t *borrows, size_t borrows_len,
    uint64_t *ids, size_t ids_len,
    uint64_t *both_segments, size_t both_segments_len,
    uint64_t *both_views, size_t both_views_len,
    uint64_t *both_runs, size_t both_runs_len,
    uint64_t *both_borrows, size_t both_borrows_len,
    uint64_t *both_ids, size_t both_ids_len,
    uint8_t *both_pool, size_t both_pool_len,
    uint8_t *pool, size_t pool_len,
    uint8_t *out, size_t out_len);

/* What a projection is asked for. A flag is off if it is 0. */
struct manifest_asked {
    uint64_t has_global;
    uint64_t has_filter;
    uint64_t keeps_unsegmented; /* of the filter, and so is the mask: bit i keeps segment i */
    uint64_t mask;
    uint64_t has_own;
};

/* The words of the list of ids in use, one id for each view. */
enum { MANIFEST_USED_WORDS = 1024 };

/* A manifest narrowed to a global range, to a filter, and to own ranges: that of the unsegmented tree, then one for each segment, each a
 * struct manifest_range of six words in `own`; what is missing is unbounded, what is too many is not read. All bounds are places in `args`.
 * The result is written at the front of `out`. `first`: how many segments the mask names. `second`: how many bytes.
 * The tables whose names begin with `in` are those of a struct manifest_result but for `in_pool`, which has args_len bytes more. The own
 * ranges that count, one and one more for each segment, are judged between 19 and 1; 10, then 8 and 9 come after 5. */
struct manifest_answer manifest_project(
    const uint8_t *s, size_t s_len,
    const uint8_t *args, size_t args_len,
    const struct manifest_asked *asked,
    const struct manifest_range *global,
    const uint64_t *own, size_t own_len,
    const struct manifest_room *room,
    uint64_t *segments, size_t segments_len,
    uint64_t *views, size_t views_len,
    uint64_t *runs, size_t runs_len,
    uint64_t *borrows, size_t borrows_len,
    uint64_t *ids, size_t ids_len,
    uint64_t *in_segments, size_t in_segments_len,
    uint64_t *in_views, size_t in_views_len,
    uint64_t *in_runs, size_t in_runs_len,
    uint64_t *in_borrows, size_t in_borrows_len,
    uint64_t *in_ids, size_t in_ids_len,
    uint8_t *in_pool, size_t in_pool_len,
    uint64_t *used, size_t used_len,
    uint8_t *pool, size_t pool_len,
    uint8_t *out, size_t out_len);

/* The sizes of a union's memory, for any eight manifests within the limits. A shorter array is refusal 4. */
enum {
    MANIFEST_SOURCES = 8,
    /* The longest path. */
    MANIFEST_PATH = 64,
    /* The eight manifests' bytes, and before them those of `paths`. */
    MANIFEST_ALL_BYTES = MANIFEST_SOURCES * (MANIFEST_BYTES + MANIFEST_PATH),
    /* The words of `fresh`, and of twice as many borrows as a manifest may have: enough where `fresh` has no more than 32 UUIDs. */
    MANIFEST_FRESH_WORDS = 2 * MANIFEST_BORROWS + 2 * MANIFEST_BORROWS,
    /* Each manifest's borrowed ids, and those that it uses. */
    MANIFEST_SET_WORDS = MANIFEST_SOURCES * (MANIFEST_IDS + MANIFEST_VIEWS) * 2
};

/* The working memory of a union beside a struct manifest_work: tables for all sources, and a pool for the result. Some 890 kB. */
struct manifest_all {
    uint64_t segments[MANIFEST_SOURCES * MANIFEST_SEGMENT_WORDS];
    uint64_t views[MANIFEST_SOURCES * MANIFEST_VIEW_WORDS];
    uint64_t runs[MANIFEST_SOURCES * MANIFEST_RUN_WORDS];
    uint64_t borrows[MANIFEST_SOURCES * MANIFEST_BORROW_WORDS];
    uint64_t ids[MANIFEST_SOURCES * MANIFEST_ID_WORDS];
    uint8_t pool[MANIFEST_ALL_BYTES];
    uint64_t fresh[MANIFEST_FRESH_WORDS];
    uint64_t sets[MANIFEST_SET_WORDS];
    uint8_t to_pool[MANIFEST_BYTES];
};

/* A struct manifest_all behind a pointer, as arguments of a call. */
#define MANIFEST_ALL(a)                                                                              \
    (a)->segments, MANIFEST_SOURCES * MANIFEST_SEGMENT_WORDS, (a)->views,                            \
        MANIFEST_SOURCES * MANIFEST_VIEW_WORDS, (a)->runs, MANIFEST_SOURCES * MANIFEST_RUN_WORDS,    \
        (a)->borrows, MANIFEST_SOURCES * MANIFEST_BORROW_WORDS, (a)->ids,                            \
        MANIFEST_SOURCES * MANIFEST_ID_WORDS, (a)->pool, MANIFEST_ALL_BYTES, (a)->fresh,             \
        MANIFEST_FRESH_WORDS, (a)->sets, MANIFEST_SET_WORDS, (a)->to_pool, MANIFEST_BYTES

/* The union of up to eight manifests, at the front of `out`. `first`: how many bytes.
 * The manifests stand one after the other in `s`, their paths in `paths`; `ends` and `path_ends` say for each where it ends, the first
 * from 0 on. Ids are two words each, the high one first: a checkpoint for each manifest in `checkpoints`, and in `fresh` the fresh UUIDs, one
 * for each borrow of the result, at most 32 of use. No sources at all are a call too. More than eight, an end before the one before it or
 * past the bytes, a manifest or path that is too long, and another number of paths or checkpoints than of manifests are refusal 2.
 * The arguments after `room` are those of MANIFEST_WORK and MANIFEST_ALL, then `out`. The result is laid out in the working tables, once
 * all sources are read. Places of 18 and 19 count from the start of that manifest. */
struct manifest_answer manifest_union(
    const uint8_t *s, size_t s_len,
    const uint64_t *ends, size_t ends_len,
    const uint8_t *paths, size_t paths_len,
    const uint64_t *path_ends, size_t path_ends_len,
    const uint64_t *checkpoints, size_t checkpoints_len,
    const uint64_t *fresh, size_t fresh_len,
    const struct manifest_room *room,
    uint64_t *segments, size_t segments_len,
    uint64_t *views, size_t views_len,
    uint64_t *runs, size_t runs_len,
    uint64_t *borrows, size_t borrows_len,
    uint64_t *ids, size_t ids_len,
    uint64_t *all_segments, size_t all_segments_len,
    uint64_t *all_views, size_t all_views_len,
    uint64_t *all_runs, size_t all_runs_len,
    uint64_t *all_borrows, size_t all_borrows_len,
    uint64_t *all_ids, size_t all_ids_len,
    uint8_t *all_pool, size_t all_pool_len,
    uint64_t *lent_fresh, size_t lent_fresh_len,
    uint64_t *sets, size_t sets_len,
    uint8_t *to_pool, size_t to_pool_len,
    uint8_t *out, size_t out_len);

#ifdef __cplusplus
}
#endif
#endif
