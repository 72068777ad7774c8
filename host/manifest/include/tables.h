/* Manifests in tables that the caller holds: the operations of manifest.h without the bytes. The proved functions behind it are those of
 * crates/exports_tables_c: `host/build bench` writes host/target/x86_64/libexports_tables.a, for x86-64 Linux, which is the out/libexports_tables_c.a
 * that `rt lib` makes in that crate.
 *
 * What manifest.h says of slices holds here too. Each call judges the manifest anew; the tables that it reads may hold anything, and a manifest
 * that breaks a rule is refusal 1. A refused call leaves the tables for its result as they were, and any other leaves them so behind it.
 */
#ifndef MANIFEST_TABLES_H
#define MANIFEST_TABLES_H

#include "manifest.h"

#ifdef __cplusplus
extern "C" {
#endif

/* A manifest's own value. `tree`: the place and the length of the extractor's name in the pool, then the unsegmented tree as in a segment's
 * row. `rest`: whether there is a name, the first segment and how many, the first borrow and how many, initialized, next_wal_sst_id,
 * replay_after_wal_id, last_l0_seq, recent_snapshot_min_seq, writer epoch, compactor epoch. `tick`: last_l0_clock_tick.
 * Whether there is a name or a watermark, and initialized, are 0 or 1; any other number breaks L1. */
struct tables_laid {
    struct manifest_answer answer;
    uint64_t tree[12];
    uint64_t rest[12];
    int64_t tick;
};

/* Reads a manifest into the tables from `out_segments` on. Those from `segments` on are working tables. */
struct tables_laid tables_read(
    const uint8_t *s, size_t s_len,
    uint64_t *segments, size_t segments_len,
    uint64_t *views, size_t views_len,
    uint64_t *runs, size_t runs_len,
    uint64_t *borrows, size_t borrows_len,
    uint64_t *ids, size_t ids_len,
    uint64_t *out_segments, size_t out_segments_len,
    uint64_t *out_views, size_t out_views_len,
    uint64_t *out_runs, size_t out_runs_len,
    uint64_t *out_borrows, size_t out_borrows_len,
    uint64_t *out_ids, size_t out_ids_len,
    uint8_t *out_pool, size_t out_pool_len);

/* Writes a manifest in the shortest forms at the front of `out`. `first`: how many bytes. */
struct manifest_answer tables_write(
    const uint64_t tree[12], const uint64_t rest[12], int64_t tick,
    const uint64_t *segments, size_t segments_len,
    const uint64_t *views, size_t views_len,
    const uint64_t *runs, size_t runs_len,
    const uint64_t *borrows, size_t borrows_len,
    const uint64_t *ids, size_t ids_len,
    const uint8_t *pool, size_t pool_len,
    uint8_t *out, size_t out_len);

/* As manifest_lookup. */
struct manifest_answer tables_lookup(
    const uint64_t tree[12], const uint64_t rest[12], int64_t tick,
    const uint64_t *segments, size_t segments_len,
    const uint64_t *views, size_t views_len,
    const uint64_t *runs, size_t runs_len,
    const uint64_t *borrows, size_t borrows_len,
    const uint64_t *ids, size_t ids_len,
    const uint8_t *pool, size_t pool_len,
    const uint8_t *prefix, size_t prefix_len);

/* As manifest_select. */
struct manifest_answer tables_select(
    const uint64_t tree[12], const uint64_t rest[12], int64_t tick,
    const uint64_t *segments, size_t segments_len,
    const uint64_t *views, size_t views_len,
    const uint64_t *runs, size_t runs_len,
    const uint64_t *borrows, size_t borrows_len,
    const uint64_t *ids, size_t ids_len,
    const uint8_t *pool, size_t pool_len,
    const uint8_t *args, size_t args_len,
    const struct manifest_range *range);

/* The segment of a prefix. `first`: 0 it is held, as segment `second`, and nothing is written; 1 it entered as segment `second`, and the
 * manifest that it is then in stands in the tables from `out_segments` on. */
struct tables_laid tables_insert(
    const uint64_t tree[12], const uint64_t rest[12], int64_t tick,
    const uint64_t *segments, size_t segments_len,
    const uint64_t *views, size_t views_len,
    const uint64_t *runs, size_t runs_len,
    const uint64_t *borrows, size_t borrows_len,
    const uint64_t *ids, size_t ids_len,
    const uint8_t *pool, size_t pool_len,
    const uint8_t *prefix, size_t prefix_len,
    uint64_t *out_segments, size_t out_segments_len,
    uint64_t *out_views, size_t out_views_len,
    uint64_t *out_runs, size_t out_runs_len,
    uint64_t *out_borrows, size_t out_borrows_len,
    uint64_t *out_ids, size_t out_ids_len,
    uint8_t *out_pool, size_t out_pool_len);

#ifdef __cplusplus
}
#endif
#endif
