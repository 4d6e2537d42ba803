/* The station's interface for a host in C or C++: librumchivoat.a for x86-64, which host/sh/archive.sh writes in
 * target/staticlib. It wants memcpy and memset of the host's C library, and nothing else.
 *
 * Every call answers every input. `refusal` is RUMCHIVOAT_DONE, or the number of the refusal; where several apply, the
 * first in the order below is given (docs/REFUSALS.md has causes and cures). Of a refused call every other field is 0 or
 * false, and no lent byte has changed, but for these: set_reset, set_add and title_add hand back the set that came, and
 * run writes its line. A call that is done leaves the bytes after the written length as they were.
 *
 * What the caller owes: a lent slice is a pointer, not null even where the length is 0, and so many bytes behind it; a
 * slice that is written overlaps no other slice of the call; a lent record is a pointer to one, which overlaps no slice;
 * a bool is 0 or 1, in a record too. No call allocates, keeps a pointer, reads or writes anything but what it was lent,
 * or waits: calls on different buffers may run side by side.
 *
 * Stack: each call states how many bytes it takes at most, RUMCHIVOAT_STACK_.. below. On a thread with less the system
 * ends the process. */
#ifndef RUMCHIVOAT_H
#define RUMCHIVOAT_H

#ifndef __cplusplus
#include <stdbool.h>
#endif
#include <stddef.h>
#include <stdint.h>

/* The number of the interface that this header is about. Compare it with rumchivoat_interface() of the archive. */
#define RUMCHIVOAT_INTERFACE 7

/* ---- the sixteen modes */

#define RUMCHIVOAT_MODE_SNES 0u
#define RUMCHIVOAT_MODE_SNES_MODE7 1u
#define RUMCHIVOAT_MODE_GB 2u
#define RUMCHIVOAT_MODE_GBC 3u
#define RUMCHIVOAT_MODE_GBA 4u
#define RUMCHIVOAT_MODE_GBA_AFFINE 5u
#define RUMCHIVOAT_MODE_MD 6u
#define RUMCHIVOAT_MODE_SMS 7u
#define RUMCHIVOAT_MODE_GG 8u
#define RUMCHIVOAT_MODE_PCE 9u
#define RUMCHIVOAT_MODE_PCE_SPRITE 10u
#define RUMCHIVOAT_MODE_NGP 11u
#define RUMCHIVOAT_MODE_NGPC 12u
#define RUMCHIVOAT_MODE_WS 13u
#define RUMCHIVOAT_MODE_WSC 14u
#define RUMCHIVOAT_MODE_WSC_PACKED 15u

/* ---- what the station is told, in the order in which it is checked. 10 is no longer given: 15 to 18 stand where it
 * stood. */

#define RUMCHIVOAT_DONE 0u
#define RUMCHIVOAT_REFUSED_SETTINGS 14u       /* run only: the sheet is not as it should be */
#define RUMCHIVOAT_REFUSED_MODE 1u            /* mode number above 15 */
#define RUMCHIVOAT_REFUSED_PCE_SPRITE 2u      /* an entry, picture, redraw, cell number or native flip in pce_sprite */
#define RUMCHIVOAT_REFUSED_DEPTH 3u           /* depth not in the mode's row */
#define RUMCHIVOAT_REFUSED_SIZE 4u            /* tile size not allowed, columns or rows outside 1..64, tile above 65,535 */
#define RUMCHIVOAT_REFUSED_FLIPS 5u           /* picture with flips on in a mode without flips */
#define RUMCHIVOAT_REFUSED_COUNT 6u           /* more tiles counted than the room, than the common store, than 65,535;
                                               * more rows than the run's picture has */
#define RUMCHIVOAT_REFUSED_ROWS 19u           /* a run ended before its last row, a strip past it */
#define RUMCHIVOAT_REFUSED_LENGTH 7u          /* input length not the one required; a map that names a tile not there;
                                               * a strip that is empty, or is not whole rows; more than 16,384 bytes of
                                               * tiles or map for a mode 7 block */
#define RUMCHIVOAT_REFUSED_PIXEL 8u           /* a pixel of 2^depth or more, in tile packing or set writing */
#define RUMCHIVOAT_REFUSED_COMPONENT 9u       /* a component r, g or b above the top */
#define RUMCHIVOAT_REFUSED_ENTRY_TILE 15u     /* the tile index of an entry is larger than its bits can hold */
#define RUMCHIVOAT_REFUSED_ENTRY_PALETTE 16u  /* the palette index of an entry or a picture, likewise */
#define RUMCHIVOAT_REFUSED_ENTRY_FLIP 17u     /* a flip of an entry where there is none */
#define RUMCHIVOAT_REFUSED_ENTRY_PRIORITY 18u /* priority of an entry where there is none */
#define RUMCHIVOAT_REFUSED_OUTPUT 11u         /* output buffer shorter than the bytes to be written */
#define RUMCHIVOAT_REFUSED_ROOM 12u           /* no room for the tiles; a title would pass 65,535 */
#define RUMCHIVOAT_REFUSED_DISCARDED 13u      /* discarding on, discard counter 4,294,967,295, and an added tile matches;
                                               * a run's would pass it */

/* ---- how large buffers are, in bytes. For arguments that the calls accept; the products are size_t. */

/* A tile's pixels, a byte each, and its native bytes. */
#define RUMCHIVOAT_TILE_PIXELS(width, height) ((size_t)(width) * (size_t)(height))
#define RUMCHIVOAT_TILE_BYTES(depth, width, height) (RUMCHIVOAT_TILE_PIXELS(width, height) * (size_t)(depth) / 8)
#define RUMCHIVOAT_TILE_BYTES_MOST 1024 /* a pce_sprite tile of 32x64 */

/* A set's store for so many tiles. */
#define RUMCHIVOAT_STORE_BYTES(tiles, width, height) ((size_t)(tiles) * RUMCHIVOAT_TILE_PIXELS(width, height))

/* A map entry: one byte in snes_mode7, gb and gba_affine, none in pce_sprite, else two. */
#define RUMCHIVOAT_ENTRY_BYTES_MOST 2
#define RUMCHIVOAT_ENTRY_BYTES(mode) \
    ((mode) == RUMCHIVOAT_MODE_PCE_SPRITE ? (size_t)0 \
     : (mode) == RUMCHIVOAT_MODE_SNES_MODE7 || (mode) == RUMCHIVOAT_MODE_GB || (mode) == RUMCHIVOAT_MODE_GBA_AFFINE \
         ? (size_t)1 \
         : (size_t)2)

/* A picture: its pixels, its map, and tile bytes that suffice even where every tile is stored. */
#define RUMCHIVOAT_PICTURE_PIXELS(columns, rows) ((size_t)64 * (size_t)(columns) * (size_t)(rows))
#define RUMCHIVOAT_PICTURE_PIXELS_MOST 262144
#define RUMCHIVOAT_MAP_BYTES(mode, columns, rows) \
    (RUMCHIVOAT_ENTRY_BYTES(mode) * (size_t)(columns) * (size_t)(rows))
#define RUMCHIVOAT_MAP_BYTES_MOST 8192
#define RUMCHIVOAT_PICTURE_TILE_BYTES(depth, columns, rows) \
    ((size_t)8 * (size_t)(depth) * (size_t)(columns) * (size_t)(rows))
#define RUMCHIVOAT_PICTURE_TILE_BYTES_MOST 131072 /* 4,096 tiles of pce; every other mode has 65,536 at most */

/* A strip of so many whole rows of tiles. The tile buffer and the map of a run are the whole picture's. */
#define RUMCHIVOAT_STRIP_PIXELS(columns, strip_rows) RUMCHIVOAT_PICTURE_PIXELS(columns, strip_rows)

/* The mode 7 block, and each of its halves: a map of 128x128 entries of a byte, and 256 tiles of 64 pixels. */
#define RUMCHIVOAT_MODE7_BLOCK 32768
#define RUMCHIVOAT_MODE7_HALF 16384

/* The program on slices: the longest sheet, and what no text exceeds (proved; the longest there is has 67,691). */
#define RUMCHIVOAT_SHEET_MOST 65641
#define RUMCHIVOAT_TEXT_MOST 67840

/* ---- the most stack that a call takes, in bytes */

#define RUMCHIVOAT_STACK_CONVERT 57344 /* rumchivoat_convert; _OTHERS where its settings or lengths refuse it */
#define RUMCHIVOAT_STACK_STRIP 57344   /* rumchivoat_strip_take; _OTHERS where the record or a length refuses it */
#define RUMCHIVOAT_STACK_RUN 131072    /* rumchivoat_run */
#define RUMCHIVOAT_STACK_OTHERS 8192   /* each of the others */

#ifdef __cplusplus
extern "C" {
#endif

/* ---- answers */

/* Of a call that writes: the length written, from the buffer's start; where it writes two buffers, that in each. */
typedef struct rumchivoat_written {
    uint32_t refusal;
    size_t written;
} rumchivoat_written;

typedef struct rumchivoat_number {
    uint32_t refusal;
    uint32_t value;
} rumchivoat_number;

typedef struct rumchivoat_entry {
    uint32_t refusal;
    uint32_t tile;
    uint32_t palette;
    bool flip_h;
    bool flip_v;
    bool priority;
} rumchivoat_entry;

/* A tile set's state: plain numbers, by value. Its tiles, `stored` of them, stand in a store that is lent to each call,
 * one after the other, width x height pixels each, a byte a pixel. Its room is how many tiles fit: the least of 65,535,
 * the store's whole tiles, and the limit if it is not 0. */
typedef struct rumchivoat_set {
    uint32_t mode;
    uint32_t depth;
    uint32_t width;
    uint32_t height;
    bool flips;      /* whether a tile matches its mirror images */
    bool discarding; /* whether an added tile that matches is discarded: counted, and not stored */
    uint32_t limit;  /* the most tiles; 0 for no limit */
    uint32_t stored;
    uint32_t discarded;
} rumchivoat_set;

typedef struct rumchivoat_set_answer {
    uint32_t refusal;
    rumchivoat_set set;
} rumchivoat_set_answer;

/* Of a look-up. Where `found` is false, all else is 0 or false. */
typedef struct rumchivoat_place {
    uint32_t refusal;
    bool found;
    uint32_t place;
    bool flip_h;
    bool flip_v;
} rumchivoat_place;

/* Of a title's look-up: as a look-up's, and the tile's pixels as a part of the store that holds them, `len` bytes from
 * byte `at` of the common store where `common` is true, and of the title's own where it is not. Where `found` is false,
 * all else is 0 or false. */
typedef struct rumchivoat_held {
    uint32_t refusal;
    bool found;
    uint32_t place;
    bool flip_h;
    bool flip_v;
    bool common;
    size_t at;
    size_t len;
} rumchivoat_held;

/* Of a conversion: tiles stored and discarded, and how much of both buffers is written. */
typedef struct rumchivoat_picture {
    uint32_t refusal;
    uint32_t tiles;
    uint32_t discarded;
    size_t tile_bytes;
    size_t map_bytes;
} rumchivoat_picture;

/* A run: a picture that comes in strips, each of whole rows of tiles. It is plain numbers, which the caller keeps, and
 * rumchivoat_strip_take updates it in place. Its tiles, `tiles` of them, are the first bytes of the tile buffer, and its
 * entries, columns x `taken` of them, the first of the map. Its room is a picture's: the least of the limit if it is not
 * 0, the tile numbers that an entry can hold, and the whole tiles of the tile buffer.
 *
 * Between strips the caller leaves the record alone, and the bytes of both buffers that are written. Every strip finds
 * its tiles among the tile bytes as they stand, and believes the record so far as its checks go. */
typedef struct rumchivoat_strip_run {
    uint32_t mode;
    uint32_t depth;
    bool flip;
    bool discard;
    uint32_t limit; /* the most tiles; 0 for no limit */
    uint32_t palette;
    uint32_t columns;
    uint32_t rows;
    uint32_t taken; /* the rows of tiles that have come */
    uint32_t tiles; /* the tiles stored, and those discarded, so far */
    uint32_t discarded;
} rumchivoat_strip_run;

typedef struct rumchivoat_strip_run_answer {
    uint32_t refusal;
    rumchivoat_strip_run run;
} rumchivoat_strip_run_answer;

/* ---- calls. "Refused" names the numbers in the order in which they are asked. */

/* The number of the interface that the archive has.
 * Reads nothing, writes nothing, is never refused. Stack: RUMCHIVOAT_STACK_OTHERS. */
uint32_t rumchivoat_interface(void);

/* Packs a native tile: 8x8, or in pce_sprite 16 or 32 wide and 16, 32 or 64 high.
 * Reads    `pixels`: width x height of them, row by row.
 * Writes   `out`: RUMCHIVOAT_TILE_BYTES(depth, width, height).
 * Refused  1 mode; 3 depth; 4 width or height; 7 pixels_len; 8 a pixel of 2^depth or more; 11 out_len.
 * Stack    RUMCHIVOAT_STACK_OTHERS. */
rumchivoat_written rumchivoat_pack_tile(uint32_t mode, uint32_t depth, uint32_t width, uint32_t height,
                                        const uint8_t *pixels, size_t pixels_len, uint8_t *out, size_t out_len);

/* Unpacks a native tile; inverts rumchivoat_pack_tile.
 * Reads    `bytes`: RUMCHIVOAT_TILE_BYTES(depth, width, height).
 * Writes   `out`: width x height pixels, row by row.
 * Refused  1 mode; 3 depth; 4 width or height; 7 bytes_len; 11 out_len.
 * Stack    RUMCHIVOAT_STACK_OTHERS. */
rumchivoat_written rumchivoat_unpack_tile(uint32_t mode, uint32_t depth, uint32_t width, uint32_t height,
                                          const uint8_t *bytes, size_t bytes_len, uint8_t *out, size_t out_len);

/* Flips a native tile of 8x8 as it is, in every mode but pce_sprite: h reverses each row, v the order of rows, and with
 * neither the bytes are copied. Unpacking, flipping the pixels and packing would give the same, whatever the bytes hold.
 * Reads    `bytes`: RUMCHIVOAT_TILE_BYTES(depth, 8, 8).
 * Writes   `out`: as many.
 * Refused  1 mode; 2 pce_sprite; 3 depth; 7 bytes_len; 11 out_len.
 * Stack    RUMCHIVOAT_STACK_OTHERS. */
rumchivoat_written rumchivoat_flip_tile(uint32_t mode, uint32_t depth, bool flip_h, bool flip_v, const uint8_t *bytes,
                                        size_t bytes_len, uint8_t *out, size_t out_len);

/* Packs colours.
 * Reads    `colors`: four bytes each, r, g, b, a; a is ignored. Exactly four colours in gb and ws.
 * Writes   `out`: two bytes for each colour; one in sms and ngp; for all four one in gb and two in ws.
 * Refused  1 mode; 7 colors_len; 9 an r, g or b above the mode's top; 11 out_len.
 * Stack    RUMCHIVOAT_STACK_OTHERS. */
rumchivoat_written rumchivoat_pack_colors(uint32_t mode, const uint8_t *colors, size_t colors_len, uint8_t *out,
                                          size_t out_len);

/* Unpacks colours; unused bits are ignored and a is 255.
 * Reads    `bytes`: as rumchivoat_pack_colors writes them; in ngp exactly four.
 * Writes   `out`: four bytes for each colour.
 * Refused  1 mode; 7 bytes_len; 11 out_len.
 * Stack    RUMCHIVOAT_STACK_OTHERS. */
rumchivoat_written rumchivoat_unpack_colors(uint32_t mode, const uint8_t *bytes, size_t bytes_len, uint8_t *out,
                                            size_t out_len);

/* Brings a channel's value, 0 to 255, to a component of the mode: the nearest, or by cutting off low bits.
 * Reads and writes no lent byte. Refused: 1 mode. Stack: RUMCHIVOAT_STACK_OTHERS. */
rumchivoat_number rumchivoat_reduce_channel(uint32_t mode, uint8_t value, bool nearest);

/* Brings a component of the mode to a channel's value, 0 to 255, by repeating its bits.
 * Reads and writes no lent byte. Refused: 1 mode; 9 component above the top. Stack: RUMCHIVOAT_STACK_OTHERS. */
rumchivoat_number rumchivoat_scale_up(uint32_t mode, uint32_t component);

/* Packs a map entry.
 * Writes   `out`: RUMCHIVOAT_ENTRY_BYTES(mode).
 * Refused  1 mode; 2 pce_sprite; of what the mode's entry cannot hold the first: 15 tile, 16 palette, 17 a flip,
 *          18 priority; 11 out_len.
 * Stack    RUMCHIVOAT_STACK_OTHERS. */
rumchivoat_written rumchivoat_pack_entry(uint32_t mode, uint32_t tile, uint32_t palette, bool flip_h, bool flip_v,
                                         bool priority, uint8_t *out, size_t out_len);

/* Unpacks a map entry; unused bits are ignored.
 * Reads    `bytes`: RUMCHIVOAT_ENTRY_BYTES(mode).
 * Refused  1 mode; 2 pce_sprite; 7 bytes_len.
 * Stack    RUMCHIVOAT_STACK_OTHERS. */
rumchivoat_entry rumchivoat_unpack_entry(uint32_t mode, const uint8_t *bytes, size_t bytes_len);

/* Writes an entry's tile index by itself.
 * Writes   `out`: two bytes, low first; one in gbc and where an entry has one.
 * Refused  1 mode; 2 pce_sprite; 15 to 18 as rumchivoat_pack_entry; 11 out_len.
 * Stack    RUMCHIVOAT_STACK_OTHERS. */
rumchivoat_written rumchivoat_tile_index(uint32_t mode, uint32_t tile, uint32_t palette, bool flip_h, bool flip_v,
                                         bool priority, uint8_t *out, size_t out_len);

/* An entry's attribute: the other byte without tile bits (gbc keeps tile bit 8); 0 where an entry has one byte.
 * Reads and writes no lent byte. Refused: 1 mode; 2 pce_sprite; 15 to 18 as rumchivoat_pack_entry.
 * Stack: RUMCHIVOAT_STACK_OTHERS. */
rumchivoat_number rumchivoat_attribute(uint32_t mode, uint32_t tile, uint32_t palette, bool flip_h, bool flip_v,
                                       bool priority);

/* An empty set. Width and height are each 8, 16, 32 or 64 in snes; as in rumchivoat_pack_tile in pce_sprite; else the
 * width is 8 and the height 8, 16, 32 or 64.
 * Reads and writes no lent byte. Refused: 1 mode; 3 depth; 4 width or height. Stack: RUMCHIVOAT_STACK_OTHERS. */
rumchivoat_set_answer rumchivoat_set_new(uint32_t mode, uint32_t depth, uint32_t width, uint32_t height, bool flips,
                                         bool discarding, uint32_t limit);

/* The set with both counts 0.
 * Reads and writes no lent byte. Refused, with the set that came: 1 mode; 3 depth; 4 width or height.
 * Stack: RUMCHIVOAT_STACK_OTHERS. */
rumchivoat_set_answer rumchivoat_set_reset(rumchivoat_set set);

/* Finds the first stored tile that matches, flips tried as none, h, v, both; none alone with flips off.
 * Reads    `store`: the stored tiles; `pixels`: width x height, each cut to its low depth bits.
 * Refused  1 mode; 3 depth; 4 width or height; 6 the set counts more tiles than its room; 7 pixels_len.
 * Stack    RUMCHIVOAT_STACK_OTHERS. */
rumchivoat_place rumchivoat_set_look_up(rumchivoat_set set, const uint8_t *store, size_t store_len,
                                        const uint8_t *pixels, size_t pixels_len);

/* Adds a tile: discarded where discarding is on and it matches a stored one, else stored at the end.
 * Reads    `store`: the stored tiles; `pixels`: width x height, each cut to its low depth bits.
 * Writes   `store`: the tile's pixels after those stored, where it is stored.
 * Refused  with the set that came: 1 mode; 3 depth; 4 width or height; 6 the set counts more tiles than its room;
 *          7 pixels_len; 12 no room for it; 13 it is to be discarded and the counter is full.
 * Stack    RUMCHIVOAT_STACK_OTHERS. */
rumchivoat_set_answer rumchivoat_set_add(rumchivoat_set set, uint8_t *store, size_t store_len, const uint8_t *pixels,
                                         size_t pixels_len);

/* Writes a set's native bytes: at 8x8 and in pce_sprite tile after tile; else cells of 8x8 in rows, 16 a row in snes
 * and one elsewhere, the last row of tiles filled up with blank cells.
 * Reads    `store`: the stored tiles.
 * Writes   `out`: 8 x depth for each cell; RUMCHIVOAT_TILE_BYTES(depth, width, height) for each tile of pce_sprite.
 * Refused  1 mode; 3 depth; 4 width or height; 6 the set counts more tiles than its room; 8 a stored pixel of 2^depth
 *          or more; 11 out_len.
 * Stack    RUMCHIVOAT_STACK_OTHERS. */
rumchivoat_written rumchivoat_set_write(rumchivoat_set set, const uint8_t *store, size_t store_len, uint8_t *out,
                                        size_t out_len);

/* Reads a set from native bytes as rumchivoat_set_write writes them, up to the first tile that has not all its cells.
 * Nothing is discarded. The set has limit 0, discarding on, flips as given.
 * Reads    `bytes`: whole cells of 8 x depth; in pce_sprite whole tiles, RUMCHIVOAT_TILE_BYTES(depth, width, height)
 *          each.
 * Writes   `store`: RUMCHIVOAT_STORE_BYTES of the tiles read.
 * Refused  with an empty set: 1 mode; 3 depth; 4 width or height; 7 bytes_len; 11 store_len; 12 more than 65,535 tiles.
 * Stack    RUMCHIVOAT_STACK_OTHERS. */
rumchivoat_set_answer rumchivoat_set_read(uint32_t mode, uint32_t depth, uint32_t width, uint32_t height, bool flips,
                                          const uint8_t *bytes, size_t bytes_len, uint8_t *store, size_t store_len);

/* The first cell of a tile: from a logical number, which counts whole tiles, to a native one, which counts 8x8 cells.
 * Reads and writes no lent byte. Refused: 1 mode; 2 pce_sprite; 4 width or height as in rumchivoat_set_new, or a tile
 * number above 65,535. Stack: RUMCHIVOAT_STACK_OTHERS. */
rumchivoat_number rumchivoat_native_number(uint32_t mode, uint32_t width, uint32_t height, uint32_t logical);

/* The tile that a cell belongs to: from a native number to a logical one.
 * Reads and writes no lent byte. Refused: 1 mode; 2 pce_sprite; 4 width or height as in rumchivoat_set_new, or the
 * tile's number would be above 65,535. Stack: RUMCHIVOAT_STACK_OTHERS. */
rumchivoat_number rumchivoat_logical_number(uint32_t mode, uint32_t width, uint32_t height, uint32_t native);

/* Finds the first tile of a title that matches: of the common ones, then of its own, flips as in rumchivoat_set_look_up.
 * A title is a set with a common store beside its own: common_count tiles of the set's size, which no call writes, and
 * which other titles may be lent too. Own tiles are numbered after the common ones. A title's set is made, reset, written
 * and read by the set's calls.
 * Reads    `common`: its first common_count tiles; `store`: the stored tiles; `pixels`: width x height, each cut to its
 *          low depth bits.
 * Refused  1 mode; 3 depth; 4 width or height; 6 the set counts more tiles than its room, common_count is more than the
 *          whole tiles of `common`, or both counts together are more than 65,535; 7 pixels_len.
 * Stack    RUMCHIVOAT_STACK_OTHERS. */
rumchivoat_held rumchivoat_title_look_up(rumchivoat_set set, uint32_t common_count, const uint8_t *common,
                                         size_t common_len, const uint8_t *store, size_t store_len,
                                         const uint8_t *pixels, size_t pixels_len);

/* Adds a tile to a title's own set: discarded where discarding is on and it matches a common or an own one, else stored
 * at the end of the own ones.
 * Reads    `common`, `store` and `pixels`, as rumchivoat_title_look_up.
 * Writes   `store`: the tile's pixels after those stored, where it is stored.
 * Refused  with the set that came: 1 mode; 3 depth; 4 width or height; 6 as rumchivoat_title_look_up; 7 pixels_len;
 *          12 no room for it, or both counts together are 65,535; 13 it is to be discarded and the counter is full.
 * Stack    RUMCHIVOAT_STACK_OTHERS. */
rumchivoat_set_answer rumchivoat_title_add(rumchivoat_set set, uint32_t common_count, const uint8_t *common,
                                           size_t common_len, uint8_t *store, size_t store_len, const uint8_t *pixels,
                                           size_t pixels_len);

/* Converts a picture of columns x rows tiles of 8x8, 1 to 64 of each, into tiles and a map. Room is the least of the
 * limit if it is not 0, the tile numbers that an entry can hold, and the whole tiles of `tiles`.
 * Reads    `pixels`: RUMCHIVOAT_PICTURE_PIXELS(columns, rows), row by row, each cut to its low depth bits.
 * Writes   `tiles`: 8 x depth for each tile stored; `map`: RUMCHIVOAT_MAP_BYTES(mode, columns, rows).
 * Refused  1 mode; 2 pce_sprite; 3 depth; 4 columns or rows; 5 flip in a mode without flips; 7 pixels_len; 16 palette;
 *          11 map_len; 12 no room for the tiles, `tiles` too short included.
 * Stack    RUMCHIVOAT_STACK_CONVERT. */
rumchivoat_picture rumchivoat_convert(uint32_t mode, uint32_t depth, bool flip, bool discard, uint32_t limit,
                                      uint32_t palette, uint32_t columns, uint32_t rows, const uint8_t *pixels,
                                      size_t pixels_len, uint8_t *tiles, size_t tiles_len, uint8_t *map,
                                      size_t map_len);

/* A run of a picture of columns x rows tiles of 8x8, of which none has come. The settings are rumchivoat_convert's.
 * Reads and writes no lent byte. Refused: 1 mode; 2 pce_sprite; 3 depth; 4 columns or rows; 5 flip in a mode without
 * flips; 16 palette. Stack: RUMCHIVOAT_STACK_OTHERS. */
rumchivoat_strip_run_answer rumchivoat_strip_start(uint32_t mode, uint32_t depth, bool flip, bool discard,
                                                   uint32_t limit, uint32_t palette, uint32_t columns, uint32_t rows);

/* Takes the next rows of a run's picture, one or more. However a picture is cut into strips, with the same lengths of
 * both buffers, rumchivoat_convert would write the same bytes and count the same; where it is done, every strip is, and
 * where it is refused with 12, some strip is.
 * Reads    `pixels`: RUMCHIVOAT_STRIP_PIXELS(columns, rows of the strip), row by row, each cut to its low depth bits;
 *          `tiles`: the bytes of the run's tiles, whatever they hold.
 * Writes   `run`: its three counts; `tiles`: 8 x depth for each tile stored, after those of the run; `map`: an entry for
 *          each tile of the strip, after those of the rows taken. Answers the counts and the lengths so far.
 * Refused  with the record as it came: 1 mode; 2 pce_sprite; 3 depth; 4 columns or rows; 5 flip in a mode without flips;
 *          6 more tiles counted than the room, or more rows than the picture has; 19 more pixels than those still to
 *          come; 7 no pixels, or no whole rows; 16 palette; 11 map_len, which is the whole picture's at every strip;
 *          12 no room for the tiles, `tiles` too short included; 13 the discard counter would pass 4,294,967,295.
 * Stack    RUMCHIVOAT_STACK_STRIP. */
rumchivoat_picture rumchivoat_strip_take(rumchivoat_strip_run *run, const uint8_t *pixels, size_t pixels_len,
                                         uint8_t *tiles, size_t tiles_len, uint8_t *map, size_t map_len);

/* The whole picture's counts and lengths, of a run all of whose rows have come. The record stays with the caller: where
 * the end is refused, the run goes on.
 * Reads and writes no lent byte. Refused: 1 mode; 2 pce_sprite; 3 depth; 4 columns or rows; 5 flip in a mode without
 * flips; 6 more tiles counted than the limit or an entry allows, or more rows than the picture has; 19 rows are still to
 * come; 16 palette. Stack: RUMCHIVOAT_STACK_OTHERS. */
rumchivoat_picture rumchivoat_strip_end(rumchivoat_strip_run run);

/* Draws a map's tiles; inverts rumchivoat_convert.
 * Reads    `tiles`: whole tiles of 8 x depth; `map`: RUMCHIVOAT_MAP_BYTES(mode, columns, rows).
 * Writes   `out`: RUMCHIVOAT_PICTURE_PIXELS(columns, rows), row by row.
 * Refused  1 mode; 2 pce_sprite; 3 depth; 4 columns or rows; 7 tiles_len, map_len, or a map that names a tile after the
 *          last; 11 out_len.
 * Stack    RUMCHIVOAT_STACK_OTHERS. */
rumchivoat_written rumchivoat_redraw(uint32_t mode, uint32_t depth, uint32_t columns, uint32_t rows,
                                     const uint8_t *tiles, size_t tiles_len, const uint8_t *map, size_t map_len,
                                     uint8_t *out, size_t out_len);

/* Makes the mode 7 block as the console holds it: its even bytes are the 128x128 map's, its odd ones those of the 256
 * tiles, of 64 pixels each. Byte 2i is byte i of `map`, and byte 2i + 1 byte i of `tiles`; 0 where that has ended. A
 * picture's map has fewer columns: the host lays it out first, 128 bytes a row.
 * Reads    `tiles` and `map`: RUMCHIVOAT_MODE7_HALF of each, or fewer, or none.
 * Writes   `out`: RUMCHIVOAT_MODE7_BLOCK.
 * Refused  7 tiles_len or map_len is more than RUMCHIVOAT_MODE7_HALF; 11 out_len.
 * Stack    RUMCHIVOAT_STACK_OTHERS. */
rumchivoat_written rumchivoat_mode7_make(const uint8_t *tiles, size_t tiles_len, const uint8_t *map, size_t map_len,
                                         uint8_t *out, size_t out_len);

/* Splits a mode 7 block into its halves; inverts rumchivoat_mode7_make, whose inputs come back with the 0 fill.
 * Reads    `block`: RUMCHIVOAT_MODE7_BLOCK.
 * Writes   `tiles`: the odd bytes; `map`: the even ones; RUMCHIVOAT_MODE7_HALF in each, which is the length answered.
 * Refused  7 block_len; 11 tiles_len or map_len.
 * Stack    RUMCHIVOAT_STACK_OTHERS. */
rumchivoat_written rumchivoat_mode7_split(const uint8_t *block, size_t block_len, uint8_t *tiles, size_t tiles_len,
                                          uint8_t *map, size_t map_len);

/* The program `convert` on slices: a sheet and its pixels come to a report with tile bytes and map bytes, or to the one
 * line `refused=N`. `refusal` is the N that the text tells, 0 for a report, and `written` the length of the text, that
 * of a refusal's line too.
 * Reads    `input`: a sheet, at most RUMCHIVOAT_SHEET_MOST.
 * Writes   `out`: the whole text, at most RUMCHIVOAT_TEXT_MOST.
 * Refused  14 the sheet is not as it should be; then as rumchivoat_convert with 65,536 bytes for tiles: 2, 3, 4, 5, 16,
 *          12. In all these the text tells the number. 11 where the text does not fit `out`: then nothing is written.
 * Stack    RUMCHIVOAT_STACK_RUN. */
rumchivoat_written rumchivoat_run(const uint8_t *input, size_t input_len, uint8_t *out, size_t out_len);

#ifdef __cplusplus
}
#endif

#endif
