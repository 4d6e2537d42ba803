/* Calls every function of the x86-64 archive by the C rules: each with a call that is done, its answer and every lent
 * byte held to what they should be, and with a refused call for each number that it gives, all lent bytes as they were.
 * It prints a line for each, `CALL NUMBER`, 0 for one that is done, and ends with status 1 where anything differs.
 *
 * It is C99 and C++17 at once, so that both kinds of host are tried, and stands alone, without a C library. calls.sh
 * builds it both ways and holds its lines to the exports and to the table in docs/REFUSALS.md. */
#include "rumchivoat.h"

/* ---- what a C library would give */

#ifdef __cplusplus
extern "C" {
#endif
void *memset(void *to, int byte, size_t n);
void *memcpy(void *to, const void *from, size_t n);
int memcmp(const void *a, const void *b, size_t n);
void _start(void);
#ifdef __cplusplus
}
#endif

static long system_call(long number, long a, long b, long c) {
    long result;
    __asm__ volatile("syscall" : "=a"(result) : "a"(number), "D"(a), "S"(b), "d"(c) : "rcx", "r11", "memory");
    return result;
}

static size_t length_of(const char *text) {
    size_t length = 0;
    while (text[length]) length++;
    return length;
}

static void say(const char *text) {
    system_call(1, 1, (long)text, (long)length_of(text));
}

static void say_number(size_t n) {
    char digits[21];
    size_t at = sizeof digits - 1;
    digits[at] = 0;
    do {
        digits[--at] = (char)('0' + n % 10);
        n /= 10;
    } while (n);
    say(digits + at);
}

/* volatile, so that the compiler does not make calls of these functions out of their own loops */
void *memset(void *to, int byte, size_t n) {
    for (size_t i = 0; i < n; i++) ((volatile uint8_t *)to)[i] = (uint8_t)byte;
    return to;
}

void *memcpy(void *to, const void *from, size_t n) {
    for (size_t i = 0; i < n; i++) ((volatile uint8_t *)to)[i] = ((const uint8_t *)from)[i];
    return to;
}

int memcmp(const void *a, const void *b, size_t n) {
    for (size_t i = 0; i < n; i++) {
        int off = ((const volatile uint8_t *)a)[i] - ((const volatile uint8_t *)b)[i];
        if (off) return off;
    }
    return 0;
}

/* ---- what is lent, and what it should hold */

struct buffers {
    uint8_t pixels[512];
    uint8_t bytes[1024];
    uint8_t input[512];
    uint8_t out[2048];
    uint8_t store[4096];
    uint8_t common[512];
    uint8_t map[16];
    uint8_t tile_half[RUMCHIVOAT_MODE7_HALF + 1];
    uint8_t map_half[RUMCHIVOAT_MODE7_HALF + 1];
    uint8_t block[RUMCHIVOAT_MODE7_BLOCK + 1];
};

static struct buffers lent, due;

static bool all_right = true;

static bool as_due(void) {
    return memcmp(&lent, &due, sizeof lent) == 0;
}

/* What stands in the buffers is what they should hold: before a call that changes nothing. */
static void keep(void) {
    memcpy(&due, &lent, sizeof due);
}

/* Noise everywhere but for the pixels, which are 0. */
static void begin(void) {
    memset(&lent, 0xa5, sizeof lent);
    memset(lent.pixels, 0, sizeof lent.pixels);
    keep();
}

/* A call's line; `right` is whether its answer is the one that is due. */
static void tell(const char *call, uint32_t number, bool right) {
    say(call);
    say(" ");
    say_number(number);
    if (!right || !as_due()) {
        say(right ? " FAILED: a lent byte is not what it should be" : " FAILED: the answer is not what it should be");
        all_right = false;
    }
    say("\n");
    keep();
}

/* ---- answers */

static bool is_written(rumchivoat_written w, uint32_t refusal, size_t written) {
    return w.refusal == refusal && w.written == written;
}

static bool is_number(rumchivoat_number n, uint32_t refusal, uint32_t value) {
    return n.refusal == refusal && n.value == value;
}

static bool is_set(rumchivoat_set a, rumchivoat_set b) {
    return a.mode == b.mode && a.depth == b.depth && a.width == b.width && a.height == b.height && a.flips == b.flips
        && a.discarding == b.discarding && a.limit == b.limit && a.stored == b.stored && a.discarded == b.discarded;
}

static bool is_run(rumchivoat_strip_run a, rumchivoat_strip_run b) {
    return a.mode == b.mode && a.depth == b.depth && a.flip == b.flip && a.discard == b.discard && a.limit == b.limit
        && a.palette == b.palette && a.columns == b.columns && a.rows == b.rows && a.taken == b.taken
        && a.tiles == b.tiles && a.discarded == b.discarded;
}

static bool is_picture(rumchivoat_picture p, uint32_t refusal, uint32_t tiles, uint32_t discarded, size_t tile_bytes,
                       size_t map_bytes) {
    return p.refusal == refusal && p.tiles == tiles && p.discarded == discarded && p.tile_bytes == tile_bytes
        && p.map_bytes == map_bytes;
}

/* Refused calls, by the kind of their answer: the number, and all else 0 or false, or the set that came. */

static void no_bytes(const char *call, uint32_t number, rumchivoat_written w) {
    tell(call, number, is_written(w, number, 0));
}

static void no_number(const char *call, uint32_t number, rumchivoat_number n) {
    tell(call, number, is_number(n, number, 0));
}

static void no_entry(const char *call, uint32_t number, rumchivoat_entry e) {
    tell(call, number, e.refusal == number && !e.tile && !e.palette && !e.flip_h && !e.flip_v && !e.priority);
}

static void no_place(const char *call, uint32_t number, rumchivoat_place p) {
    tell(call, number, p.refusal == number && !p.found && !p.place && !p.flip_h && !p.flip_v);
}

static void no_held(const char *call, uint32_t number, rumchivoat_held h) {
    bool bare = !h.found && !h.place && !h.flip_h && !h.flip_v && !h.common && !h.at && !h.len;
    tell(call, number, h.refusal == number && bare);
}

static void no_picture(const char *call, uint32_t number, rumchivoat_picture p) {
    tell(call, number, is_picture(p, number, 0, 0, 0, 0));
}

static void same_set(const char *call, uint32_t number, rumchivoat_set_answer a, rumchivoat_set came) {
    tell(call, number, a.refusal == number && is_set(a.set, came));
}

/* ---- the modes that the calls below use */

enum {
    SNES = RUMCHIVOAT_MODE_SNES,
    MODE7 = RUMCHIVOAT_MODE_SNES_MODE7,
    GB = RUMCHIVOAT_MODE_GB,
    GBA = RUMCHIVOAT_MODE_GBA,
    MD = RUMCHIVOAT_MODE_MD,
    SMS = RUMCHIVOAT_MODE_SMS,
    PCE = RUMCHIVOAT_MODE_PCE,
    SPRITE = RUMCHIVOAT_MODE_PCE_SPRITE,
    NGP = RUMCHIVOAT_MODE_NGP,
    WS = RUMCHIVOAT_MODE_WS,
    WSC = RUMCHIVOAT_MODE_WSC,
    WSC_PACKED = RUMCHIVOAT_MODE_WSC_PACKED,
    NO_MODE = WSC_PACKED + 1
};

/* ---- the calls, as the header has them */

static void interface(void) {
    begin();
    tell("rumchivoat_interface", 0, rumchivoat_interface() == RUMCHIVOAT_INTERFACE);
}

static void pack_tile(void) {
    static const char call[] = "rumchivoat_pack_tile";
    static const uint8_t packed[16] = {0x55, 0x33};
    uint8_t *p = lent.pixels, *out = lent.out;
    begin();
    for (int x = 0; x < 8; x++) p[x] = (uint8_t)(x % 4);
    keep();
    rumchivoat_written w = rumchivoat_pack_tile(SNES, 2, 8, 8, p, 64, out, 17);
    memcpy(due.out, packed, 16);
    tell(call, 0, is_written(w, 0, RUMCHIVOAT_TILE_BYTES(2, 8, 8)));
    no_bytes(call, RUMCHIVOAT_REFUSED_MODE, rumchivoat_pack_tile(NO_MODE, 2, 8, 8, p, 64, out, 16));
    no_bytes(call, RUMCHIVOAT_REFUSED_DEPTH, rumchivoat_pack_tile(SNES, 3, 8, 8, p, 64, out, 16));
    no_bytes(call, RUMCHIVOAT_REFUSED_SIZE, rumchivoat_pack_tile(SNES, 2, 16, 16, p, 256, out, 64));
    no_bytes(call, RUMCHIVOAT_REFUSED_LENGTH, rumchivoat_pack_tile(SNES, 2, 8, 8, p, 63, out, 16));
    no_bytes(call, RUMCHIVOAT_REFUSED_OUTPUT, rumchivoat_pack_tile(SNES, 2, 8, 8, p, 64, out, 15));
    p[63] = 4;
    keep();
    no_bytes(call, RUMCHIVOAT_REFUSED_PIXEL, rumchivoat_pack_tile(SNES, 2, 8, 8, p, 64, out, 16));
}

static void unpack_tile(void) {
    static const char call[] = "rumchivoat_unpack_tile";
    uint8_t *b = lent.bytes, *out = lent.out;
    begin();
    memset(b, 0, 16);
    b[0] = 0x55;
    b[1] = 0x33;
    keep();
    rumchivoat_written w = rumchivoat_unpack_tile(SNES, 2, 8, 8, b, 16, out, 65);
    memset(due.out, 0, 64);
    for (int x = 0; x < 8; x++) due.out[x] = (uint8_t)(x % 4);
    tell(call, 0, is_written(w, 0, RUMCHIVOAT_TILE_PIXELS(8, 8)));
    no_bytes(call, RUMCHIVOAT_REFUSED_MODE, rumchivoat_unpack_tile(NO_MODE, 2, 8, 8, b, 16, out, 64));
    no_bytes(call, RUMCHIVOAT_REFUSED_DEPTH, rumchivoat_unpack_tile(MD, 2, 8, 8, b, 16, out, 64));
    no_bytes(call, RUMCHIVOAT_REFUSED_SIZE, rumchivoat_unpack_tile(SPRITE, 4, 8, 8, b, 32, out, 64));
    no_bytes(call, RUMCHIVOAT_REFUSED_LENGTH, rumchivoat_unpack_tile(SNES, 2, 8, 8, b, 17, out, 64));
    no_bytes(call, RUMCHIVOAT_REFUSED_OUTPUT, rumchivoat_unpack_tile(SNES, 2, 8, 8, b, 16, out, 63));
}

/* A row of a tile, and the same flipped h. Of its bytes, `depth` in all, so many stand together: the others come after
 * the eight rows of those. */
struct tile_row {
    uint32_t mode;
    uint32_t depth;
    uint32_t together;
    uint8_t bytes[8];
    uint8_t flipped[8];
};

/* Each way in which a mode keeps a row: planes by themselves, in pairs and by fours, two bits a pixel, nibbles with the
 * first pixel in the low one and in the high one, and plain bytes. */
static const struct tile_row tile_rows[] = {
    {GB, 1, 1, {0x13}, {0xc8}},
    {SNES, 2, 2, {0x55, 0x33}, {0xaa, 0xcc}},
    {SNES, 4, 2, {0x01, 0x02, 0x0f, 0x35}, {0x80, 0x40, 0xf0, 0xac}},
    {SNES, 8, 2, {0x01, 0x02, 0x04, 0x08, 0x07, 0x0f, 0x35, 0x13}, {0x80, 0x40, 0x20, 0x10, 0xe0, 0xf0, 0xac, 0xc8}},
    {SMS, 4, 4, {0x01, 0x02, 0x0f, 0x35}, {0x80, 0x40, 0xf0, 0xac}},
    {NGP, 2, 2, {0x01, 0x80}, {0x02, 0x40}},
    {GBA, 4, 4, {0x21, 0x43, 0x65, 0x87}, {0x78, 0x56, 0x34, 0x12}},
    {WSC_PACKED, 4, 4, {0x12, 0x34, 0x56, 0x78}, {0x87, 0x65, 0x43, 0x21}},
    {MODE7, 8, 8, {0x00, 0x01, 0x02, 0x7f, 0x80, 0xfd, 0xfe, 0xff}, {0xff, 0xfe, 0xfd, 0x80, 0x7f, 0x02, 0x01, 0x00}},
};

enum { TILE_ROWS = sizeof tile_rows / sizeof tile_rows[0] };

/* A tile of 0 but for its rows 0 and 2, or upside down 7 and 5: they have the row, or its flip. */
static void put_rows(uint8_t *tile, const struct tile_row *row, bool flipped, bool upside_down) {
    const uint8_t *bytes = flipped ? row->flipped : row->bytes;
    uint32_t together = row->together;
    memset(tile, 0, RUMCHIVOAT_TILE_BYTES(row->depth, 8, 8));
    for (uint32_t i = 0; i < row->depth; i++) {
        uint8_t *first = tile + i / together * 8 * together + i % together;
        first[(upside_down ? 7 : 0) * together] = bytes[i];
        first[(upside_down ? 5 : 2) * together] = bytes[i];
    }
}

/* Flips the lent tile, with so many bytes more lent than are written. */
static rumchivoat_written flip(uint32_t mode, uint32_t depth, bool h, bool v, size_t more) {
    size_t length = RUMCHIVOAT_TILE_BYTES(depth, 8, 8);
    return rumchivoat_flip_tile(mode, depth, h, v, lent.bytes, length, lent.out, length + more);
}

static const char flip_call[] = "rumchivoat_flip_tile";

static void flips_row(const struct tile_row *row, bool h, bool v) {
    begin();
    put_rows(lent.bytes, row, false, false);
    keep();
    rumchivoat_written w = flip(row->mode, row->depth, h, v, 1);
    put_rows(due.out, row, h, v);
    tell(flip_call, 0, is_written(w, 0, RUMCHIVOAT_TILE_BYTES(row->depth, 8, 8)));
}

/* Any bytes to be flipped, but not the noise: flipped into the noise, it would not show. */
static void begin_flip(void) {
    begin();
    for (size_t i = 0; i < sizeof lent.bytes; i++) lent.bytes[i] = (uint8_t)(i * i * 37 + i * 11 + 5);
    keep();
}

/* They are flipped: what the way through the pixels gives is due. */
static void flips_any(uint32_t mode, uint32_t depth, bool h, bool v) {
    uint8_t pixels[64], flipped[64];
    size_t length = RUMCHIVOAT_TILE_BYTES(depth, 8, 8);
    begin_flip();
    rumchivoat_unpack_tile(mode, depth, 8, 8, lent.bytes, length, pixels, 64);
    for (int i = 0; i < 64; i++) flipped[i] = pixels[(v ? 7 - i / 8 : i / 8) * 8 + (h ? 7 - i % 8 : i % 8)];
    rumchivoat_written w = flip(mode, depth, h, v, 0);
    rumchivoat_pack_tile(mode, depth, 8, 8, flipped, 64, due.out, length);
    tell(flip_call, 0, is_written(w, 0, length));
}

/* Whether tiles of 8x8 have this mode and depth, as unpacking them tells. */
static bool is_native(uint32_t mode, uint32_t depth) {
    static const uint8_t bytes[64] = {0};
    uint8_t pixels[64];
    return rumchivoat_unpack_tile(mode, depth, 8, 8, bytes, 8 * depth, pixels, 64).refusal == RUMCHIVOAT_DONE;
}

static void flip_tile(void) {
    for (int flips = 0; flips < 4; flips++) {
        bool h = flips % 2, v = flips / 2;
        for (int i = 0; i < TILE_ROWS; i++) flips_row(&tile_rows[i], h, v);
        for (uint32_t mode = 0; mode < NO_MODE; mode++)
            for (uint32_t depth = 1; depth <= 8; depth++)
                if (is_native(mode, depth)) flips_any(mode, depth, h, v);
    }
}

/* A flip of so many lent bytes that is refused. */
static void no_flip(uint32_t number, uint32_t mode, uint32_t depth, size_t bytes_len, size_t out_len) {
    no_bytes(flip_call, number,
             rumchivoat_flip_tile(mode, depth, true, true, lent.bytes, bytes_len, lent.out, out_len));
    no_bytes(flip_call, number,
             rumchivoat_flip_tile(mode, depth, false, false, lent.bytes, bytes_len, lent.out, out_len));
}

static void flip_tile_refused(void) {
    begin_flip();
    no_flip(RUMCHIVOAT_REFUSED_MODE, NO_MODE, 2, 16, 16);
    /* no bytes of a sprite are right, neither a cell's nor a whole sprite's */
    no_flip(RUMCHIVOAT_REFUSED_PCE_SPRITE, SPRITE, 4, 32, 32);
    no_flip(RUMCHIVOAT_REFUSED_PCE_SPRITE, SPRITE, 4, 128, 128);
    no_flip(RUMCHIVOAT_REFUSED_DEPTH, SNES, 3, 24, 24);
    no_flip(RUMCHIVOAT_REFUSED_DEPTH, SNES, 0, 0, 0);
    /* a length that is not one tile: two are not */
    no_flip(RUMCHIVOAT_REFUSED_LENGTH, SNES, 2, 15, 16);
    no_flip(RUMCHIVOAT_REFUSED_LENGTH, SNES, 2, 17, 17);
    no_flip(RUMCHIVOAT_REFUSED_LENGTH, SNES, 2, 32, 32);
    no_flip(RUMCHIVOAT_REFUSED_LENGTH, SNES, 2, 0, 16);
    no_flip(RUMCHIVOAT_REFUSED_OUTPUT, SNES, 2, 16, 15);
    no_flip(RUMCHIVOAT_REFUSED_OUTPUT, SNES, 2, 16, 0);
    /* each with all that come after it */
    no_flip(RUMCHIVOAT_REFUSED_MODE, NO_MODE, 3, 15, 0);
    no_flip(RUMCHIVOAT_REFUSED_PCE_SPRITE, SPRITE, 3, 15, 0);
    no_flip(RUMCHIVOAT_REFUSED_DEPTH, SNES, 3, 15, 0);
    no_flip(RUMCHIVOAT_REFUSED_LENGTH, SNES, 2, 15, 0);
}

static void pack_colors(void) {
    static const char call[] = "rumchivoat_pack_colors";
    static const uint8_t color[4] = {7, 1, 4, 255}, bright[4] = {8, 1, 4, 255};
    uint8_t *out = lent.out;
    begin();
    rumchivoat_written w = rumchivoat_pack_colors(MD, color, 4, out, 3);
    due.out[0] = 0x08;
    due.out[1] = 0x2e;
    tell(call, 0, is_written(w, 0, 2));
    no_bytes(call, RUMCHIVOAT_REFUSED_MODE, rumchivoat_pack_colors(NO_MODE, color, 4, out, 2));
    no_bytes(call, RUMCHIVOAT_REFUSED_LENGTH, rumchivoat_pack_colors(GB, color, 4, out, 2));
    no_bytes(call, RUMCHIVOAT_REFUSED_COMPONENT, rumchivoat_pack_colors(MD, bright, 4, out, 2));
    no_bytes(call, RUMCHIVOAT_REFUSED_OUTPUT, rumchivoat_pack_colors(MD, color, 4, out, 1));
}

static void unpack_colors(void) {
    static const char call[] = "rumchivoat_unpack_colors";
    static const uint8_t bytes[2] = {0x08, 0x2e}, color[4] = {7, 1, 4, 255};
    uint8_t *out = lent.out;
    begin();
    rumchivoat_written w = rumchivoat_unpack_colors(MD, bytes, 2, out, 5);
    memcpy(due.out, color, 4);
    tell(call, 0, is_written(w, 0, 4));
    no_bytes(call, RUMCHIVOAT_REFUSED_MODE, rumchivoat_unpack_colors(NO_MODE, bytes, 2, out, 4));
    no_bytes(call, RUMCHIVOAT_REFUSED_LENGTH, rumchivoat_unpack_colors(MD, bytes, 1, out, 4));
    no_bytes(call, RUMCHIVOAT_REFUSED_OUTPUT, rumchivoat_unpack_colors(MD, bytes, 2, out, 3));
}

static void channels(void) {
    static const char reduce[] = "rumchivoat_reduce_channel", scale[] = "rumchivoat_scale_up";
    begin();
    /* 100 x 31 / 255 is 12.16; 255 cut to three bits is 7 */
    tell(reduce, 0, is_number(rumchivoat_reduce_channel(SNES, 100, true), 0, 12));
    tell(reduce, 0, is_number(rumchivoat_reduce_channel(MD, 255, false), 0, 7));
    no_number(reduce, RUMCHIVOAT_REFUSED_MODE, rumchivoat_reduce_channel(NO_MODE, 100, true));
    tell(scale, 0, is_number(rumchivoat_scale_up(GB, 2), 0, 0xaa));
    no_number(scale, RUMCHIVOAT_REFUSED_MODE, rumchivoat_scale_up(NO_MODE, 2));
    no_number(scale, RUMCHIVOAT_REFUSED_COMPONENT, rumchivoat_scale_up(GB, 4));
}

static void pack_entry(void) {
    static const char call[] = "rumchivoat_pack_entry";
    uint8_t *out = lent.out;
    begin();
    rumchivoat_written w = rumchivoat_pack_entry(SNES, 513, 5, true, false, true, out, 3);
    due.out[0] = 0x01;
    due.out[1] = 0x76;
    tell(call, 0, is_written(w, 0, RUMCHIVOAT_ENTRY_BYTES(SNES)));
    no_bytes(call, RUMCHIVOAT_REFUSED_MODE, rumchivoat_pack_entry(NO_MODE, 0, 0, false, false, false, out, 2));
    no_bytes(call, RUMCHIVOAT_REFUSED_PCE_SPRITE, rumchivoat_pack_entry(SPRITE, 0, 0, false, false, false, out, 2));
    no_bytes(call, RUMCHIVOAT_REFUSED_ENTRY_TILE, rumchivoat_pack_entry(PCE, 4096, 15, false, false, false, out, 2));
    no_bytes(call, RUMCHIVOAT_REFUSED_ENTRY_TILE, rumchivoat_pack_entry(WS, 512, 15, true, true, false, out, 2));
    no_bytes(call, RUMCHIVOAT_REFUSED_ENTRY_PALETTE, rumchivoat_pack_entry(PCE, 4095, 16, true, false, true, out, 1));
    no_bytes(call, RUMCHIVOAT_REFUSED_ENTRY_FLIP, rumchivoat_pack_entry(PCE, 4095, 15, true, false, true, out, 1));
    no_bytes(call, RUMCHIVOAT_REFUSED_ENTRY_PRIORITY, rumchivoat_pack_entry(PCE, 4095, 15, false, false, true, out, 1));
    no_bytes(call, RUMCHIVOAT_REFUSED_OUTPUT, rumchivoat_pack_entry(SNES, 513, 5, true, false, true, out, 1));
}

static void unpack_entry(void) {
    static const char call[] = "rumchivoat_unpack_entry";
    static const uint8_t bytes[2] = {0x01, 0x76};
    static const uint8_t ones[2] = {0xff, 0xff};
    begin();
    rumchivoat_entry e = rumchivoat_unpack_entry(SNES, bytes, 2);
    bool fields = e.tile == 513 && e.palette == 5 && e.flip_h && !e.flip_v && e.priority;
    tell(call, 0, e.refusal == RUMCHIVOAT_DONE && fields);
    /* of ws one bit is unused, which in wsc is a tile bit */
    e = rumchivoat_unpack_entry(WS, ones, 2);
    tell(call, 0, e.refusal == RUMCHIVOAT_DONE && e.tile == 511 && e.palette == 15);
    e = rumchivoat_unpack_entry(WSC, ones, 2);
    tell(call, 0, e.refusal == RUMCHIVOAT_DONE && e.tile == 1023 && e.palette == 15);
    no_entry(call, RUMCHIVOAT_REFUSED_MODE, rumchivoat_unpack_entry(NO_MODE, bytes, 2));
    no_entry(call, RUMCHIVOAT_REFUSED_PCE_SPRITE, rumchivoat_unpack_entry(SPRITE, bytes, 2));
    no_entry(call, RUMCHIVOAT_REFUSED_LENGTH, rumchivoat_unpack_entry(SNES, bytes, 1));
}

static void tile_index(void) {
    static const char call[] = "rumchivoat_tile_index";
    uint8_t *out = lent.out;
    begin();
    rumchivoat_written w = rumchivoat_tile_index(SNES, 513, 5, true, false, true, out, 3);
    due.out[0] = 0x01;
    due.out[1] = 0x02;
    tell(call, 0, is_written(w, 0, 2));
    no_bytes(call, RUMCHIVOAT_REFUSED_MODE, rumchivoat_tile_index(NO_MODE, 0, 0, false, false, false, out, 2));
    no_bytes(call, RUMCHIVOAT_REFUSED_PCE_SPRITE, rumchivoat_tile_index(SPRITE, 0, 0, false, false, false, out, 2));
    no_bytes(call, RUMCHIVOAT_REFUSED_ENTRY_TILE, rumchivoat_tile_index(SNES, 1024, 8, false, false, false, out, 2));
    no_bytes(call, RUMCHIVOAT_REFUSED_ENTRY_PALETTE, rumchivoat_tile_index(SNES, 0, 8, false, false, false, out, 2));
    no_bytes(call, RUMCHIVOAT_REFUSED_ENTRY_FLIP, rumchivoat_tile_index(PCE, 0, 0, false, true, true, out, 2));
    no_bytes(call, RUMCHIVOAT_REFUSED_ENTRY_PRIORITY, rumchivoat_tile_index(PCE, 0, 0, false, false, true, out, 2));
    no_bytes(call, RUMCHIVOAT_REFUSED_OUTPUT, rumchivoat_tile_index(SNES, 513, 5, true, false, true, out, 1));
}

static void attribute(void) {
    static const char call[] = "rumchivoat_attribute";
    begin();
    tell(call, 0, is_number(rumchivoat_attribute(SNES, 513, 5, true, false, true), 0, 0x74));
    no_number(call, RUMCHIVOAT_REFUSED_MODE, rumchivoat_attribute(NO_MODE, 0, 0, false, false, false));
    no_number(call, RUMCHIVOAT_REFUSED_PCE_SPRITE, rumchivoat_attribute(SPRITE, 0, 0, false, false, false));
    no_number(call, RUMCHIVOAT_REFUSED_ENTRY_TILE, rumchivoat_attribute(PCE, 4096, 16, true, false, true));
    no_number(call, RUMCHIVOAT_REFUSED_ENTRY_PALETTE, rumchivoat_attribute(PCE, 0, 16, true, false, true));
    no_number(call, RUMCHIVOAT_REFUSED_ENTRY_FLIP, rumchivoat_attribute(PCE, 0, 0, true, false, true));
    no_number(call, RUMCHIVOAT_REFUSED_ENTRY_PRIORITY, rumchivoat_attribute(PCE, 0, 0, false, false, true));
}

/* ---- sets */

/* A set of snes tiles of 16x16 at depth 2, flips and discarding on. */
static rumchivoat_set set_of(uint32_t limit, uint32_t stored, uint32_t discarded) {
    rumchivoat_set set = {SNES, 2, 16, 16, true, true, 0, 0, 0};
    set.limit = limit;
    set.stored = stored;
    set.discarded = discarded;
    return set;
}

static rumchivoat_set with_mode(rumchivoat_set set, uint32_t mode) {
    set.mode = mode;
    return set;
}

static rumchivoat_set with_depth(rumchivoat_set set, uint32_t depth) {
    set.depth = depth;
    return set;
}

static rumchivoat_set with_width(rumchivoat_set set, uint32_t width) {
    set.width = width;
    return set;
}

/* Pixel i of tile i's first row is 1, and of its first column 2: no two match. */
static void draw_tile(uint8_t *pixels, uint32_t i) {
    memset(pixels, 0, 256);
    pixels[i] = 1;
    pixels[16 * i] = 2;
}

enum { NINE = 9 };

/* Nine tiles in the store, and tile 3 with each row reversed in the pixels. */
static void begin_set(void) {
    begin();
    for (uint32_t i = 0; i < NINE; i++) draw_tile(lent.store + 256 * i, i);
    memset(lent.pixels, 0, 256);
    lent.pixels[12] = 1;
    lent.pixels[63] = 2;
    keep();
}

static void set_new(void) {
    static const char call[] = "rumchivoat_set_new";
    rumchivoat_set none = {0, 0, 0, 0, false, false, 0, 0, 0};
    begin();
    same_set(call, 0, rumchivoat_set_new(SNES, 2, 16, 16, true, true, 7), set_of(7, 0, 0));
    same_set(call, RUMCHIVOAT_REFUSED_MODE, rumchivoat_set_new(NO_MODE, 2, 16, 16, true, true, 7), none);
    same_set(call, RUMCHIVOAT_REFUSED_DEPTH, rumchivoat_set_new(SNES, 1, 16, 16, true, true, 7), none);
    same_set(call, RUMCHIVOAT_REFUSED_SIZE, rumchivoat_set_new(MD, 4, 16, 16, true, true, 7), none);
}

static void set_reset(void) {
    static const char call[] = "rumchivoat_set_reset";
    rumchivoat_set set = set_of(7, 5, 2), other;
    begin();
    same_set(call, 0, rumchivoat_set_reset(set), set_of(7, 0, 0));
    other = with_mode(set, NO_MODE);
    same_set(call, RUMCHIVOAT_REFUSED_MODE, rumchivoat_set_reset(other), other);
    other = with_depth(set, 1);
    same_set(call, RUMCHIVOAT_REFUSED_DEPTH, rumchivoat_set_reset(other), other);
    other = with_width(set, 24);
    same_set(call, RUMCHIVOAT_REFUSED_SIZE, rumchivoat_set_reset(other), other);
}

static void set_look_up(void) {
    static const char call[] = "rumchivoat_set_look_up";
    rumchivoat_set set = set_of(0, NINE, 0);
    uint8_t *s = lent.store, *p = lent.pixels;
    size_t room = NINE * 256;
    begin_set();
    rumchivoat_place place = rumchivoat_set_look_up(set, s, room, p, 256);
    bool third = place.found && place.place == 3 && place.flip_h && !place.flip_v;
    tell(call, 0, place.refusal == RUMCHIVOAT_DONE && third);
    no_place(call, RUMCHIVOAT_REFUSED_MODE, rumchivoat_set_look_up(with_mode(set, NO_MODE), s, room, p, 256));
    no_place(call, RUMCHIVOAT_REFUSED_DEPTH, rumchivoat_set_look_up(with_depth(set, 1), s, room, p, 256));
    no_place(call, RUMCHIVOAT_REFUSED_SIZE, rumchivoat_set_look_up(with_width(set, 24), s, room, p, 256));
    no_place(call, RUMCHIVOAT_REFUSED_COUNT, rumchivoat_set_look_up(set_of(0, NINE + 1, 0), s, room, p, 256));
    no_place(call, RUMCHIVOAT_REFUSED_LENGTH, rumchivoat_set_look_up(set, s, room, p, 255));
    p[0] = 3;
    keep();
    /* nothing found is no refusal */
    no_place(call, 0, rumchivoat_set_look_up(set, s, room, p, 256));
}

static void set_add(void) {
    static const char call[] = "rumchivoat_set_add";
    rumchivoat_set set = set_of(0, NINE, 0), other;
    uint8_t *s = lent.store, *p = lent.pixels;
    size_t full = NINE * 256;
    begin_set();
    same_set(call, 0, rumchivoat_set_add(set, s, full, p, 256), set_of(0, NINE, 1));
    other = with_mode(set, NO_MODE);
    same_set(call, RUMCHIVOAT_REFUSED_MODE, rumchivoat_set_add(other, s, full, p, 256), other);
    other = with_depth(set, 1);
    same_set(call, RUMCHIVOAT_REFUSED_DEPTH, rumchivoat_set_add(other, s, full, p, 256), other);
    other = with_width(set, 24);
    same_set(call, RUMCHIVOAT_REFUSED_SIZE, rumchivoat_set_add(other, s, full, p, 256), other);
    other = set_of(NINE - 1, NINE, 0);
    same_set(call, RUMCHIVOAT_REFUSED_COUNT, rumchivoat_set_add(other, s, full, p, 256), other);
    same_set(call, RUMCHIVOAT_REFUSED_LENGTH, rumchivoat_set_add(set, s, full, p, 255), set);
    other = set_of(0, NINE, 4294967295u);
    same_set(call, RUMCHIVOAT_REFUSED_DISCARDED, rumchivoat_set_add(other, s, full, p, 256), other);
    /* a tile that matches none: refused where the store is full, else stored, cut to the depth */
    p[0] = 4 + 3;
    keep();
    same_set(call, RUMCHIVOAT_REFUSED_ROOM, rumchivoat_set_add(set, s, full, p, 256), set);
    rumchivoat_set_answer stored = rumchivoat_set_add(set, s, full + 256, p, 256);
    memcpy(due.store + full, lent.pixels, 256);
    due.store[full] = 3;
    same_set(call, 0, stored, set_of(0, NINE + 1, 0));
}

static void set_write(void) {
    static const char call[] = "rumchivoat_set_write";
    rumchivoat_set set = set_of(0, NINE, 0);
    uint8_t *s = lent.store, *out = lent.out;
    size_t room = NINE * 256;
    begin_set();
    rumchivoat_written w = rumchivoat_set_write(set, s, room, out, 1025);
    /* nine tiles are 64 cells of 16 bytes: tile i begins at cell 2i, or 32 for tile 8, and its second row 16 on */
    memset(due.out, 0, 1024);
    for (int i = 0; i < NINE; i++) {
        uint8_t *cell = due.out + 16 * (i < 8 ? 2 * i : 32), *below = cell + 16 * 16;
        cell[i < 8 ? 0 : 16] = (uint8_t)(0x80 >> i % 8);
        if (i < 8) cell[2 * i + 1] = 0x80;
        else below[1] = 0x80;
        /* pixel (0,0) of tile 0 is drawn twice, and 2 stays */
        if (i == 0) cell[0] = 0;
    }
    tell(call, 0, is_written(w, 0, 1024));
    no_bytes(call, RUMCHIVOAT_REFUSED_MODE, rumchivoat_set_write(with_mode(set, NO_MODE), s, room, out, 1024));
    no_bytes(call, RUMCHIVOAT_REFUSED_DEPTH, rumchivoat_set_write(with_depth(set, 1), s, room, out, 1024));
    no_bytes(call, RUMCHIVOAT_REFUSED_SIZE, rumchivoat_set_write(with_width(set, 24), s, room, out, 1024));
    no_bytes(call, RUMCHIVOAT_REFUSED_COUNT, rumchivoat_set_write(set, s, room - 1, out, 1024));
    no_bytes(call, RUMCHIVOAT_REFUSED_OUTPUT, rumchivoat_set_write(set, s, room, out, 1023));
    s[room - 1] = 4;
    keep();
    no_bytes(call, RUMCHIVOAT_REFUSED_PIXEL, rumchivoat_set_write(set, s, room, out, 1024));
}

enum { TOO_MANY = 65536 };

static uint8_t many_bytes[TOO_MANY * 8], many_pixels[TOO_MANY * 64];

static bool all_are(const uint8_t *bytes, size_t n, uint8_t byte) {
    for (size_t i = 0; i < n; i++)
        if (bytes[i] != byte) return false;
    return true;
}

static void set_read(void) {
    static const char call[] = "rumchivoat_set_read";
    rumchivoat_set none = {0, 0, 0, 0, false, false, 0, 0, 0};
    uint8_t *b = lent.bytes, *s = lent.store;
    begin();
    memset(b, 0, 1024);
    /* cell 33 is the upper right one of tile 8 */
    b[33 * 16] = 0x80;
    keep();
    rumchivoat_set_answer a = rumchivoat_set_read(SNES, 2, 16, 16, true, b, 1024, s, sizeof lent.store);
    memset(due.store, 0, 16 * 256);
    due.store[8 * 256 + 8] = 1;
    same_set(call, 0, a, set_of(0, 16, 0));
    same_set(call, RUMCHIVOAT_REFUSED_MODE, rumchivoat_set_read(NO_MODE, 2, 16, 16, true, b, 1024, s, 4096), none);
    same_set(call, RUMCHIVOAT_REFUSED_DEPTH, rumchivoat_set_read(SNES, 3, 16, 16, true, b, 1024, s, 4096), none);
    same_set(call, RUMCHIVOAT_REFUSED_SIZE, rumchivoat_set_read(SNES, 2, 16, 24, true, b, 1024, s, 4096), none);
    same_set(call, RUMCHIVOAT_REFUSED_LENGTH, rumchivoat_set_read(SNES, 2, 16, 16, true, b, 1023, s, 4096), none);
    same_set(call, RUMCHIVOAT_REFUSED_OUTPUT, rumchivoat_set_read(SNES, 2, 16, 16, true, b, 1024, s, 4095), none);
    memset(many_pixels, 0xa5, sizeof many_pixels);
    a = rumchivoat_set_read(GB, 1, 8, 8, false, many_bytes, sizeof many_bytes, many_pixels, sizeof many_pixels);
    if (!all_are(many_pixels, sizeof many_pixels, 0xa5)) a.set.stored = TOO_MANY;
    same_set(call, RUMCHIVOAT_REFUSED_ROOM, a, none);
}

/* Two sprites of 16x16, of which the second has one pixel, are read and written again. */
static void set_read_sprites(void) {
    static const char call[] = "rumchivoat_set_read";
    rumchivoat_set none = {0, 0, 0, 0, false, false, 0, 0, 0}, sprites = {SPRITE, 4, 16, 16, true, true, 0, 2, 0};
    uint8_t *b = lent.bytes, *s = lent.store;
    begin();
    memset(b, 0, 256);
    b[128 + 97] = 0x02;
    keep();
    rumchivoat_set_answer a = rumchivoat_set_read(SPRITE, 4, 16, 16, true, b, 256, s, 513);
    memset(due.store, 0, 512);
    due.store[256 + 9] = 8;
    same_set(call, 0, a, sprites);
    rumchivoat_written w = rumchivoat_set_write(sprites, s, 512, lent.out, 257);
    memcpy(due.out, lent.bytes, 256);
    tell("rumchivoat_set_write", 0, is_written(w, 0, 256));
    same_set(call, RUMCHIVOAT_REFUSED_LENGTH, rumchivoat_set_read(SPRITE, 4, 16, 16, true, b, 255, s, 512), none);
    same_set(call, RUMCHIVOAT_REFUSED_LENGTH, rumchivoat_set_read(SPRITE, 4, 16, 16, true, b, 129, s, 512), none);
    /* whole cells that are no whole sprite */
    same_set(call, RUMCHIVOAT_REFUSED_LENGTH, rumchivoat_set_read(SPRITE, 4, 32, 16, true, b, 128, s, 512), none);
    same_set(call, RUMCHIVOAT_REFUSED_OUTPUT, rumchivoat_set_read(SPRITE, 4, 16, 16, true, b, 256, s, 511), none);
}

/* ---- titles */

enum { TWO = 2, MOST = 65535 };

/* Nine own tiles as in begin_set, and two common ones, which match none of them. */
static void begin_title(void) {
    begin_set();
    for (uint32_t i = 0; i < TWO; i++) draw_tile(lent.common + 256 * i, NINE + i);
    keep();
}

/* The second common tile in the pixels, the order of its rows reversed. */
static void ask_common(void) {
    memset(lent.pixels, 0, 256);
    lent.pixels[16 * 15 + NINE + 1] = 1;
    lent.pixels[16 * (15 - NINE - 1)] = 2;
    keep();
}

/* A set of gb tiles of 8x8, flips on; many_pixels are its common tiles, 65,536 blank ones. */
static rumchivoat_set cell_set(bool discarding, uint32_t stored) {
    rumchivoat_set set = {GB, 1, 8, 8, true, false, 0, 0, 0};
    set.discarding = discarding;
    set.stored = stored;
    return set;
}

/* Blank common tiles, as many as there may be, a blank own one, and a blank tile in the pixels. */
static void begin_cells(void) {
    begin();
    memset(many_pixels, 0, sizeof many_pixels);
    memset(lent.store, 0, 64);
    keep();
}

/* The common tiles are as they were. */
static bool all_blank(void) {
    return all_are(many_pixels, sizeof many_pixels, 0);
}

static bool is_held(rumchivoat_held h, uint32_t place, bool flip_h, bool flip_v, bool common, size_t at, size_t len) {
    return h.refusal == RUMCHIVOAT_DONE && h.found && h.place == place && h.flip_h == flip_h && h.flip_v == flip_v
        && h.common == common && h.at == at && h.len == len;
}

static void title_look_up(void) {
    static const char call[] = "rumchivoat_title_look_up";
    rumchivoat_set set = set_of(0, NINE, 0);
    uint8_t *c = lent.common, *s = lent.store, *p = lent.pixels;
    size_t room = NINE * 256, wide = TWO * 256;
    begin_title();
    /* own tile 3, after two common ones */
    rumchivoat_held h = rumchivoat_title_look_up(set, TWO, c, wide, s, room, p, 256);
    tell(call, 0, is_held(h, TWO + 3, true, false, false, 3 * 256, 256));
    no_held(call, RUMCHIVOAT_REFUSED_MODE,
            rumchivoat_title_look_up(with_mode(set, NO_MODE), TWO, c, wide, s, room, p, 256));
    no_held(call, RUMCHIVOAT_REFUSED_DEPTH,
            rumchivoat_title_look_up(with_depth(set, 1), TWO, c, wide, s, room, p, 256));
    no_held(call, RUMCHIVOAT_REFUSED_SIZE,
            rumchivoat_title_look_up(with_width(set, 24), TWO, c, wide, s, room, p, 256));
    /* more own tiles than their room; then more common ones than their store has, by the count and by the length */
    no_held(call, RUMCHIVOAT_REFUSED_COUNT,
            rumchivoat_title_look_up(set_of(0, NINE + 1, 0), TWO, c, wide, s, room, p, 256));
    no_held(call, RUMCHIVOAT_REFUSED_COUNT, rumchivoat_title_look_up(set, TWO + 1, c, wide, s, room, p, 256));
    no_held(call, RUMCHIVOAT_REFUSED_COUNT, rumchivoat_title_look_up(set, TWO, c, wide - 1, s, room, p, 256));
    no_held(call, RUMCHIVOAT_REFUSED_LENGTH, rumchivoat_title_look_up(set, TWO, c, wide, s, room, p, 255));
    ask_common();
    h = rumchivoat_title_look_up(set, TWO, c, wide, s, room, p, 256);
    tell(call, 0, is_held(h, 1, false, true, true, 256, 256));
    /* where it is not counted it is not found, which is no refusal */
    no_held(call, 0, rumchivoat_title_look_up(set, 1, c, wide, s, room, p, 256));
    begin_cells();
    no_held(call, RUMCHIVOAT_REFUSED_COUNT,
            rumchivoat_title_look_up(cell_set(true, 1), 3, many_pixels, 191, s, 64, p, 64));
    /* 65,536 tiles in all */
    h = rumchivoat_title_look_up(cell_set(true, 1), MOST, many_pixels, sizeof many_pixels, s, 64, p, 64);
    if (!all_blank()) h.found = true;
    no_held(call, RUMCHIVOAT_REFUSED_COUNT, h);
}

static void title_add(void) {
    static const char call[] = "rumchivoat_title_add";
    rumchivoat_set set = set_of(0, NINE, 0), other;
    rumchivoat_set_answer a;
    uint8_t *c = lent.common, *s = lent.store, *p = lent.pixels;
    size_t full = NINE * 256, wide = TWO * 256;
    begin_title();
    /* it matches an own tile */
    same_set(call, 0, rumchivoat_title_add(set, TWO, c, wide, s, full, p, 256), set_of(0, NINE, 1));
    other = with_mode(set, NO_MODE);
    same_set(call, RUMCHIVOAT_REFUSED_MODE, rumchivoat_title_add(other, TWO, c, wide, s, full, p, 256), other);
    other = with_depth(set, 1);
    same_set(call, RUMCHIVOAT_REFUSED_DEPTH, rumchivoat_title_add(other, TWO, c, wide, s, full, p, 256), other);
    other = with_width(set, 24);
    same_set(call, RUMCHIVOAT_REFUSED_SIZE, rumchivoat_title_add(other, TWO, c, wide, s, full, p, 256), other);
    other = set_of(NINE - 1, NINE, 0);
    same_set(call, RUMCHIVOAT_REFUSED_COUNT, rumchivoat_title_add(other, TWO, c, wide, s, full, p, 256), other);
    same_set(call, RUMCHIVOAT_REFUSED_COUNT, rumchivoat_title_add(set, TWO + 1, c, wide, s, full, p, 256), set);
    same_set(call, RUMCHIVOAT_REFUSED_COUNT, rumchivoat_title_add(set, TWO, c, wide - 1, s, full, p, 256), set);
    same_set(call, RUMCHIVOAT_REFUSED_LENGTH, rumchivoat_title_add(set, TWO, c, wide, s, full, p, 255), set);
    other = set_of(0, NINE, 4294967295u);
    same_set(call, RUMCHIVOAT_REFUSED_DISCARDED, rumchivoat_title_add(other, TWO, c, wide, s, full, p, 256), other);
    ask_common();
    same_set(call, 0, rumchivoat_title_add(set, TWO, c, wide, s, full, p, 256), set_of(0, NINE, 1));
    same_set(call, RUMCHIVOAT_REFUSED_DISCARDED, rumchivoat_title_add(other, TWO, c, wide, s, full, p, 256), other);
    /* with discarding off it is stored though it matches a common one */
    other = set_of(0, NINE, 0);
    other.discarding = false;
    a = rumchivoat_title_add(other, TWO, c, wide, s, full + 256, p, 256);
    memcpy(due.store + full, lent.pixels, 256);
    other.stored = NINE + 1;
    same_set(call, 0, a, other);
    /* a tile that matches none: refused where the store is full, else stored, cut to the depth */
    p[0] = 4 + 3;
    keep();
    same_set(call, RUMCHIVOAT_REFUSED_ROOM, rumchivoat_title_add(set, TWO, c, wide, s, full, p, 256), set);
    a = rumchivoat_title_add(set, TWO, c, wide, s, full + 256, p, 256);
    memcpy(due.store + full, lent.pixels, 256);
    due.store[full] = 3;
    same_set(call, 0, a, set_of(0, NINE + 1, 0));
    /* 65,536 tiles in all; then 65,535 and one more to be stored: with discarding off, and one that matches none */
    begin_cells();
    a = rumchivoat_title_add(cell_set(true, 1), MOST, many_pixels, sizeof many_pixels, s, 64, p, 64);
    if (!all_blank()) a.set.stored = TOO_MANY;
    same_set(call, RUMCHIVOAT_REFUSED_COUNT, a, cell_set(true, 1));
    a = rumchivoat_title_add(cell_set(false, 0), MOST, many_pixels, sizeof many_pixels, s, 64, p, 64);
    if (!all_blank()) a.set.stored = TOO_MANY;
    same_set(call, RUMCHIVOAT_REFUSED_ROOM, a, cell_set(false, 0));
    p[0] = 1;
    keep();
    a = rumchivoat_title_add(cell_set(true, 0), MOST, many_pixels, sizeof many_pixels, s, 64, p, 64);
    if (!all_blank()) a.set.stored = TOO_MANY;
    same_set(call, RUMCHIVOAT_REFUSED_ROOM, a, cell_set(true, 0));
}

static void numbers(void) {
    static const char native[] = "rumchivoat_native_number", logical[] = "rumchivoat_logical_number";
    begin();
    tell(native, 0, is_number(rumchivoat_native_number(SNES, 16, 16, 8), 0, 32));
    no_number(native, RUMCHIVOAT_REFUSED_MODE, rumchivoat_native_number(NO_MODE, 16, 16, 8));
    no_number(native, RUMCHIVOAT_REFUSED_PCE_SPRITE, rumchivoat_native_number(SPRITE, 16, 16, 8));
    no_number(native, RUMCHIVOAT_REFUSED_SIZE, rumchivoat_native_number(SNES, 16, 16, 65536));
    tell(logical, 0, is_number(rumchivoat_logical_number(SNES, 16, 16, 33), 0, 8));
    no_number(logical, RUMCHIVOAT_REFUSED_MODE, rumchivoat_logical_number(NO_MODE, 16, 16, 33));
    no_number(logical, RUMCHIVOAT_REFUSED_PCE_SPRITE, rumchivoat_logical_number(SPRITE, 16, 16, 33));
    no_number(logical, RUMCHIVOAT_REFUSED_SIZE, rumchivoat_logical_number(SNES, 16, 16, 262144));
}

/* ---- pictures */

static const uint8_t two_tiles[16] = {0x80}, two_entries[4] = {0x00, 0x00, 0x00, 0x40};

/* A picture of 2 x 1 tiles, the right one the left one's mirror image. */
static void begin_picture(void) {
    begin();
    lent.pixels[0] = lent.pixels[15] = 1;
    keep();
}

static void convert(void) {
    static const char call[] = "rumchivoat_convert";
    uint8_t *p = lent.pixels, *t = lent.out, *m = lent.map;
    begin_picture();
    rumchivoat_picture done = rumchivoat_convert(SNES, 2, true, true, 0, 0, 2, 1, p, 128, t, 17, m, 5);
    memcpy(due.out, two_tiles, 16);
    memcpy(due.map, two_entries, 4);
    tell(call, 0, is_picture(done, 0, 1, 1, 16, RUMCHIVOAT_MAP_BYTES(SNES, 2, 1)));
    no_picture(call, RUMCHIVOAT_REFUSED_MODE,
               rumchivoat_convert(NO_MODE, 2, true, true, 0, 0, 2, 1, p, 128, t, 32, m, 4));
    no_picture(call, RUMCHIVOAT_REFUSED_PCE_SPRITE,
               rumchivoat_convert(SPRITE, 4, false, true, 0, 0, 2, 1, p, 128, t, 64, m, 4));
    no_picture(call, RUMCHIVOAT_REFUSED_DEPTH,
               rumchivoat_convert(SNES, 3, true, true, 0, 0, 2, 1, p, 128, t, 48, m, 4));
    no_picture(call, RUMCHIVOAT_REFUSED_SIZE,
               rumchivoat_convert(SNES, 2, true, true, 0, 0, 65, 1, p, 128, t, 32, m, 4));
    no_picture(call, RUMCHIVOAT_REFUSED_FLIPS,
               rumchivoat_convert(GB, 2, true, true, 0, 0, 2, 1, p, 128, t, 32, m, 4));
    no_picture(call, RUMCHIVOAT_REFUSED_LENGTH,
               rumchivoat_convert(SNES, 2, true, true, 0, 0, 2, 1, p, 127, t, 32, m, 4));
    no_picture(call, RUMCHIVOAT_REFUSED_ENTRY_PALETTE,
               rumchivoat_convert(SNES, 2, true, true, 0, 8, 2, 1, p, 128, t, 32, m, 4));
    no_picture(call, RUMCHIVOAT_REFUSED_OUTPUT,
               rumchivoat_convert(SNES, 2, true, true, 0, 0, 2, 1, p, 128, t, 32, m, 3));
    /* without flips the second tile is to be stored: beyond the limit, then beyond the tile buffer */
    no_picture(call, RUMCHIVOAT_REFUSED_ROOM,
               rumchivoat_convert(SNES, 2, false, true, 1, 0, 2, 1, p, 128, t, 32, m, 4));
    no_picture(call, RUMCHIVOAT_REFUSED_ROOM,
               rumchivoat_convert(SNES, 2, false, true, 0, 0, 2, 1, p, 128, t, 31, m, 4));
}

static void redraw(void) {
    static const char call[] = "rumchivoat_redraw";
    static const uint8_t names_more[4] = {0x00, 0x00, 0x01, 0x00};
    const uint8_t *t = two_tiles, *m = two_entries;
    uint8_t *out = lent.out;
    begin();
    rumchivoat_written w = rumchivoat_redraw(SNES, 2, 2, 1, t, 16, m, 4, out, 129);
    memset(due.out, 0, 128);
    due.out[0] = due.out[15] = 1;
    tell(call, 0, is_written(w, 0, RUMCHIVOAT_PICTURE_PIXELS(2, 1)));
    no_bytes(call, RUMCHIVOAT_REFUSED_MODE, rumchivoat_redraw(NO_MODE, 2, 2, 1, t, 16, m, 4, out, 128));
    no_bytes(call, RUMCHIVOAT_REFUSED_PCE_SPRITE, rumchivoat_redraw(SPRITE, 4, 2, 1, t, 16, m, 4, out, 128));
    no_bytes(call, RUMCHIVOAT_REFUSED_DEPTH, rumchivoat_redraw(SNES, 3, 2, 1, t, 16, m, 4, out, 128));
    no_bytes(call, RUMCHIVOAT_REFUSED_SIZE, rumchivoat_redraw(SNES, 2, 2, 0, t, 16, m, 4, out, 128));
    no_bytes(call, RUMCHIVOAT_REFUSED_LENGTH, rumchivoat_redraw(SNES, 2, 2, 1, t, 15, m, 4, out, 128));
    no_bytes(call, RUMCHIVOAT_REFUSED_LENGTH, rumchivoat_redraw(SNES, 2, 2, 1, t, 16, m, 3, out, 128));
    no_bytes(call, RUMCHIVOAT_REFUSED_LENGTH, rumchivoat_redraw(SNES, 2, 2, 1, t, 16, names_more, 4, out, 128));
    no_bytes(call, RUMCHIVOAT_REFUSED_OUTPUT, rumchivoat_redraw(SNES, 2, 2, 1, t, 16, m, 4, out, 127));
}

/* ---- pictures in strips */

/* The discard counter's last number. */
static const uint32_t most_discarded = 4294967295u;

/* A run of 2 x 2 tiles, flips and discarding on. */
static rumchivoat_strip_run run_of(uint32_t taken, uint32_t tiles, uint32_t discarded) {
    rumchivoat_strip_run run = {SNES, 2, true, true, 0, 0, 2, 2, 0, 0, 0};
    run.taken = taken;
    run.tiles = tiles;
    run.discarded = discarded;
    return run;
}

/* The same after its first strip, which was begin_picture's. */
static rumchivoat_strip_run run_half(void) {
    return run_of(1, 1, 1);
}

/* What the first strip left in the buffers, and in the pixels the second: the first one upside down. */
static void begin_strip(void) {
    begin();
    lent.pixels[7 * 16] = lent.pixels[7 * 16 + 15] = 1;
    memcpy(lent.out, two_tiles, 16);
    memcpy(lent.map, two_entries, 4);
    keep();
}

static void same_run(const char *call, uint32_t number, rumchivoat_strip_run_answer a, rumchivoat_strip_run due_run) {
    tell(call, number, a.refusal == number && is_run(a.run, due_run));
}

static void strip_start(void) {
    static const char call[] = "rumchivoat_strip_start";
    rumchivoat_strip_run none = {0, 0, false, false, 0, 0, 0, 0, 0, 0, 0}, due_run = run_of(0, 0, 0);
    due_run.limit = 9;
    due_run.palette = 7;
    begin();
    same_run(call, 0, rumchivoat_strip_start(SNES, 2, true, true, 9, 7, 2, 2), due_run);
    same_run(call, RUMCHIVOAT_REFUSED_MODE, rumchivoat_strip_start(NO_MODE, 2, true, true, 9, 7, 2, 2), none);
    same_run(call, RUMCHIVOAT_REFUSED_PCE_SPRITE, rumchivoat_strip_start(SPRITE, 4, false, true, 9, 0, 2, 2), none);
    same_run(call, RUMCHIVOAT_REFUSED_DEPTH, rumchivoat_strip_start(SNES, 3, true, true, 9, 7, 2, 2), none);
    same_run(call, RUMCHIVOAT_REFUSED_SIZE, rumchivoat_strip_start(SNES, 2, true, true, 9, 7, 65, 2), none);
    same_run(call, RUMCHIVOAT_REFUSED_FLIPS, rumchivoat_strip_start(GB, 2, true, true, 9, 0, 2, 2), none);
    same_run(call, RUMCHIVOAT_REFUSED_ENTRY_PALETTE, rumchivoat_strip_start(SNES, 2, true, true, 9, 8, 2, 2), none);
}

/* A strip of so many of the lent pixels, refused with this number, the record as it came. */
static void no_strip(uint32_t number, rumchivoat_strip_run came, size_t pixels_len, size_t tiles_len, size_t map_len) {
    rumchivoat_strip_run run = came;
    rumchivoat_picture a =
        rumchivoat_strip_take(&run, lent.pixels, pixels_len, lent.out, tiles_len, lent.map, map_len);
    tell("rumchivoat_strip_take", number, is_picture(a, number, 0, 0, 0, 0) && is_run(run, came));
}

static void strip_take(void) {
    static const char call[] = "rumchivoat_strip_take";
    static const uint8_t upside_down[4] = {0x00, 0x80, 0x00, 0xc0};
    rumchivoat_strip_run run = run_of(0, 0, 0);
    rumchivoat_picture done;
    size_t whole_map = RUMCHIVOAT_MAP_BYTES(SNES, 2, 2);
    begin_picture();
    done = rumchivoat_strip_take(&run, lent.pixels, RUMCHIVOAT_STRIP_PIXELS(2, 1), lent.out, 17, lent.map, 9);
    memcpy(due.out, two_tiles, 16);
    memcpy(due.map, two_entries, 4);
    tell(call, 0, is_picture(done, 0, 1, 1, 16, 4) && is_run(run, run_half()));
    begin_strip();
    done = rumchivoat_strip_take(&run, lent.pixels, 128, lent.out, 16, lent.map, whole_map);
    memcpy(due.map + 4, upside_down, 4);
    tell(call, 0, is_picture(done, 0, 1, 3, 16, 8) && is_run(run, run_of(2, 1, 3)));
    /* after the last row one pixel is too many, and none is no strip */
    no_strip(RUMCHIVOAT_REFUSED_ROWS, run, 1, 16, whole_map);
    no_strip(RUMCHIVOAT_REFUSED_LENGTH, run, 0, 16, whole_map);
    begin_strip();
    run = run_half();
    run.mode = NO_MODE;
    no_strip(RUMCHIVOAT_REFUSED_MODE, run, 128, 48, 8);
    run = run_half();
    run.mode = SPRITE;
    run.depth = 4;
    run.flip = false;
    no_strip(RUMCHIVOAT_REFUSED_PCE_SPRITE, run, 128, 48, 8);
    run = run_half();
    run.depth = 3;
    no_strip(RUMCHIVOAT_REFUSED_DEPTH, run, 128, 48, 8);
    run = run_half();
    run.rows = 65;
    no_strip(RUMCHIVOAT_REFUSED_SIZE, run, 128, 48, 8);
    run = run_half();
    run.mode = GB;
    no_strip(RUMCHIVOAT_REFUSED_FLIPS, run, 128, 48, 8);
    /* more tiles than the buffer has, than the limit allows; more rows than the picture has */
    no_strip(RUMCHIVOAT_REFUSED_COUNT, run_half(), 128, 15, 8);
    run = run_of(1, 2, 0);
    run.limit = 1;
    no_strip(RUMCHIVOAT_REFUSED_COUNT, run, 128, 48, 8);
    no_strip(RUMCHIVOAT_REFUSED_COUNT, run_of(3, 1, 1), 128, 48, 8);
    no_strip(RUMCHIVOAT_REFUSED_ROWS, run_half(), 256, 48, 8);
    no_strip(RUMCHIVOAT_REFUSED_LENGTH, run_half(), 127, 48, 8);
    no_strip(RUMCHIVOAT_REFUSED_LENGTH, run_half(), 0, 48, 8);
    run = run_half();
    run.palette = 8;
    no_strip(RUMCHIVOAT_REFUSED_ENTRY_PALETTE, run, 128, 48, 8);
    no_strip(RUMCHIVOAT_REFUSED_OUTPUT, run_half(), 128, 48, 7);
    /* without flips both tiles are to be stored: beyond the limit, then beyond the tile buffer */
    run = run_half();
    run.flip = false;
    no_strip(RUMCHIVOAT_REFUSED_ROOM, run, 128, 47, 8);
    run.limit = 2;
    no_strip(RUMCHIVOAT_REFUSED_ROOM, run, 128, 48, 8);
    no_strip(RUMCHIVOAT_REFUSED_DISCARDED, run_of(1, 1, most_discarded - 1), 128, 48, 8);
}

static void strip_end(void) {
    static const char call[] = "rumchivoat_strip_end";
    rumchivoat_strip_run run = run_of(2, 1, 3);
    begin();
    tell(call, 0, is_picture(rumchivoat_strip_end(run), 0, 1, 3, 16, RUMCHIVOAT_MAP_BYTES(SNES, 2, 2)));
    run.mode = NO_MODE;
    no_picture(call, RUMCHIVOAT_REFUSED_MODE, rumchivoat_strip_end(run));
    run.mode = SPRITE;
    no_picture(call, RUMCHIVOAT_REFUSED_PCE_SPRITE, rumchivoat_strip_end(run));
    run = run_of(2, 1, 3);
    run.depth = 3;
    no_picture(call, RUMCHIVOAT_REFUSED_DEPTH, rumchivoat_strip_end(run));
    run = run_of(2, 1, 3);
    run.columns = 0;
    no_picture(call, RUMCHIVOAT_REFUSED_SIZE, rumchivoat_strip_end(run));
    run = run_of(2, 1, 3);
    run.mode = GB;
    no_picture(call, RUMCHIVOAT_REFUSED_FLIPS, rumchivoat_strip_end(run));
    /* more tiles than an entry can name, than the limit allows; more rows than the picture has */
    no_picture(call, RUMCHIVOAT_REFUSED_COUNT, rumchivoat_strip_end(run_of(2, 1025, 3)));
    run = run_of(2, 2, 3);
    run.limit = 1;
    no_picture(call, RUMCHIVOAT_REFUSED_COUNT, rumchivoat_strip_end(run));
    no_picture(call, RUMCHIVOAT_REFUSED_COUNT, rumchivoat_strip_end(run_of(3, 1, 3)));
    no_picture(call, RUMCHIVOAT_REFUSED_ROWS, rumchivoat_strip_end(run_half()));
    run = run_of(2, 1, 3);
    run.palette = 8;
    no_picture(call, RUMCHIVOAT_REFUSED_ENTRY_PALETTE, rumchivoat_strip_end(run));
}

/* ---- the mode 7 block */

enum { BLOCK = RUMCHIVOAT_MODE7_BLOCK, HALF = RUMCHIVOAT_MODE7_HALF };

/* Bytes in both halves and a byte more, of which none is 0 and no two beside each other are the same; noise in the
 * block. */
static void begin_halves(void) {
    begin();
    for (uint32_t i = 0; i <= HALF; i++) {
        lent.tile_half[i] = (uint8_t)(255 - i % 241);
        lent.map_half[i] = (uint8_t)(1 + i % 251);
    }
    keep();
}

/* The same in a block, and noise in both halves. */
static void begin_block(void) {
    begin();
    for (uint32_t i = 0; i <= BLOCK; i++) lent.block[i] = (uint8_t)(1 + i % 253);
    keep();
}

/* A block is made of so many bytes, over what the last one left. */
static void makes(size_t tiles_len, size_t map_len, size_t out_len) {
    rumchivoat_written w =
        rumchivoat_mode7_make(lent.tile_half, tiles_len, lent.map_half, map_len, lent.block, out_len);
    for (uint32_t i = 0; i < HALF; i++) {
        due.block[2 * i] = i < map_len ? due.map_half[i] : 0;
        due.block[2 * i + 1] = i < tiles_len ? due.tile_half[i] : 0;
    }
    tell("rumchivoat_mode7_make", 0, is_written(w, 0, BLOCK));
}

/* The block is split, into halves of which so many bytes are lent. */
static void splits(size_t tiles_len, size_t map_len) {
    rumchivoat_written w =
        rumchivoat_mode7_split(lent.block, BLOCK, lent.tile_half, tiles_len, lent.map_half, map_len);
    for (uint32_t i = 0; i < HALF; i++) {
        due.map_half[i] = due.block[2 * i];
        due.tile_half[i] = due.block[2 * i + 1];
    }
    tell("rumchivoat_mode7_split", 0, is_written(w, 0, HALF));
}

static void mode7_make(void) {
    static const char call[] = "rumchivoat_mode7_make";
    uint8_t *t = lent.tile_half, *m = lent.map_half, *out = lent.block;
    begin_halves();
    /* short inputs over noise, then over a full block; one tile with nine rows of the map, 256 tiles with a row and a
     * half */
    makes(7, 33, BLOCK + 1);
    makes(HALF, HALF, BLOCK + 1);
    makes(64, 9 * 128, BLOCK + 1);
    makes(HALF, HALF, BLOCK);
    makes(HALF, 128 + 64, BLOCK);
    makes(HALF - 1, HALF, BLOCK);
    makes(HALF, HALF - 1, BLOCK);
    makes(HALF, 0, BLOCK);
    makes(0, HALF, BLOCK);
    makes(1, 0, BLOCK);
    makes(0, 1, BLOCK);
    makes(HALF, HALF, BLOCK);
    makes(0, 0, BLOCK + 1);
    /* an input too long comes before an output too short */
    no_bytes(call, RUMCHIVOAT_REFUSED_LENGTH, rumchivoat_mode7_make(t, HALF + 1, m, HALF, out, BLOCK));
    no_bytes(call, RUMCHIVOAT_REFUSED_LENGTH, rumchivoat_mode7_make(t, HALF, m, HALF + 1, out, BLOCK));
    no_bytes(call, RUMCHIVOAT_REFUSED_LENGTH, rumchivoat_mode7_make(t, HALF + 1, m, 0, out, BLOCK - 1));
    no_bytes(call, RUMCHIVOAT_REFUSED_LENGTH, rumchivoat_mode7_make(t, 0, m, HALF + 1, out, 0));
    no_bytes(call, RUMCHIVOAT_REFUSED_OUTPUT, rumchivoat_mode7_make(t, HALF, m, HALF, out, BLOCK - 1));
    /* the whole block is written, however little there is to be put in it */
    no_bytes(call, RUMCHIVOAT_REFUSED_OUTPUT, rumchivoat_mode7_make(t, 64, m, 128, out, BLOCK - 1));
    no_bytes(call, RUMCHIVOAT_REFUSED_OUTPUT, rumchivoat_mode7_make(t, 0, m, 0, out, 0));
}

static void mode7_split(void) {
    static const char call[] = "rumchivoat_mode7_split";
    uint8_t *b = lent.block, *t = lent.tile_half, *m = lent.map_half;
    begin_block();
    splits(HALF + 1, HALF + 1);
    begin_block();
    splits(HALF, HALF);
    begin_block();
    /* a block of another length comes before an output too short */
    no_bytes(call, RUMCHIVOAT_REFUSED_LENGTH, rumchivoat_mode7_split(b, BLOCK - 1, t, HALF, m, HALF));
    no_bytes(call, RUMCHIVOAT_REFUSED_LENGTH, rumchivoat_mode7_split(b, BLOCK + 1, t, HALF, m, HALF));
    no_bytes(call, RUMCHIVOAT_REFUSED_LENGTH, rumchivoat_mode7_split(b, BLOCK - 2, t, HALF - 1, m, HALF));
    no_bytes(call, RUMCHIVOAT_REFUSED_LENGTH, rumchivoat_mode7_split(b, 0, t, 0, m, 0));
    no_bytes(call, RUMCHIVOAT_REFUSED_OUTPUT, rumchivoat_mode7_split(b, BLOCK, t, HALF - 1, m, HALF));
    no_bytes(call, RUMCHIVOAT_REFUSED_OUTPUT, rumchivoat_mode7_split(b, BLOCK, t, HALF, m, HALF - 1));
    no_bytes(call, RUMCHIVOAT_REFUSED_OUTPUT, rumchivoat_mode7_split(b, BLOCK, t, 0, m, 0));
}

/* Split then make returns the block, and make then split the inputs with the 0 fill: noise is lent, and what came is
 * due. */
static void mode7_and_back(void) {
    uint8_t *b = lent.block, *t = lent.tile_half, *m = lent.map_half;
    rumchivoat_written w;
    begin_block();
    splits(HALF, HALF);
    memset(b, 0xa5, BLOCK);
    w = rumchivoat_mode7_make(t, HALF, m, HALF, b, BLOCK);
    tell("rumchivoat_mode7_make", 0, is_written(w, 0, BLOCK));
    begin_halves();
    makes(100, 1000, BLOCK);
    memset(t, 0xa5, HALF);
    memset(m, 0xa5, HALF);
    w = rumchivoat_mode7_split(b, BLOCK, t, HALF, m, HALF);
    memset(due.tile_half + 100, 0, HALF - 100);
    memset(due.map_half + 1000, 0, HALF - 1000);
    tell("rumchivoat_mode7_split", 0, is_written(w, 0, HALF));
}

/* ---- the program on slices */

/* Puts a sheet into the input, its lines and pixels of 0, and answers its length. */
static size_t put_sheet(const char *lines, size_t pixels) {
    size_t length = length_of(lines);
    begin();
    memcpy(lent.input, lines, length);
    memset(lent.input + length, 0, pixels);
    keep();
    return length + pixels;
}

/* A run whose text is due. */
static void runs(uint32_t number, size_t input_len, const void *text, size_t text_len) {
    rumchivoat_written w = rumchivoat_run(lent.input, input_len, lent.out, sizeof lent.out);
    memcpy(due.out, text, text_len);
    tell("rumchivoat_run", number, is_written(w, number, text_len));
}

static void tells(uint32_t number, const char *lines, size_t pixels, const char *text) {
    runs(number, put_sheet(lines, pixels), text, length_of(text));
}

static void run(void) {
    static const char good[] = "mode=snes\ndepth=2\nflip=1\ndiscard=1\nlimit=0\npalette=0\ncolumns=2\nrows=1\n";
    static const char report[] = "mode=snes\ndepth=2\nflip=1\ndiscard=1\ncolumns=2\nrows=1\n"
                                 "tiles=1\ndiscarded=1\ntilebytes=16\nmapbytes=4\n";
    size_t input_len = put_sheet(good, 128), lines = length_of(report);
    uint8_t text[256];
    lent.input[length_of(good)] = lent.input[length_of(good) + 15] = 1;
    keep();
    memcpy(text, report, lines);
    memcpy(text + lines, two_tiles, 16);
    memcpy(text + lines + 16, two_entries, 4);
    runs(0, input_len, text, lines + 20);
    keep();
    no_bytes("rumchivoat_run", RUMCHIVOAT_REFUSED_OUTPUT, rumchivoat_run(lent.input, input_len, lent.out, lines + 19));
    tells(RUMCHIVOAT_REFUSED_PCE_SPRITE,
          "mode=pce_sprite\ndepth=4\nflip=0\ndiscard=1\nlimit=0\npalette=0\ncolumns=2\nrows=1\n", 128, "refused=2\n");
    tells(RUMCHIVOAT_REFUSED_DEPTH,
          "mode=snes\ndepth=7\nflip=1\ndiscard=1\nlimit=0\npalette=0\ncolumns=2\nrows=1\n", 128, "refused=3\n");
    tells(RUMCHIVOAT_REFUSED_SIZE,
          "mode=snes\ndepth=2\nflip=1\ndiscard=1\nlimit=0\npalette=0\ncolumns=0\nrows=1\n", 0, "refused=4\n");
    tells(RUMCHIVOAT_REFUSED_FLIPS,
          "mode=gb\ndepth=2\nflip=1\ndiscard=1\nlimit=0\npalette=0\ncolumns=2\nrows=1\n", 128, "refused=5\n");
    tells(RUMCHIVOAT_REFUSED_ENTRY_PALETTE,
          "mode=snes\ndepth=2\nflip=1\ndiscard=1\nlimit=0\npalette=8\ncolumns=2\nrows=1\n", 128, "refused=16\n");
    tells(RUMCHIVOAT_REFUSED_ROOM,
          "mode=snes\ndepth=2\nflip=1\ndiscard=0\nlimit=1\npalette=0\ncolumns=2\nrows=1\n", 128, "refused=12\n");
    tells(RUMCHIVOAT_REFUSED_SETTINGS,
          "mode=snes\ndepth=2\nflip=1\ndiscard=1\nlimit=01\npalette=0\ncolumns=2\nrows=1\n", 128, "refused=14\n");
    tells(RUMCHIVOAT_REFUSED_SETTINGS, good, 127, "refused=14\n");
}

/* ---- the third column of docs/REFUSALS.md: what is refused above, cured */

static void cured_tiles(void) {
    static const uint8_t grays[16] = {3, 3, 3, 255, 2, 2, 2, 255, 1, 1, 1, 255, 0, 0, 0, 255};
    begin();
    due.out[0] = due.out[1] = 0xff;
    tell("rumchivoat_pack_entry", 0,
         is_written(rumchivoat_pack_entry(PCE, 4095, 15, false, false, false, lent.out, 2), 0, 2));
    due.out[0] = 0xe4;
    tell("rumchivoat_pack_colors", 0, is_written(rumchivoat_pack_colors(GB, grays, 16, lent.out, 1), 0, 1));
    due.out[0] = due.out[1] = 0;
    tell("rumchivoat_tile_index", 0,
         is_written(rumchivoat_tile_index(SNES, 0, 7, false, false, false, lent.out, 2), 0, 2));
    tell("rumchivoat_scale_up", 0, is_number(rumchivoat_scale_up(GB, 3), 0, 255));
    tell("rumchivoat_native_number", 0, is_number(rumchivoat_native_number(SNES, 8, 8, 65535), 0, 65535));
}

static void cured_sets(void) {
    rumchivoat_set full = set_of(0, NINE, 4294967295u), limited = set_of(NINE, NINE, 0), read;
    uint8_t *s = lent.store, *p = lent.pixels;
    begin_set();
    same_set("rumchivoat_set_add", 0, rumchivoat_set_add(limited, s, 2304, p, 256), set_of(NINE, NINE, 1));
    full = rumchivoat_set_reset(full).set;
    memcpy(due.store, lent.pixels, 256);
    same_set("rumchivoat_set_add", 0, rumchivoat_set_add(full, s, 2304, p, 256), set_of(0, 1, 0));
    same_set("rumchivoat_set_add", 0, rumchivoat_set_add(set_of(0, 1, 0), s, 2304, p, 256), set_of(0, 1, 1));
    read = rumchivoat_set_read(GB, 1, 8, 8, false, many_bytes, 8 * 65535, many_pixels, sizeof many_pixels).set;
    tell("rumchivoat_set_read", 0, read.stored == 65535 && all_are(many_pixels, 64 * 65535, 0));
    read = rumchivoat_set_read(SPRITE, 4, 16, 16, false, many_bytes, 128, s, 256).set;
    memset(due.store, 0, 256);
    tell("rumchivoat_set_read", 0, read.stored == 1);
}

static void cured_titles(void) {
    rumchivoat_held h;
    rumchivoat_set_answer a;
    uint8_t *s = lent.store, *p = lent.pixels;
    begin_cells();
    h = rumchivoat_title_look_up(cell_set(true, 1), 3, many_pixels, 192, s, 64, p, 64);
    tell("rumchivoat_title_look_up", 0, is_held(h, 0, false, false, true, 0, 64));
    /* 65,535 tiles in all, the own one last */
    s[0] = p[7] = 1;
    keep();
    h = rumchivoat_title_look_up(cell_set(true, 1), MOST - 1, many_pixels, sizeof many_pixels, s, 64, p, 64);
    tell("rumchivoat_title_look_up", 0, is_held(h, MOST - 1, true, false, false, 0, 64));
    a = rumchivoat_title_add(cell_set(true, 0), MOST - 1, many_pixels, sizeof many_pixels, s, 64, p, 64);
    memcpy(due.store, lent.pixels, 64);
    if (!all_blank()) a.set.stored = TOO_MANY;
    same_set("rumchivoat_title_add", 0, a, cell_set(true, 1));
}

static void cured_pictures(void) {
    static const uint8_t more[32] = {0x80}, names_more[4] = {0x00, 0x00, 0x01, 0x00};
    rumchivoat_picture done;
    rumchivoat_written w;
    begin_picture();
    done = rumchivoat_convert(GB, 2, false, true, 2, 0, 2, 1, lent.pixels, 128, lent.out, 32, lent.map, 2);
    memset(due.out, 0, 32);
    due.out[0] = 0x80;
    due.out[16] = 0x01;
    due.map[0] = 0;
    due.map[1] = 1;
    tell("rumchivoat_convert", 0, is_picture(done, 0, 2, 0, 32, 2));
    w = rumchivoat_redraw(SNES, 2, 2, 1, more, 32, names_more, 4, lent.out, 128);
    memset(due.out, 0, 128);
    due.out[0] = 1;
    tell("rumchivoat_redraw", 0, is_written(w, 0, 128));
}

/* The strip that was past the last row, of one row now; the room for its tiles; the counter that reaches its end; and
 * the end that was asked for too early. */
static void cured_strips(void) {
    static const char call[] = "rumchivoat_strip_take";
    rumchivoat_strip_run run = run_half(), due_run;
    rumchivoat_picture done;
    begin_strip();
    run.discarded = most_discarded - 2;
    done = rumchivoat_strip_take(&run, lent.pixels, 128, lent.out, 48, lent.map, 8);
    due.map[4] = due.map[6] = 0x00;
    due.map[5] = 0x80;
    due.map[7] = 0xc0;
    tell(call, 0, is_picture(done, 0, 1, most_discarded, 16, 8) && is_run(run, run_of(2, 1, most_discarded)));
    run = run_half();
    run.flip = false;
    run.limit = 3;
    due_run = run;
    done = rumchivoat_strip_take(&run, lent.pixels, 128, lent.out, 48, lent.map, 8);
    memset(due.out + 16, 0, 32);
    /* the last row of both tiles, in its first plane */
    due.out[16 + 14] = 0x80;
    due.out[32 + 14] = 0x01;
    due.map[4] = 1;
    due.map[6] = 2;
    due.map[5] = due.map[7] = 0x00;
    due_run.taken = 2;
    due_run.tiles = 3;
    tell(call, 0, is_picture(done, 0, 3, 1, 48, 8) && is_run(run, due_run));
    tell("rumchivoat_strip_end", 0, is_picture(rumchivoat_strip_end(run), 0, 3, 1, 48, 8));
}

static void cured_sheet(void) {
    static const char lines[] = "mode=snes\ndepth=2\nflip=1\ndiscard=1\nlimit=1\npalette=0\ncolumns=2\nrows=1\n";
    size_t length = put_sheet(lines, 128);
    rumchivoat_written w = rumchivoat_run(lent.input, length, lent.out, sizeof lent.out);
    memcpy(due.out, lent.out, 116);
    tell("rumchivoat_run", 0, is_written(w, 0, 116));
}

/* ---- the sizes and the stack that the header states, on the largest pictures */

static uint8_t all_pixels[RUMCHIVOAT_PICTURE_PIXELS_MOST], all_tiles[RUMCHIVOAT_PICTURE_TILE_BYTES_MOST];
static uint8_t all_map[RUMCHIVOAT_MAP_BYTES_MOST];
static uint8_t strip_tiles[RUMCHIVOAT_PICTURE_TILE_BYTES_MOST], strip_map[RUMCHIVOAT_MAP_BYTES_MOST];
static uint8_t sheet[RUMCHIVOAT_SHEET_MOST], text[RUMCHIVOAT_TEXT_MOST];

static void draw_different(uint8_t *pixels, uint32_t columns, uint32_t rows) {
    for (uint32_t i = 0; i < columns * rows; i++)
        for (uint32_t bit = 0; bit < 12; bit++)
            pixels[(i / columns * 8 + 1) * columns * 8 + i % columns * 8 + bit % 8 + bit / 8 * columns * 8] =
                (uint8_t)(i >> bit & 1);
}

static void stated(const char *what, bool right) {
    say(what);
    say(right ? " as stated\n" : " FAILED: not as stated\n");
    all_right = all_right && right;
}

/* A call on a stack of its own: noise below, so that what the call took shows. */
enum { OWN_STACK = 1024 * 1024 };

static uint8_t own_stack[OWN_STACK] __attribute__((aligned(16)));

static size_t stack_of(void (*job)(void)) {
    size_t untouched = 0;
    memset(own_stack, 0xa5, sizeof own_stack);
    __asm__ volatile("movq %%rsp, %%rbx\n\tmovq %0, %%rsp\n\tcallq *%1\n\tmovq %%rbx, %%rsp"
                     :
                     : "r"(own_stack + sizeof own_stack), "r"(job)
                     : "rax", "rbx", "rcx", "rdx", "rsi", "rdi", "r8", "r9", "r10", "r11", "cc", "memory", "xmm0",
                       "xmm1", "xmm2", "xmm3", "xmm4", "xmm5", "xmm6", "xmm7", "xmm8", "xmm9", "xmm10", "xmm11",
                       "xmm12", "xmm13", "xmm14", "xmm15");
    while (untouched < OWN_STACK && own_stack[untouched] == 0xa5) untouched++;
    return OWN_STACK - untouched;
}

static void takes(const char *what, void (*job)(void), size_t most) {
    size_t took = stack_of(job);
    say(what);
    say(" took ");
    say_number(took);
    say(" bytes of stack, of ");
    say_number(most);
    stated("", took <= most);
}

static rumchivoat_picture largest, in_strips;
static rumchivoat_written turned, drawn, made, split, longest;

/* Each way of keeping a row, by each flip; the last answer stays. */
static void flip_each(void) {
    for (int i = 0; i < TILE_ROWS; i++)
        for (int flips = 0; flips < 4; flips++)
            turned = flip(tile_rows[i].mode, tile_rows[i].depth, flips % 2, flips / 2, 0);
}

static void convert_largest(void) {
    largest = rumchivoat_convert(PCE, 4, false, true, 0, 0, 64, 64, all_pixels, sizeof all_pixels, all_tiles,
                                 sizeof all_tiles, all_map, sizeof all_map);
}

/* The first 63 rows at once, so that the last finds its tiles among nearly all. */
static void strips_largest(void) {
    rumchivoat_strip_run run = rumchivoat_strip_start(PCE, 4, false, true, 0, 0, 64, 64).run;
    size_t first = RUMCHIVOAT_STRIP_PIXELS(64, 63), last = RUMCHIVOAT_STRIP_PIXELS(64, 1);
    rumchivoat_strip_take(&run, all_pixels, first, strip_tiles, sizeof strip_tiles, strip_map, sizeof strip_map);
    rumchivoat_strip_take(&run, all_pixels + first, last, strip_tiles, sizeof strip_tiles, strip_map, sizeof strip_map);
    in_strips = rumchivoat_strip_end(run);
}

static bool strips_are_the_whole(void) {
    return memcmp(strip_tiles, all_tiles, sizeof all_tiles) == 0 && memcmp(strip_map, all_map, sizeof all_map) == 0;
}

static void redraw_largest(void) {
    drawn = rumchivoat_redraw(PCE, 4, 64, 64, all_tiles, sizeof all_tiles, all_map, sizeof all_map, all_pixels,
                              sizeof all_pixels);
}

static void make_block(void) {
    made = rumchivoat_mode7_make(lent.tile_half, HALF, lent.map_half, HALF, lent.block, BLOCK);
}

static void split_block(void) {
    split = rumchivoat_mode7_split(lent.block, BLOCK, lent.tile_half, HALF, lent.map_half, HALF);
}

static void run_longest(void) {
    static const char lines[] = "mode=snes\ndepth=8\nflip=1\ndiscard=0\nlimit=0\npalette=0\ncolumns=32\nrows=32\n";
    size_t length = sizeof lines - 1;
    memcpy(sheet, lines, length);
    longest = rumchivoat_run(sheet, length + RUMCHIVOAT_PICTURE_PIXELS(32, 32), text, sizeof text);
}

static void figures(void) {
    takes("rumchivoat_flip_tile", flip_each, RUMCHIVOAT_STACK_OTHERS);
    stated("the deepest tile is", is_written(turned, 0, RUMCHIVOAT_TILE_BYTES(8, 8, 8)));
    draw_different(all_pixels, 64, 64);
    takes("rumchivoat_convert", convert_largest, RUMCHIVOAT_STACK_CONVERT);
    stated("the largest picture is", is_picture(largest, 0, 4096, 0, RUMCHIVOAT_PICTURE_TILE_BYTES(4, 64, 64),
                                                RUMCHIVOAT_MAP_BYTES(PCE, 64, 64)));
    takes("rumchivoat_strip_take", strips_largest, RUMCHIVOAT_STACK_STRIP);
    stated("the largest picture in strips is",
           is_picture(in_strips, 0, 4096, 0, sizeof all_tiles, sizeof all_map) && strips_are_the_whole());
    takes("rumchivoat_redraw", redraw_largest, RUMCHIVOAT_STACK_OTHERS);
    stated("the largest redraw is", is_written(drawn, 0, RUMCHIVOAT_PICTURE_PIXELS(64, 64)));
    takes("rumchivoat_mode7_make", make_block, RUMCHIVOAT_STACK_OTHERS);
    stated("the mode 7 block is", is_written(made, 0, BLOCK));
    takes("rumchivoat_mode7_split", split_block, RUMCHIVOAT_STACK_OTHERS);
    stated("its halves are", is_written(split, 0, HALF));
    takes("rumchivoat_run", run_longest, RUMCHIVOAT_STACK_RUN);
    stated("the longest text is", is_written(longest, 0, 67691));
}

static void every_call(void) {
    interface();
    pack_tile();
    unpack_tile();
    flip_tile();
    flip_tile_refused();
    pack_colors();
    unpack_colors();
    channels();
    pack_entry();
    unpack_entry();
    tile_index();
    attribute();
    set_new();
    set_reset();
    set_look_up();
    set_add();
    set_write();
    set_read();
    set_read_sprites();
    title_look_up();
    title_add();
    numbers();
    convert();
    strip_start();
    strip_take();
    strip_end();
    redraw();
    mode7_make();
    mode7_split();
    mode7_and_back();
    run();
    cured_tiles();
    cured_sets();
    cured_titles();
    cured_pictures();
    cured_strips();
    cured_sheet();
}

__attribute__((force_align_arg_pointer)) void _start(void) {
    every_call();
    figures();
    for (;;) system_call(60, all_right ? 0 : 1, 0, 0);
}
