//! The words of a refusal tell the values, need no paper at hand, and belong to the number that the archive gave.

use rumchivoat::{
    Cause, Entry, Logical, MapSize, Mode, Native, Refusal, Refused, SetSettings, Settings, Strips, TileSet, TileSize,
    Title, flip_tile_to_vec, mode7_make_to_vec, mode7_split_to_vec, pack_colors_to_vec, pack_tile_to_vec,
    unpack_colors_to_vec, unpack_tile_to_vec,
};

/// The words of a call that is refused.
fn words<T>(answer: Result<T, Refused>) -> String {
    answer.err().map_or_else(|| "it was done".to_owned(), |refused| refused.to_string())
}

/// The words of every call that is not for pce_sprite.
const SPRITE: &str = "refused 2: pce_sprite has no map entries, no pictures and no cell numbers";

fn picture(mode: Mode, depth: u32) -> Settings {
    Settings::new(mode, depth, MapSize { columns: 2, rows: 1 })
}

#[test]
fn entries() {
    let plain = Entry::default();
    let cases = [
        (Mode::Pce, Entry { tile: 4096, ..plain }, "refused 15: tile index 4096 is too large: pce has tiles 0 to 4095"),
        (
            Mode::Gb,
            Entry { tile: 256, palette: 1, ..plain },
            "refused 15: tile index 256 is too large: gb has tiles 0 to 255",
        ),
        (
            Mode::Snes,
            Entry { palette: 8, ..plain },
            "refused 16: palette index 8 is too large: snes has palettes 0 to 7",
        ),
        (Mode::Sms, Entry { palette: 2, ..plain }, "refused 16: palette index 2 is too large: sms has palettes 0 to 1"),
        (Mode::Gb, Entry { palette: 1, ..plain }, "refused 16: palette index 1 is too large: gb has palette 0 alone"),
        (Mode::Pce, Entry { flip_v: true, ..plain }, "refused 17: pce has no flips"),
        (Mode::Gba, Entry { flip_h: true, priority: true, ..plain }, "refused 18: gba has no priority"),
        (Mode::PceSprite, plain, SPRITE),
    ];
    for (mode, entry, expected) in cases {
        assert_eq!(words(entry.pack(mode, &mut [0; 2])), expected);
        assert_eq!(words(entry.pack_to_vec(mode)), expected);
    }
    assert_eq!(words(plain.pack(Mode::Snes, &mut [0; 1])), "refused 11: the output needs 2 bytes and has 1");
    assert_eq!(words(plain.pack(Mode::Gb, &mut [])), "refused 11: the output needs 1 byte and has 0");
    assert_eq!(words(plain.pack_to_vec(16u32)), "refused 1: there is no mode 16: the modes are 0 to 15");
    assert_eq!(words(Entry::unpack(Mode::Snes, &[0; 3])), "refused 7: 2 bytes are needed, 3 were given");
    assert_eq!(words(Entry::unpack(Mode::Gb, &[])), "refused 7: 1 byte is needed, 0 were given");
}

/// The cause of every refused entry is about the field whose number was given.
#[test]
fn every_misfit_has_a_cause() {
    for mode in Mode::ALL {
        for bits in 0..=32u32 {
            let number = ((1u64 << bits) - 1) as u32;
            for flags in 0..8 {
                let (flip_h, flip_v, priority) = (flags & 1 != 0, flags & 2 != 0, flags & 4 != 0);
                for (tile, palette) in [(number, 0), (0, number)] {
                    let entry = Entry { tile, palette, flip_h, flip_v, priority };
                    if let Err(refused) = entry.pack_to_vec(mode) {
                        let cause = match refused.refusal {
                            Refusal::EntryTile => Cause::Tile { mode, tile },
                            Refusal::EntryPalette => Cause::Palette { mode, palette },
                            Refusal::EntryFlip => Cause::Flips { mode },
                            Refusal::EntryPriority => Cause::Priority { mode },
                            _ => Cause::Plain,
                        };
                        assert_eq!(refused.cause, cause, "{refused}");
                        assert_eq!(cause == Cause::Plain, mode == Mode::PceSprite, "{refused}");
                    }
                }
            }
        }
    }
}

#[test]
fn tiles() {
    let pack = |mode, depth, size, pixels: &[u8]| words(pack_tile_to_vec(mode, depth, size, pixels));
    let cell = TileSize::CELL;
    assert_eq!(pack(Mode::Snes, 7, cell, &[]), "refused 3: snes has depths 2, 4 and 8, not 7");
    assert_eq!(pack(Mode::Gb, 4, cell, &[]), "refused 3: gb has depths 1 and 2, not 4");
    assert_eq!(pack(Mode::Md, 2, cell, &[]), "refused 3: md has depth 4 alone, not 2");
    let tall = TileSize { width: 8, height: 16 };
    assert_eq!(pack(Mode::Md, 4, tall, &[]), "refused 4: md has no tiles of 8x16");
    assert_eq!(pack(Mode::Md, 4, cell, &[0; 65]), "refused 7: 64 pixels are needed, 65 were given");
    assert_eq!(pack(Mode::Md, 4, cell, &[16; 64]), "refused 8: pixel 0 is 16, and depth 4 holds 0 to 15");
    assert_eq!(words(unpack_tile_to_vec(Mode::Md, 4, cell, &[0])), "refused 7: 32 bytes are needed, 1 was given");
    let sprite = TileSize { width: 32, height: 64 };
    let unpacked = unpack_tile_to_vec(Mode::PceSprite, 4, sprite, &[0; 9]);
    assert_eq!(words(unpacked), "refused 7: 1024 bytes are needed, 9 were given");
    assert_eq!(words(unpack_tile_to_vec(99u32, 4, cell, &[])), "refused 1: there is no mode 99: the modes are 0 to 15");
}

#[test]
fn flips() {
    for (flip_h, flip_v) in [(false, false), (true, false), (false, true), (true, true)] {
        let flip = |mode: u32, depth, bytes: &[u8]| words(flip_tile_to_vec(mode, depth, flip_h, flip_v, bytes));
        let [md, gb, sprite] = [Mode::Md, Mode::Gb, Mode::PceSprite].map(Mode::number);
        assert_eq!(flip(99, 4, &[]), "refused 1: there is no mode 99: the modes are 0 to 15");
        // sprites, whatever else is wrong
        assert_eq!(flip(sprite, 4, &[0; 128]), SPRITE);
        assert_eq!(flip(sprite, 3, &[0; 9]), SPRITE);
        assert_eq!(flip(md, 2, &[]), "refused 3: md has depth 4 alone, not 2");
        assert_eq!(flip(gb, u32::MAX, &[]), "refused 3: gb has depths 1 and 2, not 4294967295");
        assert_eq!(flip(md, 4, &[0]), "refused 7: 32 bytes are needed, 1 was given");
        assert_eq!(flip(gb, 1, &[0; 16]), "refused 7: 8 bytes are needed, 16 were given");
        assert_eq!(flip(gb, 2, &[0; 16]), "it was done");
    }
}

#[test]
fn colors() {
    let pack = |mode, colors: &[u8]| words(pack_colors_to_vec(mode, colors));
    let unpack = |mode, bytes: &[u8]| words(unpack_colors_to_vec(mode, bytes));
    assert_eq!(pack(Mode::Snes, &[0; 5]), "refused 7: 5 bytes are no multiple of 4");
    assert_eq!(pack(Mode::Gb, &[0; 12]), "refused 7: 4 colours are needed, 3 were given");
    assert_eq!(pack(Mode::Gb, &[0; 17]), "refused 7: 17 bytes are no multiple of 4");
    assert_eq!(pack(Mode::Md, &[0, 8, 9, 255]), "refused 9: colour 0 has a component of 8, and md's top is 7");
    assert_eq!(unpack(Mode::Snes, &[0; 1]), "refused 7: 1 byte is no multiple of 2");
    assert_eq!(unpack(Mode::Gb, &[0; 2]), "refused 7: 1 byte is needed, 2 were given");
    assert_eq!(unpack(Mode::Ws, &[0; 4]), "refused 7: 2 bytes are needed, 4 were given");
    assert_eq!(unpack(Mode::Ngp, &[]), "refused 7: 4 bytes are needed, 0 were given");
}

#[test]
fn pictures() {
    let snes = picture(Mode::Snes, 2);
    let convert = |settings: Settings, pixels: &[u8]| words(settings.convert_to_vec(pixels));
    assert_eq!(convert(picture(Mode::Snes, 7), &[0; 128]), "refused 3: snes has depths 2, 4 and 8, not 7");
    let wide = Settings::new(Mode::Snes, 2, MapSize { columns: 65, rows: 1 });
    assert_eq!(convert(wide, &[]), "refused 4: columns and rows are 1 to 64 each, not 65x1");
    assert_eq!(convert(picture(Mode::Pce, 4).flips(), &[0; 128]), "refused 5: pce has no flips");
    assert_eq!(convert(snes, &[0; 127]), "refused 7: 128 pixels are needed, 127 were given");
    assert_eq!(
        convert(snes.palette(8), &[0; 128]),
        "refused 16: palette index 8 is too large: snes has palettes 0 to 7"
    );
    assert_eq!(convert(snes.limit(1), &[0; 128]), "refused 12: there is room for 1 tile and no more");
    let (mut tiles, mut map) = ([0; 47], [0; 3]);
    let short = snes.convert(&[0; 128], &mut tiles, &mut map);
    assert_eq!(words(short), "refused 11: the map needs 4 bytes and has 3");
    let short = snes.convert(&[0; 128], &mut tiles[..31], &mut [0; 4]);
    assert_eq!(words(short), "refused 12: there is room for 1 tile and no more");
    // every tile of a full map, and one more than gb's entries can name
    let large = Settings::new(Mode::Gb, 1, MapSize { columns: 64, rows: 64 });
    assert_eq!(convert(large, &[0; 64 * 4096]), "refused 12: there is room for 256 tiles and no more");

    let redraw = |tiles: &[u8], map: &[u8]| words(snes.redraw_to_vec(tiles, map));
    assert_eq!(redraw(&[0; 17], &[0; 4]), "refused 7: 17 tile bytes are no multiple of 16");
    assert_eq!(redraw(&[0; 16], &[0; 3]), "refused 7: 4 map bytes are needed, 3 were given");
    let missing = "refused 7: the map names tile 2, and the tile bytes hold 2 tiles";
    assert_eq!(redraw(&[0; 32], &[1, 0, 2, 0]), missing);
    let short = snes.redraw(&[0; 16], &[0; 4], &mut [0; 127]);
    assert_eq!(words(short), "refused 11: the output needs 128 bytes and has 127");
    assert_eq!(words(wide.redraw_to_vec(&[], &[])), "refused 4: columns and rows are 1 to 64 each, not 65x1");
    // flips and palette have no part in redrawing
    assert_eq!(words(picture(Mode::Pce, 4).flips().palette(99).redraw_to_vec(&[0; 32], &[0; 4])), "it was done");
}

#[test]
fn strips() {
    let settings = Settings::new(Mode::Snes, 2, MapSize { columns: 2, rows: 3 }).discarding();
    let start = |settings: Settings, map: usize| words(Strips::start(settings, vec![0; 64], vec![0; map]));
    assert_eq!(start(picture(Mode::Snes, 7), 12), "refused 3: snes has depths 2, 4 and 8, not 7");
    assert_eq!(start(picture(Mode::Pce, 4).flips(), 12), "refused 5: pce has no flips");
    assert_eq!(start(settings.palette(8), 12), "refused 16: palette index 8 is too large: snes has palettes 0 to 7");
    assert_eq!(start(settings, 11), "refused 11: the map needs 12 bytes and has 11");

    let mut strips = Strips::start(settings.limit(1), vec![0; 64], vec![0; 12]).unwrap();
    let whole_rows = "refused 7: a strip is whole rows of tiles, 128 pixels each, and";
    assert_eq!(words(strips.take(&[])), format!("{whole_rows} 0 were given"));
    assert_eq!(words(strips.take(&[0; 1])), format!("{whole_rows} 1 was given"));
    assert_eq!(words(strips.take(&[0; 129])), format!("{whole_rows} 129 were given"));
    assert_eq!(words(strips.take(&[0; 385])), "refused 19: 384 pixels are still to come, 385 were given");
    assert_eq!(words(strips.end()), "refused 19: 3 rows of tiles are still to come");
    strips.take(&[1; 256]).unwrap();
    assert_eq!(words(strips.take(&[2; 128])), "refused 12: there is room for 1 tile and no more");
    assert_eq!(words(strips.end()), "refused 19: 1 row of tiles is still to come");
    strips.take(&[1; 128]).unwrap();
    assert_eq!(words(strips.take(&[1; 1])), "refused 19: 0 pixels are still to come, 1 was given");
    assert_eq!(words(strips.take(&[])), format!("{whole_rows} 0 were given"));
    assert_eq!(words(strips.end()), "it was done");
}

#[test]
fn mode7_blocks() {
    let make = |tiles: usize, map: usize| words(mode7_make_to_vec(&vec![0; tiles], &vec![0; map]));
    let most = "refused 7: a mode 7 block holds at most 16384";
    assert_eq!(make(16_385, 0), format!("{most} tile bytes, 16385 were given"));
    assert_eq!(make(0, 16_385), format!("{most} map bytes, 16385 were given"));
    assert_eq!(make(16_384, 32_768), format!("{most} map bytes, 32768 were given"));
    // where both are too long, the tiles are told
    assert_eq!(make(20_000, 30_000), format!("{most} tile bytes, 20000 were given"));
    assert_eq!(make(16_384, 16_384), "it was done");
    assert_eq!(make(0, 0), "it was done");

    let split = |length: usize| words(mode7_split_to_vec(&vec![0; length]));
    let needed = "refused 7: a mode 7 block has 32768 bytes,";
    assert_eq!(split(0), format!("{needed} 0 were given"));
    assert_eq!(split(1), format!("{needed} 1 was given"));
    assert_eq!(split(5), format!("{needed} 5 were given"));
    assert_eq!(split(32_767), format!("{needed} 32767 were given"));
    assert_eq!(split(65_536), format!("{needed} 65536 were given"));
    assert_eq!(split(32_768), "it was done");
}

/// A run's buffers that shrink behind its back are told, and not written beyond their end.
#[test]
fn buffers_that_shrink_are_told() {
    let settings = Settings::new(Mode::Gb, 1, MapSize { columns: 1, rows: 2 });
    let start = |tiles: usize, map: usize| Strips::start(settings, Shrinking(vec![0; tiles]), Shrinking(vec![0; map]));
    // a tile's 8 bytes are there at first, and then 4 of them
    let mut strips = start(16, 8).unwrap();
    strips.take(&[1; 64]).unwrap();
    assert_eq!(words(strips.take(&[0; 64])), "refused 6: the run counts 1 tile, and there is room for 0");
    assert!(strips.tiles().is_empty());
    let mut strips = start(64, 2).unwrap();
    assert_eq!(words(strips.take(&[1; 64])), "refused 11: the map needs 2 bytes and has 1");
    let mut strips = start(8, 4).unwrap();
    assert_eq!(words(strips.take(&[1; 64])), "refused 12: there is room for 0 tiles and no more");
}

#[test]
fn sets() {
    let settings = SetSettings::new(Mode::Snes, 2, TileSize::CELL);
    let mut set = TileSet::new(settings.limit(1), vec![0; 640]).unwrap();
    assert_eq!(words(set.add(&[0; 63])), "refused 7: 64 pixels are needed, 63 were given");
    assert_eq!(words(set.look_up(&[0; 65])), "refused 7: 64 pixels are needed, 65 were given");
    set.add(&[1; 64]).unwrap();
    assert_eq!(words(set.add(&[2; 64])), "refused 12: there is room for 1 tile and no more");
    assert_eq!(words(set.write(&mut [0; 15])), "refused 11: the output needs 16 bytes and has 15");
    let wide = SetSettings::new(Mode::Md, 4, TileSize { width: 16, height: 32 });
    assert_eq!(words(TileSet::new(wide, vec![])), "refused 4: md has no tiles of 16x32");
    assert_eq!(words(settings.limit(4).store_len(5)), "refused 6: the set counts 5 tiles, and there is room for 4");
    let read = |mode: Mode, bytes: &[u8]| {
        words(TileSet::read(mode, mode.depths()[0], TileSize::CELL, false, bytes, vec![0; 64]))
    };
    assert_eq!(read(Mode::Snes, &[0; 17]), "refused 7: 17 bytes are no multiple of 16");
    assert_eq!(read(Mode::Snes, &[0; 32]), "refused 11: the store needs 128 bytes and has 64");
    // sprites are read whole, and not by cells
    let sprite = TileSize { width: 32, height: 16 };
    let read = |bytes: &[u8]| words(TileSet::read(Mode::PceSprite, 4, sprite, false, bytes, vec![0; 512]));
    assert_eq!(read(&[0; 255]), "refused 7: 255 bytes are no multiple of 256");
    assert_eq!(read(&[0; 288]), "refused 7: 288 bytes are no multiple of 256");
    assert_eq!(read(&[0; 512]), "refused 11: the store needs 1024 bytes and has 512");
}

#[test]
fn titles() {
    let settings = SetSettings::new(Mode::Snes, 2, TileSize::CELL).discarding();
    let font = [1; 128];
    let new = |settings, count, common: &[u8]| words(Title::new(settings, count, common, [0; 64]));
    assert_eq!(new(settings, 3, &font), "refused 6: the common store holds 2 tiles, and 3 are counted");
    assert_eq!(new(settings, 2, &font[1..]), "refused 6: the common store holds 1 tile, and 2 are counted");
    assert_eq!(new(settings, 1, &[]), "refused 6: the common store holds 0 tiles, and 1 is counted");
    let wide = SetSettings::new(Mode::Md, 4, TileSize { width: 16, height: 32 });
    assert_eq!(new(wide, 3, &font), "refused 4: md has no tiles of 16x32");
    let none = SetSettings::new(16u32, 2, TileSize::CELL);
    assert_eq!(new(none, 3, &font), "refused 1: there is no mode 16: the modes are 0 to 15");

    let mut title = Title::new(settings.limit(1), 2, &font, vec![0; 640]).unwrap();
    assert_eq!(words(title.add(&[0; 63])), "refused 7: 64 pixels are needed, 63 were given");
    assert_eq!(words(title.look_up(&[0; 65])), "refused 7: 64 pixels are needed, 65 were given");
    title.add(&[2; 64]).unwrap();
    assert_eq!(words(title.add(&[3; 64])), "refused 12: there is room for 1 tile and no more");
}

/// Common and own tiles are 65,535 at most: the words tell both.
#[test]
fn the_most_tiles_of_a_title() {
    let settings = SetSettings::new(Mode::Gb, 1, TileSize::CELL);
    let most = vec![0; settings.store_len(65_535).unwrap() + 64];
    let new = |count| words(Title::new(settings, count, &most, [0; 64]));
    assert_eq!(new(65_536), "refused 6: 65536 common and 0 own tiles pass 65,535");
    let mut title = Title::new(settings, 65_534, &most, vec![0; 640]).unwrap();
    assert_eq!(title.room(), 1);
    title.add(&[1; 64]).unwrap();
    assert_eq!(words(title.add(&[1; 64])), "refused 12: beside 65534 common tiles there is room for 1 and no more");
    let own = title.into_own();
    assert_eq!(words(Title::with_own(own, 65_535, &most)), "refused 6: 65535 common and 1 own tiles pass 65,535");

    let read = TileSet::read(Mode::Gb, 1, TileSize::CELL, false, &vec![0; 65_534 * 8], most.clone()).unwrap();
    assert_eq!(words(Title::with_own(read.clone(), 2, &most)), "refused 6: 2 common and 65534 own tiles pass 65,535");
    let mut title = Title::with_own(read, 1, &most).unwrap();
    assert_eq!(words(title.add(&[1; 64])), "refused 12: beside 1 common tile there is room for 65534 and no more");
}

#[test]
fn tile_numbers() {
    let large = SetSettings::new(Mode::Snes, 2, TileSize { width: 16, height: 16 });
    assert_eq!(words(large.native_number(Logical(65_536))), "refused 4: number 65536 leads to a tile above 65,535");
    assert_eq!(words(large.logical_number(Native(262_144))), "refused 4: number 262144 leads to a tile above 65,535");
    let none = SetSettings::new(Mode::Md, 4, TileSize { width: 16, height: 16 });
    assert_eq!(words(none.native_number(Logical(65_536))), "refused 4: md has no tiles of 16x16");
    assert_eq!(words(none.logical_number(Native(0))), "refused 4: md has no tiles of 16x16");
    let sprite = SetSettings::new(Mode::PceSprite, 4, TileSize { width: 16, height: 16 });
    assert_eq!(sprite.native_number(Logical(0)).map_err(Refusal::from), Err(Refusal::PceSprite));
}

/// A set's store that shrinks behind its back is told, and not read beyond its end.
#[test]
fn a_store_that_shrinks_is_told() {
    let mut set = TileSet::new(SetSettings::new(Mode::Snes, 2, TileSize::CELL), Shrinking(vec![0; 128])).unwrap();
    set.add(&[1; 64]).unwrap();
    assert_eq!(words(set.add(&[2; 64])), "refused 6: the set counts 1 tile, and there is room for 0");
    assert_eq!(words(set.write_to_vec()), "refused 6: the set counts 1 tile, and there is room for 0");
    let settings = SetSettings::new(Mode::Snes, 2, TileSize::CELL);
    let mut title = Title::new(settings, 1, &[3; 64], Shrinking(vec![0; 128])).unwrap();
    title.add(&[1; 64]).unwrap();
    assert_eq!(words(title.add(&[2; 64])), "refused 6: the set counts 1 tile, and there is room for 0");
    assert_eq!(words(title.look_up(&[1; 64])), "refused 6: the set counts 1 tile, and there is room for 0");
}

/// A store that has half its length when it is asked for again.
struct Shrinking(Vec<u8>);

impl AsRef<[u8]> for Shrinking {
    fn as_ref(&self) -> &[u8] {
        &self.0
    }
}

impl AsMut<[u8]> for Shrinking {
    fn as_mut(&mut self) -> &mut [u8] {
        self.0.truncate(self.0.len() / 2);
        &mut self.0
    }
}

/// `?` carries a refusal from one layer into the other, and both are errors.
#[test]
fn the_layers_meet() {
    fn plain() -> Result<usize, Refusal> {
        Ok(Entry::default().pack(Mode::Snes, &mut [0; 1])?)
    }
    fn typed() -> Result<usize, Refused> {
        Ok(rumchivoat::pack_entry(Mode::Snes, Entry::default(), &mut [0; 1])?)
    }
    fn any() -> Result<usize, Box<dyn std::error::Error + Send + Sync>> {
        Ok(Entry::default().pack(Mode::Snes, &mut [0; 1])?)
    }
    assert_eq!(plain(), Err(Refusal::Output));
    assert_eq!(words(typed()), "refused 11: the output is shorter than the bytes to be written");
    assert_eq!(any().unwrap_err().to_string(), "refused 11: the output needs 2 bytes and has 1");
}

/// No word of a refusal sends the reader to a paper.
#[test]
fn refusals_need_no_paper() {
    for refusal in Refusal::ALL {
        let words = refusal.to_string();
        assert!(words.starts_with(&format!("refused {}: ", refusal.number())), "{words}");
        assert!(
            ["below", "above all", "document", "row"].iter().all(|word| !words.contains(&format!(" {word} "))),
            "{words}"
        );
    }
}
