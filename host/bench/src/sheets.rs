//! The program on slices beside the conversion in it. Both are the port's: the Rust has no sheets.

use std::hint::black_box;

use reading::Random;
use rumchivoat::{LONGEST_TEXT, MapSize, Mode, Settings, convert, run};

use crate::turn_about;

/// The most columns and rows of a sheet.
const SIDE: u32 = 32;
const TILES: usize = (SIDE * SIDE) as usize;

/// Gba at depth 8 has the largest tiles, and as many as a sheet has places.
fn settings(flip: bool) -> Settings {
    let settings = Settings::new(Mode::Gba, 8, MapSize { columns: SIDE, rows: SIDE }).discarding();
    if flip { settings.flips() } else { settings }
}

/// Any pixels: no two tiles match.
fn different(random: &mut Random) -> Vec<u8> {
    random.bytes(64 * TILES)
}

/// One tile at every place.
fn same(random: &mut Random) -> Vec<u8> {
    let row_of_tiles: Vec<u8> = (0..8).flat_map(|_| random.bytes(8).repeat(SIDE as usize)).collect();
    row_of_tiles.repeat(SIDE as usize)
}

fn sheet(settings: Settings, pixels: &[u8]) -> Vec<u8> {
    let Settings { depth, flip, discard, limit, palette, columns, rows, .. } = settings;
    let (mode, flip, discard) = (Mode::Gba, u8::from(flip), u8::from(discard));
    let lines = format!(
        "mode={mode}\ndepth={depth}\nflip={flip}\ndiscard={discard}\nlimit={limit}\npalette={palette}\n\
         columns={columns}\nrows={rows}\n"
    );
    [lines.as_bytes(), pixels].concat()
}

/// The times of `run` and of `convert` for a tile of this picture, which has so many different ones.
fn times(settings: Settings, pixels: &[u8], different: u32) -> (f64, f64) {
    let sheet = sheet(settings, pixels);
    let (mut tiles, mut map, mut out) = (vec![0; 64 * TILES], vec![0; 2 * TILES], vec![0; LONGEST_TEXT]);
    let picture = convert(settings, pixels, &mut tiles, &mut map).expect("there is room");
    assert_eq!(picture.tiles, different);
    let ran = run(&sheet, &mut out).expect("every text fits");
    let bytes = [&tiles[..picture.tile_bytes], &map[..picture.map_bytes]].concat();
    assert!(ran.told.is_none() && out[..ran.written].ends_with(&bytes), "both convert alike");
    turn_about(
        TILES,
        || {
            black_box(run(black_box(&sheet), &mut out).expect("every text fits"));
        },
        || {
            black_box(convert(settings, black_box(pixels), &mut tiles, &mut map).expect("there is room"));
        },
    )
}

pub fn print_table(random: &mut Random) {
    println!("\nthe port alone, no Rust: run on the largest sheets, and convert on their pictures; ns for one tile\n");
    println!("{:<37} {:>5} {:>9} {:>9} {:>11}", "sheet", "items", "run", "convert", "run/convert");
    let pictures = [("different", different(random), TILES as u32), ("same", same(random), 1)];
    for (name, pixels, different) in &pictures {
        for (flip, flips) in [(false, ""), (true, ", flips")] {
            let (run, convert) = times(settings(flip), pixels, *different);
            let sheet = format!("gba 8 {SIDE}x{SIDE} {name}{flips}");
            println!("{sheet:<37} {TILES:>5} {run:>9.3} {convert:>9.3} {:>11.2}", run / convert);
        }
    }
}
