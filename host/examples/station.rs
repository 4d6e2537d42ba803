//! A station in small: the interface is checked, a picture is converted, redrawn and compared, a set of tiles is
//! written, the sprites of a returned board are compared with the master's, twin titles share a tile, and a refusal is
//! told in words.

use std::error::Error;

use rumchivoat::{
    Entry, INTERFACE, Logical, MapSize, Mode, SetSettings, Settings, TileSet, TileSize, Title, check_interface,
    pack_colors_to_vec,
};

const SIZE: MapSize = MapSize { columns: 4, rows: 4 };

/// The picture's pixels a side.
const SIDE: usize = 32;

fn hex(bytes: &[u8]) -> String {
    bytes.iter().map(|byte| format!("{byte:02x}")).collect::<Vec<_>>().join(" ")
}

/// A ring on a ground: one corner of it, and its mirror images.
fn ring() -> Vec<u8> {
    let from_middle = |place: usize| (2 * place + 1).abs_diff(SIDE);
    let pixel = |x: usize, y: usize| {
        let square = from_middle(x).pow(2) + from_middle(y).pow(2);
        u8::from((400..900).contains(&square)) + u8::from(square < 150) * 2
    };
    (0..SIDE).flat_map(|y| (0..SIDE).map(move |x| pixel(x, y))).collect()
}

/// Converts the picture, redraws it from the bytes, and compares every pixel.
fn convert(mode: Mode, depth: u32, pixels: &[u8]) -> Result<(), Box<dyn Error>> {
    let plain = Settings::new(mode, depth, SIZE).discarding();
    let settings = if mode.has_flips() { plain.flips() } else { plain };
    let converted = settings.convert_to_vec(pixels)?;
    let redrawn = settings.redraw_to_vec(&converted.tiles, &converted.map)?;
    let differ = redrawn.iter().zip(pixels).filter(|(drawn, given)| drawn != given).count();
    if redrawn.len() != pixels.len() || differ > 0 {
        return Err(format!("{mode}: {differ} of {} pixels differ", pixels.len()).into());
    }
    let picture = converted.picture;
    println!(
        "{mode:<5} picture  {SIZE} tiles: {} stored, {} discarded; {} tile bytes, {} map bytes; redrawn, {} pixels agree",
        picture.tiles,
        picture.discarded,
        picture.tile_bytes,
        picture.map_bytes,
        redrawn.len()
    );
    let palette = pack_colors_to_vec(mode, &[3, 3, 3, 255, 3, 0, 0, 255, 0, 0, 3, 255, 0, 0, 0, 255])?;
    println!("{mode:<5} palette  {}", hex(&palette));
    println!("{mode:<5} map      {} ..", hex(converted.map.get(..8).unwrap_or(&converted.map)));
    Ok(())
}

/// The picture's quarters, tiles of 16x16.
fn quarters(pixels: &[u8]) -> [Vec<u8>; 4] {
    [(0, 0), (16, 0), (0, 16), (16, 16)].map(|(left, top)| {
        let rows = pixels.chunks_exact(SIDE).skip(top).take(16);
        rows.flat_map(|row| row.iter().skip(left).take(16)).copied().collect()
    })
}

/// Sets of such tiles.
fn quarter_sets() -> SetSettings {
    SetSettings::new(Mode::Snes, 4, TileSize { width: 16, height: 16 }).flips().discarding()
}

/// Adds the picture's quarters to a set, and writes it.
fn collect(pixels: &[u8]) -> Result<(), Box<dyn Error>> {
    let settings = quarter_sets();
    let mut set = TileSet::new(settings, vec![0; settings.store_len(4)?])?;
    for quarter in quarters(pixels) {
        set.add(&quarter)?;
    }
    let bytes = set.write_to_vec()?;
    println!("snes  set      16x16 tiles: {} stored, {} discarded; {} bytes", set.len(), set.discarded(), bytes.len());
    Ok(())
}

/// A returned board has the picture's quarters as sprites, and one bit of them is off: its bytes are read, and compared
/// with the master's tiles.
fn compare(pixels: &[u8]) -> Result<(), Box<dyn Error>> {
    let size = TileSize { width: 16, height: 16 };
    let settings = SetSettings::new(Mode::PceSprite, 4, size);
    let mut master = TileSet::new(settings, vec![0; settings.store_len(4)?])?;
    for quarter in quarters(pixels) {
        master.add(&quarter)?;
    }
    let mut board = master.write_to_vec()?;
    if let Some(last) = board.last_mut() {
        *last ^= 1;
    }
    let returned = TileSet::read(Mode::PceSprite, 4, size, false, &board, vec![0; settings.store_len(4)?])?;
    let numbers = (0..4).map(Logical);
    let differ = numbers.filter(|&number| returned.tile(number) != master.tile(number)).count();
    println!("pce   board    16x16 sprites: {} read, {differ} not the master's", returned.len());
    Ok(())
}

/// Twin titles have one quarter in common, and each a plain tile of its own: the other quarters are found as mirror
/// images of the common one, and neither title writes it.
fn share(pixels: &[u8]) -> Result<(), Box<dyn Error>> {
    let (settings, [common, others @ ..]) = (quarter_sets(), quarters(pixels));
    let mut red = Title::new(settings, 1, &common, vec![0; settings.store_len(4)?])?;
    let mut blue = red.clone();
    for (title, color) in [(&mut red, 1), (&mut blue, 2)] {
        for tile in others.iter().chain([&vec![color; common.len()]]) {
            title.add(tile)?;
        }
    }
    for (name, title) in [("red", red), ("blue", blue)] {
        let (own, common) = (title.own(), title.common_count());
        println!("snes  title    {name}: {common} common, {} stored, {} discarded", own.len(), own.discarded());
    }
    Ok(())
}

/// An entry that pce does not hold: the words say why, and the buffer stays as it was.
fn refuse() {
    let entry = Entry { tile: 4096, ..Entry::default() };
    let mut untouched = [0xee; 2];
    match entry.pack(Mode::Pce, &mut untouched) {
        Ok(written) => println!("pce   entry    {written} bytes"),
        Err(refused) => println!("pce   entry    {refused}; the buffer still holds {}", hex(&untouched)),
    }
}

fn main() -> Result<(), Box<dyn Error>> {
    check_interface()?;
    println!("the archive has interface {INTERFACE}");
    let pixels = ring();
    for (mode, depth) in [(Mode::Snes, 4), (Mode::Md, 4), (Mode::Gb, 2)] {
        convert(mode, depth, &pixels)?;
    }
    collect(&pixels)?;
    compare(&pixels)?;
    share(&pixels)?;
    refuse();
    Ok(())
}
