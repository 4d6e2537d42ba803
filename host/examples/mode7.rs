//! A mode 7 picture for the loader: a track seen from above is converted, its map is laid out in the console's, which is
//! twice as wide and high, and the block is made. It is taken apart again, compared, and redrawn from its halves.

use std::error::Error;

use rumchivoat::{
    Converted, MODE7_BLOCK, MODE7_HALF, MapSize, Mode, Settings, check_interface, mode7_make, mode7_split,
    mode7_split_to_vec,
};

const SIZE: MapSize = MapSize { columns: 64, rows: 64 };

/// The picture's pixels a side.
const SIDE: usize = 512;

/// The places of a row of the console's map.
const PLACES: usize = 128;

/// The column and the row of the console's map where the picture starts: it stands in the middle.
const START: usize = 32;

/// What the buffers hold from a former job.
const LEFT: u8 = 0xee;

fn hex(bytes: &[u8]) -> String {
    bytes.iter().map(|byte| format!("{byte:02x}")).collect::<Vec<_>>().join(" ")
}

/// A track with eight sides on a ground, between kerbs, with a line in its middle. Ground is 0, also in the corners: so
/// the picture's first tile is blank.
fn track() -> Vec<u8> {
    let from_middle = |place: usize| (2 * place + 1).abs_diff(SIDE) / 2;
    let pixel = |x: usize, y: usize| {
        let (x, y) = (from_middle(x), from_middle(y));
        match x.max(y).max((x + y) * 2 / 3) {
            140..148 | 228..236 => 1 + ((x + y) / 8 % 2) as u8,
            187..189 => 3,
            148..228 => 4,
            _ => 0,
        }
    };
    (0..SIDE).flat_map(|y| (0..SIDE).map(move |x| pixel(x, y))).collect()
}

/// Where a row of the picture starts in the console's map. The console's rows have 128 places and the picture's 64, so
/// that the picture's map does not go in as it is: its second row would stand beside its first.
fn start_of(row: usize) -> usize {
    PLACES * (START + row) + START
}

/// The console's map, with the picture's rows in it. The places around them stay 0: the console shows tile 0 there, which
/// is the blank one.
fn lay_out(picture: &[u8]) -> Vec<u8> {
    let (columns, mut map) = (SIZE.columns as usize, vec![0; MODE7_HALF]);
    for (row, entries) in picture.chunks_exact(columns).enumerate() {
        map[start_of(row)..][..columns].copy_from_slice(entries);
    }
    map
}

/// The picture's rows, cut out of the console's map again.
fn cut_out(map: &[u8]) -> Vec<u8> {
    let rows = 0..SIZE.rows as usize;
    rows.flat_map(|row| &map[start_of(row)..][..SIZE.columns as usize]).copied().collect()
}

/// The block of a converted picture.
fn make_block(converted: &Converted) -> Result<Vec<u8>, Box<dyn Error>> {
    let map = lay_out(&converted.map);
    println!("map      {PLACES}x{PLACES} places: the picture from column {START} and row {START} on, tile 0 around it");
    let mut block = vec![LEFT; MODE7_BLOCK];
    let written = mode7_make(&converted.tiles, &map, &mut block)?;
    let start = 2 * start_of(SIZE.rows as usize / 2);
    println!(
        "block    {written} bytes, map and tiles by turns; from byte {start} on: {} ..",
        hex(&block[start..start + 8])
    );
    Ok(block)
}

/// The halves of a block, which are the picture's tile bytes and its map where it was laid out: all other bytes are 0,
/// and nothing is left of a former job.
fn split_block(block: &[u8], converted: &Converted) -> Result<(Vec<u8>, Vec<u8>), Box<dyn Error>> {
    let (mut tiles, mut map) = (vec![LEFT; MODE7_HALF], vec![LEFT; MODE7_HALF]);
    let written = mode7_split(block, &mut tiles, &mut map)?;
    let (front, fill) = tiles.split_at(converted.tiles.len());
    if front != converted.tiles || fill.iter().any(|&byte| byte != 0) || map != lay_out(&converted.map) {
        return Err("the halves are not what the block was made from".into());
    }
    println!("split    {written} tile bytes and {written} map bytes: what went in, and {} tile bytes 0", fill.len());
    Ok((tiles, map))
}

/// Converts the picture, makes its block, takes it apart, and redraws it from the halves. Answers how many tiles it has.
fn there_and_back(pixels: &[u8]) -> Result<u32, Box<dyn Error>> {
    let settings = Settings::new(Mode::SnesMode7, 8, SIZE).discarding();
    let converted = settings.convert_to_vec(pixels)?;
    let picture = converted.picture;
    println!(
        "picture  {SIZE} tiles: {} stored, {} discarded; {} tile bytes, {} map bytes",
        picture.tiles, picture.discarded, picture.tile_bytes, picture.map_bytes
    );
    if converted.tiles.iter().take(64).any(|&pixel| pixel != 0) {
        return Err("the first tile is not blank, and would be shown around the picture".into());
    }
    let block = make_block(&converted)?;
    let (tiles, map) = split_block(&block, &converted)?;
    let redrawn = settings.redraw_to_vec(&tiles, &cut_out(&map))?;
    if redrawn != pixels {
        return Err("the picture redrawn from the halves is another".into());
    }
    println!("redrawn  {} pixels agree", redrawn.len());
    Ok(picture.tiles)
}

/// A block whose last byte was lost: the words say why it is not split.
fn refuse() {
    match mode7_split_to_vec(&[0; MODE7_BLOCK - 1]) {
        Ok(halves) => println!("split    {} tile bytes", halves.tiles.len()),
        Err(refused) => println!("split    {refused}"),
    }
}

fn main() -> Result<(), Box<dyn Error>> {
    check_interface()?;
    there_and_back(&track())?;
    refuse();
    Ok(())
}

/// The gate runs what stands above. As many tiles as there are patterns of 8x8 pixels in the picture are stored.
#[test]
fn the_block_holds_the_picture() {
    let pixels = track();
    let corners = (0..SIDE).step_by(8).flat_map(|y| (0..SIDE).step_by(8).map(move |x| y * SIDE + x));
    let tile = |corner: usize| (0..8).flat_map(move |y| corner + y * SIDE..corner + y * SIDE + 8);
    let patterns: std::collections::BTreeSet<Vec<u8>> =
        corners.map(|corner| tile(corner).map(|place| pixels[place]).collect()).collect();
    assert!((2..=256).contains(&patterns.len()));
    assert_eq!(there_and_back(&pixels).unwrap() as usize, patterns.len());
    main().unwrap();
}
