//! A picture over a bus: one row of tiles comes after the other, and the station has memory for one of them beside the
//! bytes that it makes. It keeps the one record of the run, asks for a row again where its strip was refused, and compares
//! what it made with the conversion of the whole.

use std::error::Error;
use std::io::{self, Read};

use rumchivoat::{MapSize, Mode, Settings, Strips, check_interface};

const SIZE: MapSize = MapSize { columns: 6, rows: 5 };

/// How often a row is asked for before the station gives up.
const TRIES: usize = 3;

/// A window with a frame: its corners and sides are mirror images of each other.
fn window() -> Vec<u8> {
    let (width, height) = (8 * SIZE.columns, 8 * SIZE.rows);
    let from_edge = |x: u32, y: u32| x.min(width - 1 - x).min(y.min(height - 1 - y));
    let pixel = move |x: u32, y: u32| match from_edge(x, y) {
        0 | 5 => 1,
        1..5 => 2,
        _ => 0,
    };
    (0..height).flat_map(|y| (0..width).map(move |x| pixel(x, y))).collect()
}

/// The other end of the cable. It sends any row of tiles when it is asked, a few bytes at a time; the first time that
/// it is asked for one of them, its end is lost.
struct Bus {
    picture: Vec<u8>,
    is_bad: bool,
}

/// The row whose end is lost.
const BAD_ROW: u32 = 2;

/// What a single read gives at most.
const PACKET: usize = 48;

impl Bus {
    fn new(picture: Vec<u8>) -> Bus {
        Bus { picture, is_bad: true }
    }

    /// The bytes of a row of tiles, which has this length.
    fn row(&mut self, number: u32, length: usize) -> impl Read {
        let is_cut = number == BAD_ROW && std::mem::take(&mut self.is_bad);
        let row = self.picture.chunks(length).nth(number as usize).unwrap_or_default();
        Packets(if is_cut { row.split_at(length - 5).0 } else { row })
    }
}

/// What is still to be sent.
struct Packets<'a>(&'a [u8]);

impl Read for Packets<'_> {
    fn read(&mut self, memory: &mut [u8]) -> io::Result<usize> {
        let length = memory.len().min(PACKET).min(self.0.len());
        let (now, later) = self.0.split_at(length);
        memory[..length].copy_from_slice(now);
        self.0 = later;
        Ok(length)
    }
}

/// Fills the memory from the bus. How many bytes came before the bus had no more.
fn receive(bus: &mut impl Read, memory: &mut [u8]) -> io::Result<usize> {
    let mut came = 0;
    while came < memory.len() {
        match bus.read(&mut memory[came..])? {
            0 => break,
            length => came += length,
        }
    }
    Ok(came)
}

/// The next row of tiles, asked for until a strip of it is taken.
fn take_row<B: AsRef<[u8]> + AsMut<[u8]>>(
    strips: &mut Strips<B>,
    bus: &mut Bus,
    memory: &mut [u8],
) -> Result<(), Box<dyn Error>> {
    let number = strips.rows_taken();
    for _ in 0..TRIES {
        let came = receive(&mut bus.row(number, memory.len()), memory)?;
        match strips.take(&memory[..came]) {
            Ok(so_far) => {
                println!("row {number}: {} tiles stored, {} discarded so far", so_far.tiles, so_far.discarded);
                return Ok(());
            }
            // the record and the bytes are as they were: the row is asked for again
            Err(refused) => println!("row {number}: {refused}"),
        }
    }
    Err(format!("row {number} was refused {TRIES} times").into())
}

/// Takes the whole picture, and answers how many tiles it has.
fn take_picture(settings: Settings, bus: &mut Bus) -> Result<u32, Box<dyn Error>> {
    // what a station has: a tile buffer and a map for the whole picture, and one row of its pixels
    let (mut tiles, mut map) = (vec![0; settings.tile_len()?], vec![0; settings.map_len()?]);
    let mut strips = Strips::start(settings, &mut tiles[..], &mut map[..])?;
    let mut memory = vec![0; strips.row_len()];
    while strips.rows_left() > 0 {
        take_row(&mut strips, bus, &mut memory)?;
        // an end that is asked for too early changes nothing
        if let Err(refused) = strips.end() {
            println!("not the end yet: {refused}");
        }
    }
    let picture = strips.end()?;
    println!(
        "the end: {SIZE} tiles: {} stored, {} discarded; {} tile bytes, {} map bytes",
        picture.tiles, picture.discarded, picture.tile_bytes, picture.map_bytes
    );

    let whole = settings.convert_to_vec(&bus.picture)?;
    if (strips.tiles(), strips.map(), picture) != (&whole.tiles[..], &whole.map[..], whole.picture) {
        return Err("the strips came to other bytes than the whole".into());
    }
    println!("the whole at once comes to the same bytes and counts");
    Ok(picture.tiles)
}

fn main() -> Result<(), Box<dyn Error>> {
    check_interface()?;
    let settings = Settings::new(Mode::Snes, 4, SIZE).flips().discarding();
    take_picture(settings, &mut Bus::new(window()))?;
    Ok(())
}

/// The gate runs what stands above: a corner, a side of either kind, and the pane are stored.
#[test]
fn the_picture_comes_over_the_bus() {
    let settings = Settings::new(Mode::Snes, 4, SIZE).flips().discarding();
    assert_eq!(take_picture(settings, &mut Bus::new(window())).unwrap(), 4);
    main().unwrap();
}
