//! Stands in for quantette: declares what the Rust imports. No ported function reaches any of it, and each
//! function panics if it is ever called.

/// The number of colours of a palette.
pub struct PaletteSize;

impl PaletteSize {
    /// Never reached.
    pub fn from_usize_clamped(_size: usize) -> Self {
        unreachable!("stand-in for quantette: PaletteSize::from_usize_clamped")
    }
}

/// Conversions between colour spaces.
pub mod color_space {
    use crate::deps::palette::{Oklab, Srgb};

    /// Never reached.
    pub fn srgb8_to_oklab(_colors: &[Srgb]) -> Vec<Oklab> {
        unreachable!("stand-in for quantette: srgb8_to_oklab")
    }

    /// Never reached.
    pub fn oklab_to_srgb8(_colors: &[Oklab]) -> Vec<Srgb> {
        unreachable!("stand-in for quantette: oklab_to_srgb8")
    }
}

/// What quantette hands on from other crates.
pub mod deps {
    /// Colour types.
    pub mod palette {
        /// A colour in the Oklab space.
        #[derive(Debug, Clone, Copy)]
        pub struct Oklab {
            /// Lightness.
            pub l: f32,
            /// Green to red.
            pub a: f32,
            /// Blue to yellow.
            pub b: f32,
        }

        impl Oklab {
            /// A colour of these three.
            pub fn new(l: f32, a: f32, b: f32) -> Self {
                Oklab { l, a, b }
            }
        }

        /// A colour of three bytes.
        pub struct Srgb {
            /// Red.
            pub red: u8,
            /// Green.
            pub green: u8,
            /// Blue.
            pub blue: u8,
        }

        impl Srgb {
            /// A colour of these three.
            pub fn new(red: u8, green: u8, blue: u8) -> Self {
                Srgb { red, green, blue }
            }
        }
    }
}

/// Refining a palette.
pub mod kmeans {
    use crate::deps::palette::Oklab;

    /// How to refine.
    pub struct KmeansOptions;

    impl KmeansOptions {
        /// Never reached.
        #[allow(clippy::new_without_default)]
        pub fn new() -> Self {
            unreachable!("stand-in for quantette: KmeansOptions::new")
        }
    }

    /// A refined palette.
    pub struct Kmeans;

    impl Kmeans {
        /// Never reached.
        pub fn run_slice(_colors: &[Oklab], _seeds: Vec<Oklab>, _options: KmeansOptions) -> Result<Self, String> {
            unreachable!("stand-in for quantette: Kmeans::run_slice")
        }

        /// Never reached.
        pub fn into_palette(self) -> Box<[Oklab]> {
            unreachable!("stand-in for quantette: Kmeans::into_palette")
        }
    }
}

/// A first palette.
pub mod wu {
    use crate::PaletteSize;
    use crate::deps::palette::Oklab;

    /// How colours fall into bins.
    #[derive(Clone, Copy)]
    pub struct BinnerF32x3<const B1: usize, const B2: usize, const B3: usize>;

    /// Binned colours.
    pub struct WuF32x3;

    impl WuF32x3 {
        /// Never reached.
        pub fn run_slice<const B1: usize, const B2: usize, const B3: usize>(
            _colors: &[Oklab],
            _binner: BinnerF32x3<B1, B2, B3>,
        ) -> Result<Self, String> {
            unreachable!("stand-in for quantette: WuF32x3::run_slice")
        }

        /// Never reached.
        pub fn palette(self, _size: PaletteSize) -> Vec<Oklab> {
            unreachable!("stand-in for quantette: WuF32x3::palette")
        }
    }
}
