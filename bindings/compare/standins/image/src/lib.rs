//! Stands in for image: a picture is opened under the name it was lent under, with no file and no decoding.

use std::cell::RefCell;
use std::collections::HashMap;
use std::fmt;

thread_local! {
    static LENT: RefCell<HashMap<String, RgbaImage>> = RefCell::new(HashMap::new());
}

/// Lends RGBA bytes, row by row, under a name; the next picture of that name takes its place.
pub fn lend(name: &str, width: u32, height: u32, bytes: Vec<u8>) {
    let picture = RgbaImage { width, height, bytes };
    LENT.with(|lent| lent.borrow_mut().insert(name.to_string(), picture));
}

/// Opens the picture that was lent under the name, once.
pub fn open(name: &str) -> Result<DynamicImage, ImageError> {
    let picture = LENT.with(|lent| lent.borrow_mut().remove(name));
    picture.map(DynamicImage).ok_or(ImageError)
}

/// A picture that was opened.
pub struct DynamicImage(RgbaImage);

impl DynamicImage {
    /// Its RGBA bytes.
    pub fn to_rgba8(self) -> RgbaImage {
        self.0
    }
}

/// RGBA bytes and two sides.
pub struct RgbaImage {
    width: u32,
    height: u32,
    bytes: Vec<u8>,
}

impl RgbaImage {
    /// Width and height.
    pub fn dimensions(&self) -> (u32, u32) {
        (self.width, self.height)
    }

    /// The bytes, row by row.
    pub fn into_raw(self) -> Vec<u8> {
        self.bytes
    }
}

/// No picture was lent under the name.
#[derive(Debug)]
pub struct ImageError;

impl fmt::Display for ImageError {
    fn fmt(&self, f: &mut fmt::Formatter<'_>) -> fmt::Result {
        write!(f, "no picture was lent under this name")
    }
}
