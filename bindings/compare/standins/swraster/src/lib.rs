//! The source's own text, compiled unchanged. Nothing of it stands in this repository: the build takes it from the
//! folder SWRASTER_SRC, and where there is none this crate is empty.
#![allow(warnings)]

#[cfg(given)]
pub mod math {
    include!(concat!(env!("SWRASTER_TEXT"), "/math.rs"));
}

#[cfg(given)]
pub mod util {
    include!(concat!(env!("SWRASTER_TEXT"), "/util.rs"));
}

#[cfg(given)]
pub mod texture {
    include!(concat!(env!("SWRASTER_TEXT"), "/texture.rs"));
}

/// The error type and its result, the lines of scene.rs that texture.rs needs.
#[cfg(given)]
pub mod scene {
    include!(concat!(env!("OUT_DIR"), "/scene.rs"));
}
