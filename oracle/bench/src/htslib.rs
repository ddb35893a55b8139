//! htslib on the same bytes, where oracle/build found it; otherwise every answer is None.

/// A header that htslib parsed.
pub struct Parsed(#[cfg(feature = "htslib")] std::ptr::NonNull<c::Header>);

#[cfg(feature = "htslib")]
mod c {
    use std::{
        ffi::{c_char, c_void},
        ptr::NonNull,
    };

    pub type Header = c_void;

    // oracle/htslib.c
    unsafe extern "C" {
        pub fn bench_hts_parse(text: *const u8, length: usize) -> Option<NonNull<Header>>;
        pub fn bench_hts_write(header: NonNull<Header>) -> usize;
        pub fn bench_hts_destroy(header: NonNull<Header>);
        pub safe fn bench_hts_version() -> *const c_char;
    }
}

#[cfg(feature = "htslib")]
impl Drop for Parsed {
    fn drop(&mut self) {
        unsafe { c::bench_hts_destroy(self.0) }
    }
}

/// Parses a text and fills its tables.
#[cfg(feature = "htslib")]
pub fn read(text: &[u8]) -> Option<Parsed> {
    unsafe { c::bench_hts_parse(text.as_ptr(), text.len()) }.map(Parsed)
}

/// Parses a text, fills its tables and writes it again.
#[cfg(feature = "htslib")]
pub fn tidy(text: &[u8]) -> Option<Parsed> {
    read(text).filter(|parsed| unsafe { c::bench_hts_write(parsed.0) } > 0)
}

/// Which htslib it is.
#[cfg(feature = "htslib")]
pub fn version() -> Option<String> {
    Some(unsafe { std::ffi::CStr::from_ptr(c::bench_hts_version()) }.to_string_lossy().into_owned())
}

#[cfg(not(feature = "htslib"))]
pub fn read(_: &[u8]) -> Option<Parsed> {
    None
}

#[cfg(not(feature = "htslib"))]
pub fn tidy(_: &[u8]) -> Option<Parsed> {
    None
}

#[cfg(not(feature = "htslib"))]
pub fn version() -> Option<String> {
    None
}
