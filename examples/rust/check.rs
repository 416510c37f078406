//! The library for C in safe Rust, without dependencies; and a program that checks files by it. docs/C.md says how it
//! is built.

use std::{env, fmt, fs, process};

/// What include/asn1.h declares. Each function needs pointers that are valid for the counts behind them, which slices
/// and references give.
mod raw {
    #[repr(C)]
    #[derive(Clone, Copy, Debug, Default, PartialEq, Eq)]
    pub struct Error {
        pub number: u32,
        pub tag_number: u32,
        pub tag_class: u8,
        pub tag_constructed: bool,
        pub needed: usize,
        pub min: usize,
        pub max: usize,
        pub actual: usize,
    }

    #[repr(C)]
    #[derive(Default)]
    pub struct Element {
        pub number: u32,
        pub class_number: u8,
        pub constructed: bool,
        pub header_length: usize,
        pub contents_length: usize,
    }

    extern "C" {
        pub fn asn1_strip_tlv(octets: *const u8, count: usize, element: *mut Element, error: *mut Error) -> u32;
        pub fn pkix_check(
            object: u32,
            octets: *const u8,
            count: usize,
            place: *mut u8,
            size: usize,
            place_length: *mut usize,
            error: *mut Error,
        ) -> u32;
        pub fn pkix_error_octet(
            object: u32,
            octets: *const u8,
            count: usize,
            scratch: *mut u8,
            size: usize,
            octet: *mut usize,
        ) -> bool;
        pub fn asn1_error_text(number: u32, text: *mut u8, size: usize, text_length: *mut usize) -> u32;
    }
}

pub use raw::Error;

impl fmt::Display for Error {
    fn fmt(&self, f: &mut fmt::Formatter<'_>) -> fmt::Result {
        let (mut text, mut length) = ([0; 64], 0);
        unsafe { raw::asn1_error_text(self.number, text.as_mut_ptr(), text.len(), &mut length) };
        f.write_str(&String::from_utf8_lossy(text.get(..length).unwrap_or(&[])))
    }
}

/// An element, which borrows its octets.
pub struct Element<'a> {
    pub class_number: u8,
    pub number: u32,
    pub constructed: bool,
    pub contents: &'a [u8],
}

/// The element at the start of the octets, and the octets after it.
pub fn strip_tlv(octets: &[u8]) -> Result<(Element<'_>, &[u8]), Error> {
    let (mut found, mut error) = (raw::Element::default(), Error::default());
    // SAFETY: the pointers are those of a slice and of references.
    if unsafe { raw::asn1_strip_tlv(octets.as_ptr(), octets.len(), &mut found, &mut error) } != 0 {
        return Err(error);
    }
    let (element, after) = octets.split_at(found.header_length + found.contents_length);
    let element = Element {
        class_number: found.class_number,
        number: found.number,
        constructed: found.constructed,
        contents: &element[found.header_length..],
    };
    Ok((element, after))
}

/// A certificate.
pub const CERTIFICATE: u32 = 1;

/// Whether the octets are the one encoding of such an object. If not: the error, and its location.
pub fn check(object: u32, octets: &[u8]) -> Result<(), (Error, String)> {
    let (mut place, mut length, mut error) = ([0; 128], 0, Error::default());
    // SAFETY: the pointers are those of slices and of references, none of which overlap.
    let number = unsafe {
        raw::pkix_check(
            object,
            octets.as_ptr(),
            octets.len(),
            place.as_mut_ptr(),
            place.len(),
            &mut length,
            &mut error,
        )
    };
    if number == 0 {
        return Ok(());
    }
    let place = place.get(..length).unwrap_or(&[]);
    Err((error, String::from_utf8_lossy(place).into_owned()))
}

/// At which octet the octets are rejected, if they are.
pub fn error_octet(object: u32, octets: &[u8]) -> Option<usize> {
    let (mut scratch, mut octet) = (vec![0; octets.len()], 0);
    // SAFETY: the pointers are those of slices and of a reference, none of which overlap.
    let is_found = unsafe {
        raw::pkix_error_octet(
            object,
            octets.as_ptr(),
            octets.len(),
            scratch.as_mut_ptr(),
            scratch.len(),
            &mut octet,
        )
    };
    is_found.then_some(octet)
}

fn main() {
    let mut status = 0;
    for name in env::args().skip(1) {
        let octets = match fs::read(&name) {
            Ok(octets) => octets,
            Err(error) => {
                println!("{name}: {error}");
                status = 2;
                continue;
            }
        };
        match check(CERTIFICATE, &octets) {
            Ok(()) => println!("{name}: a certificate"),
            Err((error, place)) => {
                status = 1;
                println!("{name}: {place}{}{error}", if place.is_empty() { "" } else { ": " });
                if let Some(octet) = error_octet(CERTIFICATE, &octets) {
                    println!("  at octet {octet}");
                }
            }
        }
        let mut rest = &octets[..octets.len().saturating_sub(1)];
        while !rest.is_empty() {
            match strip_tlv(rest) {
                Ok((_element, after)) => rest = after,
                Err(error) => {
                    println!("  without its last octet: {error}: {}", error.needed);
                    break;
                }
            }
        }
    }
    process::exit(status);
}
