//! A stand-in for the crate `byteorder`, for building the oracle without outside crates.
//!
//! It has only what `shapefile` 0.9.0 uses: i32 and f64, big- and little-endian. Each read is one
//! call of `read_exact` and each write one call of `write_all`, as in the real crate, so that one
//! call is one field.

use std::io::{Read, Result, Write};

/// An order of bytes.
pub trait ByteOrder {
    fn i32_from(bytes: [u8; 4]) -> i32;
    fn i32_bytes(value: i32) -> [u8; 4];
    fn f64_from(bytes: [u8; 8]) -> f64;
    fn f64_bytes(value: f64) -> [u8; 8];
}

pub enum BigEndian {}

pub enum LittleEndian {}

impl ByteOrder for BigEndian {
    fn i32_from(bytes: [u8; 4]) -> i32 {
        i32::from_be_bytes(bytes)
    }

    fn i32_bytes(value: i32) -> [u8; 4] {
        value.to_be_bytes()
    }

    fn f64_from(bytes: [u8; 8]) -> f64 {
        f64::from_be_bytes(bytes)
    }

    fn f64_bytes(value: f64) -> [u8; 8] {
        value.to_be_bytes()
    }
}

impl ByteOrder for LittleEndian {
    fn i32_from(bytes: [u8; 4]) -> i32 {
        i32::from_le_bytes(bytes)
    }

    fn i32_bytes(value: i32) -> [u8; 4] {
        value.to_le_bytes()
    }

    fn f64_from(bytes: [u8; 8]) -> f64 {
        f64::from_le_bytes(bytes)
    }

    fn f64_bytes(value: f64) -> [u8; 8] {
        value.to_le_bytes()
    }
}

pub trait ReadBytesExt: Read {
    fn read_i32<T: ByteOrder>(&mut self) -> Result<i32> {
        let mut bytes = [0; 4];
        self.read_exact(&mut bytes)?;
        Ok(T::i32_from(bytes))
    }

    fn read_f64<T: ByteOrder>(&mut self) -> Result<f64> {
        let mut bytes = [0; 8];
        self.read_exact(&mut bytes)?;
        Ok(T::f64_from(bytes))
    }
}

impl<R: Read + ?Sized> ReadBytesExt for R {}

pub trait WriteBytesExt: Write {
    fn write_i32<T: ByteOrder>(&mut self, value: i32) -> Result<()> {
        self.write_all(&T::i32_bytes(value))
    }

    fn write_f64<T: ByteOrder>(&mut self, value: f64) -> Result<()> {
        self.write_all(&T::f64_bytes(value))
    }
}

impl<W: Write + ?Sized> WriteBytesExt for W {}
