//! A stand-in for the crate `dbase`, for building the oracle without outside crates.
//!
//! `shapefile` 0.9.0 names these types for the attribute table (.dbf), which shapes do not touch.
//! Nothing here reads or writes a table: every call that would answers `Error`.

use std::fs::File;
use std::io::BufWriter;
use std::marker::PhantomData;
use std::path::Path;

/// There is no table behind this stand-in.
#[derive(Debug)]
pub struct Error;

#[derive(Debug)]
pub struct Record;

pub struct TableInfo;

pub trait ReadableRecord: Sized {}

pub trait WritableRecord {}

impl ReadableRecord for Record {}

impl WritableRecord for Record {}

pub struct Reader<T>(PhantomData<T>);

impl<T> Reader<T> {
    pub fn new(_source: T) -> Result<Self, Error> {
        Err(Error)
    }

    pub fn iter_records_as<R: ReadableRecord>(&mut self) -> RecordIterator<'_, T, R> {
        RecordIterator(PhantomData)
    }

    pub fn seek(&mut self, _index: usize) -> Result<(), Error> {
        Err(Error)
    }

    pub fn into_table_info(self) -> TableInfo {
        TableInfo
    }
}

pub struct RecordIterator<'a, T, R>(PhantomData<(&'a T, R)>);

impl<T, R: ReadableRecord> Iterator for RecordIterator<'_, T, R> {
    type Item = Result<R, Error>;

    fn next(&mut self) -> Option<Self::Item> {
        Some(Err(Error))
    }
}

pub struct TableWriter<T>(PhantomData<T>);

impl<T> TableWriter<T> {
    pub fn write_record<R: WritableRecord>(&mut self, _record: &R) -> Result<(), Error> {
        Err(Error)
    }
}

pub struct TableWriterBuilder;

impl TableWriterBuilder {
    pub fn from_table_info(_info: TableInfo) -> Self {
        TableWriterBuilder
    }

    pub fn build_with_file_dest<P: AsRef<Path>>(
        self,
        _path: P,
    ) -> Result<TableWriter<BufWriter<File>>, Error> {
        Err(Error)
    }
}
