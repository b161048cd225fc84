//! Stands in for brotli: the bytes pass through. The comparison makes no use of the file that the source keeps so.

use std::io::{self, Read, Write};

/// Reads the bytes as they are.
pub struct Decompressor<R>(R);

impl<R: Read> Decompressor<R> {
    pub fn new(reader: R, _buffer_size: usize) -> Self {
        Decompressor(reader)
    }
}

impl<R: Read> Read for Decompressor<R> {
    fn read(&mut self, bytes: &mut [u8]) -> io::Result<usize> {
        self.0.read(bytes)
    }
}

/// Writes the bytes as they are.
pub struct CompressorWriter<W>(W);

impl<W: Write> CompressorWriter<W> {
    pub fn new(writer: W, _buffer_size: usize, _quality: u32, _window: u32) -> Self {
        CompressorWriter(writer)
    }
}

impl<W: Write> Write for CompressorWriter<W> {
    fn write(&mut self, bytes: &[u8]) -> io::Result<usize> {
        self.0.write(bytes)
    }

    fn flush(&mut self) -> io::Result<()> {
        self.0.flush()
    }
}
