//! Big-endian numbers, taken from or put into bytes one after the other.

/// The bytes not yet taken.
pub struct Source<'a>(&'a [u8]);

impl<'a> Source<'a> {
    pub fn new(bytes: &'a [u8]) -> Self {
        Source(bytes)
    }

    fn take<const N: usize>(&mut self) -> [u8; N] {
        let (taken, rest) = self.0.split_first_chunk().expect("the caller measured");
        self.0 = rest;
        *taken
    }

    pub fn u8(&mut self) -> u8 {
        u8::from_be_bytes(self.take())
    }

    pub fn u16(&mut self) -> u16 {
        u16::from_be_bytes(self.take())
    }

    pub fn u32(&mut self) -> u32 {
        u32::from_be_bytes(self.take())
    }

    pub fn u64(&mut self) -> u64 {
        u64::from_be_bytes(self.take())
    }

    /// Passes over bytes that are padding, or read already.
    pub fn skip(&mut self, count: usize) -> &mut Self {
        self.0 = &self.0[count..];
        self
    }
}

/// The bytes not yet put.
pub struct Sink<'a>(&'a mut [u8]);

impl<'a> Sink<'a> {
    pub fn new(bytes: &'a mut [u8]) -> Self {
        Sink(bytes)
    }

    pub fn bytes(&mut self, bytes: &[u8]) -> &mut Self {
        let (put, rest) = std::mem::take(&mut self.0).split_at_mut(bytes.len());
        put.copy_from_slice(bytes);
        self.0 = rest;
        self
    }

    pub fn u8(&mut self, value: u8) -> &mut Self {
        self.bytes(&value.to_be_bytes())
    }

    pub fn u16(&mut self, value: u16) -> &mut Self {
        self.bytes(&value.to_be_bytes())
    }

    pub fn u32(&mut self, value: u32) -> &mut Self {
        self.bytes(&value.to_be_bytes())
    }

    pub fn u64(&mut self, value: u64) -> &mut Self {
        self.bytes(&value.to_be_bytes())
    }

    pub fn zeros(&mut self, count: usize) -> &mut Self {
        let (put, rest) = std::mem::take(&mut self.0).split_at_mut(count);
        put.fill(0);
        self.0 = rest;
        self
    }
}
