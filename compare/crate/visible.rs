//! Ours, put beside the crate's files: a pool from bytes, and the decoder over it, made visible.
use super::*;

pub struct Pool<'a>(Vec<CafeRc<ConstantPoolEntry<'a>>>);

impl<'a> Pool<'a> {
    /// From bytes that begin at the pool's count, of a class of this major version.
    pub fn read(bytes: &'a [u8], major: u16) -> Result<Pool<'a>, ParseError> {
        Ok(Pool(read_constant_pool(bytes, &mut 0, major)?))
    }

    pub fn len(&self) -> usize {
        self.0.len()
    }

    pub fn decode(&self, code: &'a [u8]) -> Result<bytecode::ByteCode<'a>, ParseError> {
        bytecode::ByteCode::from(code, &self.0)
    }
}
