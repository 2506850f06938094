//! Stands in for the original's src/misc/raw/mod.rs. An opaque value's type byte (`Const`), every fixed part that is cut off before it is read
//! (`ParseBuf`) and the double (`f64`) pass through what is written here, and not through the original.

pub mod bytes;
pub mod int;

pub use self::{bytes::RawBytes, int::RawInt};

use std::{error::Error, io, marker::PhantomData, ops::Deref};

use super::unexpected_buf_eof;
use crate::{
    io::ParseBuf,
    proto::{MyDeserialize, MySerialize},
};

/// A value that is written as a number of type `N`, of which only some stand for one.
#[derive(Debug, Clone, Copy, PartialEq, Eq)]
pub struct Const<T, N>(pub T, PhantomData<N>);

impl<T, N> Const<T, N> {
    pub fn new(value: T) -> Self {
        Self(value, PhantomData)
    }
}

impl<T, N> Deref for Const<T, N> {
    type Target = T;

    fn deref(&self) -> &T {
        &self.0
    }
}

impl<'de, T> MyDeserialize<'de> for Const<T, u8>
where
    T: TryFrom<u8>,
    T::Error: Error + Send + Sync + 'static,
{
    const SIZE: Option<usize> = Some(1);
    type Ctx = ();

    fn deserialize((): (), buf: &mut ParseBuf<'de>) -> io::Result<Self> {
        match T::try_from(buf.eat_u8()) {
            Ok(value) => Ok(Self::new(value)),
            Err(unknown) => Err(io::Error::new(io::ErrorKind::InvalidData, unknown)),
        }
    }
}

/// The next bytes, as many as are asked for.
impl<'de> MyDeserialize<'de> for ParseBuf<'de> {
    const SIZE: Option<usize> = None;
    type Ctx = usize;

    fn deserialize(count: usize, buf: &mut ParseBuf<'de>) -> io::Result<Self> {
        buf.checked_eat_buf(count).ok_or_else(unexpected_buf_eof)
    }
}

impl<'de> MyDeserialize<'de> for f64 {
    const SIZE: Option<usize> = Some(8);
    type Ctx = ();

    fn deserialize((): (), buf: &mut ParseBuf<'de>) -> io::Result<Self> {
        Ok(buf.eat_f64_le())
    }
}

impl<'de, const N: usize> MyDeserialize<'de> for [u8; N] {
    const SIZE: Option<usize> = Some(N);
    type Ctx = ();

    fn deserialize((): (), buf: &mut ParseBuf<'de>) -> io::Result<Self> {
        let mut bytes = [0; N];
        bytes.copy_from_slice(buf.eat(N));
        Ok(bytes)
    }
}

impl<const N: usize> MySerialize for [u8; N] {
    fn serialize(&self, buf: &mut Vec<u8>) {
        buf.extend_from_slice(self);
    }
}
