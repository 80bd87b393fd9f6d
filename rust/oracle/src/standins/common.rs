//! Stand-ins for the common traits and the text type that the event files name.

/// Something that can be read from a stream.
pub trait ReadFrom<R: ?Sized>: Sized {
    type Error;
    fn read_from(reader: &mut R) -> Result<Self, Self::Error>;
}

/// Something that can be written to a stream.
pub trait WriteTo<W: ?Sized> {
    type Error;
    fn write_to(&self, writer: &mut W) -> Result<(), Self::Error>;
}

pub mod text {
    //! Text as bare bytes; no call here decodes it.

    /// Bare bytes are always taken, so nothing can fail.
    #[derive(Debug)]
    pub enum Error {}

    /// Bytes that are text.
    #[derive(Debug, Clone, PartialEq, Eq)]
    pub struct Text<B>(B);

    /// Text that owns its bytes.
    pub type VecText = Text<Vec<u8>>;

    impl<B: AsRef<[u8]>> Text<B> {
        pub fn from_bytes(bytes: B) -> Result<Self, Error> {
            Ok(Self(bytes))
        }

        pub fn iter(&self) -> impl Iterator<Item = u8> {
            self.0.as_ref().iter().copied()
        }
    }
}

pub use text::VecText;
