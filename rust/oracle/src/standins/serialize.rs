//! A stand-in for the traits by which events are read from and written to files.
//!
//! Nothing here reads or writes an event; the traits are there so that the original compiles.

use super::common::VecText;
use crate::event::Pointer;
use crate::event::opcodes::{Atom, CmdOp, ExprOp, MsgOp};

pub type Result<T> = std::result::Result<T, Error>;

/// The errors that the original tells apart.
#[derive(Debug)]
pub enum Error {
    UnrecognizedAtom(i32),
    UnsupportedAtom(Atom),
}

pub trait DeserializeEvent: Sized {
    type Error;
    fn deserialize(de: &mut dyn EventDeserializer) -> std::result::Result<Self, Self::Error>;
}

pub trait SerializeEvent {
    type Error;
    fn serialize(&self, ser: &mut dyn EventSerializer) -> std::result::Result<(), Self::Error>;
}

pub trait EventDeserializer {
    fn deserialize_i8(&mut self) -> Result<i8>;
    fn deserialize_u8(&mut self) -> Result<u8>;
    fn deserialize_i16(&mut self) -> Result<i16>;
    fn deserialize_u16(&mut self) -> Result<u16>;
    fn deserialize_i32(&mut self) -> Result<i32>;
    fn deserialize_u32(&mut self) -> Result<u32>;
    fn deserialize_pointer(&mut self) -> Result<Pointer>;
    fn deserialize_text(&mut self) -> Result<VecText>;
    fn deserialize_rgba(&mut self) -> Result<u32>;
    fn deserialize_atom(&mut self) -> Result<Atom>;
    fn deserialize_msg_char(&mut self) -> Result<MsgOp>;
    fn begin_expr(&mut self) -> Result<ExprOp>;
    fn end_expr(&mut self) -> Result<()>;
    fn begin_command(&mut self) -> Result<CmdOp>;
    fn end_command(&mut self) -> Result<()>;
    fn begin_variadic_args(&mut self) -> Result<()>;
    fn have_variadic_arg(&mut self) -> Result<bool>;
    fn end_variadic_args(&mut self) -> Result<()>;
}

pub trait EventSerializer {
    fn serialize_i8(&mut self, value: i8) -> Result<()>;
    fn serialize_u8(&mut self, value: u8) -> Result<()>;
    fn serialize_i16(&mut self, value: i16) -> Result<()>;
    fn serialize_u16(&mut self, value: u16) -> Result<()>;
    fn serialize_i32(&mut self, value: i32) -> Result<()>;
    fn serialize_u32(&mut self, value: u32) -> Result<()>;
    fn serialize_pointer(&mut self, value: Pointer) -> Result<()>;
    fn serialize_text(&mut self, value: &VecText) -> Result<()>;
    fn serialize_rgba(&mut self, value: u32) -> Result<()>;
    fn serialize_atom(&mut self, value: Atom) -> Result<()>;
    fn serialize_msg_char(&mut self, value: MsgOp) -> Result<()>;
    fn serialize_i8_array(&mut self, values: &[i8]) -> Result<()>;
    fn serialize_u8_array(&mut self, values: &[u8]) -> Result<()>;
    fn serialize_i16_array(&mut self, values: &[i16]) -> Result<()>;
    fn serialize_u16_array(&mut self, values: &[u16]) -> Result<()>;
    fn serialize_i32_array(&mut self, values: &[i32]) -> Result<()>;
    fn serialize_u32_array(&mut self, values: &[u32]) -> Result<()>;
    fn serialize_pointer_array(&mut self, values: &[Pointer]) -> Result<()>;
    fn begin_expr(&mut self, op: ExprOp) -> Result<()>;
    fn end_expr(&mut self) -> Result<()>;
    fn begin_command(&mut self, op: CmdOp) -> Result<()>;
    fn end_command(&mut self) -> Result<()>;
    fn begin_variadic_args(&mut self, count: usize) -> Result<()>;
    fn end_variadic_args(&mut self) -> Result<()>;
}

/// The plain types that the originals serialize as fields.
macro_rules! field {
    ($type:ty, $read:ident, $write:ident) => {
        impl DeserializeEvent for $type {
            type Error = Error;
            fn deserialize(de: &mut dyn EventDeserializer) -> Result<Self> {
                de.$read()
            }
        }

        impl SerializeEvent for $type {
            type Error = Error;
            fn serialize(&self, ser: &mut dyn EventSerializer) -> Result<()> {
                ser.$write(*self)
            }
        }
    };
}

field!(u8, deserialize_u8, serialize_u8);
field!(i16, deserialize_i16, serialize_i16);
field!(u16, deserialize_u16, serialize_u16);
field!(i32, deserialize_i32, serialize_i32);
field!(Pointer, deserialize_pointer, serialize_pointer);

impl SerializeEvent for VecText {
    type Error = Error;
    fn serialize(&self, ser: &mut dyn EventSerializer) -> Result<()> {
        ser.serialize_text(self)
    }
}
