//! Stands in for num_enum: an enum from its number. The derives are in num_enum_derive.
pub use num_enum_derive::{IntoPrimitive, TryFromPrimitive};
use std::marker::PhantomData;

pub trait TryFromPrimitive: Sized {
    type Primitive;
    fn try_from_primitive(number: Self::Primitive) -> Result<Self, TryFromPrimitiveError<Self>>;
}

#[derive(Debug)]
pub struct TryFromPrimitiveError<T>(pub PhantomData<T>);
