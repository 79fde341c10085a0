//! Glue: the category traits, with the signatures that the published impls force.
use crate::array::ArrayKind;
use crate::finite_function::FiniteFunction;

pub trait Arrow: Sized {
    type Object;

    fn source(&self) -> Self::Object;
    fn target(&self) -> Self::Object;
    fn identity(a: Self::Object) -> Self;
    fn compose(&self, other: &Self) -> Option<Self>;
}

pub trait Coproduct: Arrow {
    fn initial_object() -> Self::Object;
    fn initial(a: Self::Object) -> Self;
    fn coproduct(&self, other: &Self) -> Option<Self>;
    fn inj0(a: Self::Object, b: Self::Object) -> Self;
    fn inj1(a: Self::Object, b: Self::Object) -> Self;
}

pub trait Monoidal: Arrow {
    fn unit() -> Self::Object;
    fn tensor(&self, other: &Self) -> Self;
}

pub trait SymmetricMonoidal: Monoidal {
    fn twist(a: Self::Object, b: Self::Object) -> Self;
}

pub trait Spider<K: ArrayKind>: SymmetricMonoidal {
    fn dagger(&self) -> Self;
    fn spider(s: FiniteFunction<K>, t: FiniteFunction<K>, w: Self::Object) -> Option<Self>;
}
