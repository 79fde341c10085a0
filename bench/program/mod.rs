//! The benchmark's part inside the published library, since some of its functions are not public.
pub mod published;
