//! The program that is run: the proved code where it is linked, else the reference.
use crate::calls::Calls;

#[cfg(feature = "proved")]
pub fn subject() -> (Box<dyn Calls>, &'static str) {
    (Box::new(crate::proved::Proved), "the proved code")
}

#[cfg(not(feature = "proved"))]
pub fn subject() -> (Box<dyn Calls>, &'static str) {
    (Box::new(crate::reference::Reference), "the reference, NOT the proved code")
}
