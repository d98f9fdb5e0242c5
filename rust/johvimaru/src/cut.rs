//! What a power cut leaves.

use crate::{Cut, Refused, Store};
use core::fmt;

/// How a call in its form with n and k ended. It comes with the feature `cut`.
#[derive(Clone)]
pub enum Outcome<I> {
    /// It has no more than n steps, and was done.
    Done(Store<I>),
    /// The power cut it.
    Cut(Unmounted<I>),
}

/// The image, which has the keys, is not shown.
impl<I> fmt::Debug for Outcome<I> {
    fn fmt(&self, f: &mut fmt::Formatter) -> fmt::Result {
        match self {
            Outcome::Done(store) => f.debug_tuple("Done").field(store).finish(),
            Outcome::Cut(image) => f.debug_tuple("Cut").field(image).finish(),
        }
    }
}

impl<I: AsRef<[u8]> + AsMut<[u8]>> Outcome<I> {
    /// The store, mounted again where the call was cut.
    pub fn mounted(self) -> Result<Store<I>, Refused<Unmounted<I>>> {
        match self {
            Outcome::Done(store) => Ok(store),
            Outcome::Cut(image) => image.mount(),
        }
    }

    /// The image as it stands.
    pub fn image(&self) -> &[u8] {
        match self {
            Outcome::Done(store) => store.image(),
            Outcome::Cut(image) => image.image(),
        }
    }

    /// Whether the power cut the call.
    pub fn is_cut(&self) -> bool {
        matches!(self, Outcome::Cut(_))
    }
}

/// An image that a cut has left without a record. Nothing but a mount makes it a store again. It comes with
/// the feature `cut`.
#[derive(Clone)]
pub struct Unmounted<I> {
    image: I,
}

/// The image, which has the keys, is not shown.
impl<I> fmt::Debug for Unmounted<I> {
    fn fmt(&self, f: &mut fmt::Formatter) -> fmt::Result {
        f.debug_struct("Unmounted").finish_non_exhaustive()
    }
}

impl<I> Unmounted<I> {
    pub(crate) fn new(image: I) -> Unmounted<I> {
        Unmounted { image }
    }

    /// Gives the image up, to be kept until a mount.
    pub fn into_image(self) -> I {
        self.image
    }
}

impl<I: AsRef<[u8]> + AsMut<[u8]>> Unmounted<I> {
    /// The image's bytes.
    pub fn image(&self) -> &[u8] {
        self.image.as_ref()
    }

    /// Mounts the image.
    pub fn mount(self) -> Result<Store<I>, Refused<Unmounted<I>>> {
        Store::mount(self.image).map_err(Unmounted::refused)
    }

    /// Mounts the image, and the power cuts that too.
    pub fn mount_cut(self, cut: Cut) -> Result<Outcome<I>, Refused<Unmounted<I>>> {
        Store::mount_cut(self.image, cut).map_err(Unmounted::refused)
    }

    fn refused(refused: Refused<I>) -> Refused<Unmounted<I>> {
        Refused { refusal: refused.refusal, back: Unmounted::new(refused.back) }
    }
}
