// A small stand-in for the crate `ghost_cell`: a cell whose contents are
// reached with a token of the same brand. Same cost as the real one (none at run time).

use std::cell::UnsafeCell;
use std::marker::PhantomData;

type Invariant<'brand> = PhantomData<fn(&'brand ()) -> &'brand ()>;

pub struct GhostToken<'brand> {
    _brand: Invariant<'brand>,
}

impl GhostToken<'_> {
    #[allow(clippy::new_ret_no_self)]
    pub fn new<R, F>(fun: F) -> R
    where
        F: for<'new_brand> FnOnce(GhostToken<'new_brand>) -> R,
    {
        fun(GhostToken { _brand: PhantomData })
    }
}

#[repr(transparent)]
pub struct GhostCell<'brand, T: ?Sized> {
    _brand: Invariant<'brand>,
    value: UnsafeCell<T>,
}

impl<'brand, T> GhostCell<'brand, T> {
    pub const fn new(value: T) -> Self {
        GhostCell { _brand: PhantomData, value: UnsafeCell::new(value) }
    }
    pub fn borrow<'a>(&'a self, _token: &'a GhostToken<'brand>) -> &'a T {
        // The token is unique for its brand and borrowed for 'a.
        unsafe { &*self.value.get() }
    }
    #[allow(clippy::mut_from_ref)]
    pub fn borrow_mut<'a>(&'a self, _token: &'a mut GhostToken<'brand>) -> &'a mut T {
        // The token is unique for its brand and borrowed mutably for 'a.
        unsafe { &mut *self.value.get() }
    }
}

unsafe impl<T: Send> Send for GhostCell<'_, T> {}
unsafe impl<T: Send + Sync> Sync for GhostCell<'_, T> {}
