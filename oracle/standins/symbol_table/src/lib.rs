//! Stand-in for the crate `symbol_table`: names that live as long as the case that made them.

use std::{cell::RefCell, fmt};

#[derive(Clone, Copy, Debug, PartialEq, Eq, PartialOrd, Ord, Hash)]
pub struct GlobalSymbol(&'static str);

thread_local! {
    static NAMES: RefCell<Vec<*mut str>> = const { RefCell::new(Vec::new()) };
}

impl GlobalSymbol {
    pub fn as_str(&self) -> &'static str {
        self.0
    }
}

impl fmt::Display for GlobalSymbol {
    fn fmt(&self, f: &mut fmt::Formatter<'_>) -> fmt::Result {
        f.write_str(self.0)
    }
}

impl From<&str> for GlobalSymbol {
    fn from(value: &str) -> Self {
        let name = Box::into_raw(Box::<str>::from(value));
        NAMES.with_borrow_mut(|names| names.push(name));
        // SAFETY: the box is freed by `forget_names` alone.
        GlobalSymbol(unsafe { &*name })
    }
}

impl From<&String> for GlobalSymbol {
    fn from(value: &String) -> Self {
        value.as_str().into()
    }
}

impl From<String> for GlobalSymbol {
    fn from(value: String) -> Self {
        value.as_str().into()
    }
}

/// Frees every name made on this thread, so that millions of cases need no more room than one.
///
/// # Safety
/// No symbol made before may be used afterwards.
pub unsafe fn forget_names() {
    NAMES.with_borrow_mut(|names| {
        for name in names.drain(..) {
            // SAFETY: made by `Box::into_raw` above, and taken out of the list here.
            drop(unsafe { Box::from_raw(name) });
        }
    });
}
