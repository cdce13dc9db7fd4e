//! Stands in for the crate lazy_static: a static that is worked out where it is first looked at.

#[macro_export]
macro_rules! lazy_static {
    ($(static ref $name:ident: $kind:ty = $value:expr;)*) => {
        $(
            #[allow(non_camel_case_types)]
            struct $name;
            impl std::ops::Deref for $name {
                type Target = $kind;
                fn deref(&self) -> &$kind {
                    static CELL: $crate::Once<$kind> = $crate::Once::new();
                    CELL.get(|| $value)
                }
            }
        )*
    };
}

/// A value that is set once.
pub struct Once<T> {
    begun: std::sync::Once,
    value: std::cell::UnsafeCell<Option<T>>,
}

// The value is written once, inside `call_once`, and only read after it.
unsafe impl<T: Send + Sync> Sync for Once<T> {}

impl<T> Once<T> {
    pub const fn new() -> Self {
        Once { begun: std::sync::Once::new(), value: std::cell::UnsafeCell::new(None) }
    }

    pub fn get(&self, make: impl FnOnce() -> T) -> &T {
        self.begun.call_once(|| unsafe { *self.value.get() = Some(make()) });
        unsafe { (*self.value.get()).as_ref().unwrap() }
    }
}
