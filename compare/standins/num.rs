//! Stands in for the crate num: the one question that the source asks of its trait Integer.

pub trait Integer {
    fn is_odd(&self) -> bool;
}

impl Integer for i32 {
    #[inline]
    fn is_odd(&self) -> bool {
        self % 2 != 0
    }
}
