//! Lists that a call makes: where memory lacks, it says so, and the process goes on.
use crate::error::Error;

/// An empty list with room for so many items.
#[inline]
pub(crate) fn room<T>(count: usize) -> Result<Vec<T>, Error> {
    let mut list = Vec::new();
    list.try_reserve_exact(count).map_err(|_| Error::NoMemory)?;
    Ok(list)
}

/// Makes room for so many more items, and at least doubles it where there is too little.
#[inline]
pub(crate) fn reserve<T>(list: &mut Vec<T>, more: usize) -> Result<(), Error> {
    list.try_reserve(more).map_err(|_| Error::NoMemory)
}

/// Adds an item.
#[inline]
pub(crate) fn push<T>(list: &mut Vec<T>, item: T) -> Result<(), Error> {
    reserve(list, 1)?;
    list.push(item);
    Ok(())
}

/// Makes a list so long, by zeros at its end.
pub(crate) fn lengthen<T: Copy + Default>(list: &mut Vec<T>, len: usize) -> Result<(), Error> {
    list.try_reserve_exact(len.saturating_sub(list.len()))
        .map_err(|_| Error::NoMemory)?;
    list.resize(len, T::default());
    Ok(())
}

/// So many zeros.
pub(crate) fn zeros<T: Copy + Default>(count: usize) -> Result<Vec<T>, Error> {
    let mut list = Vec::new();
    lengthen(&mut list, count)?;
    Ok(list)
}
