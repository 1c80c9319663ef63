use crate::error::no_memory;
use crate::table::net;
use crate::{raw, Error, Piece, Route};

/// The items of a list, copied in parts.
fn items<T: Copy + Default, U: From<T>>(
    mut read: impl FnMut(usize, &mut [T]) -> usize,
) -> Result<Vec<U>, Error> {
    let mut items = Vec::new();
    let mut part = [T::default(); 256];
    loop {
        let count = read(items.len(), &mut part);
        if count == 0 {
            return Ok(items);
        }
        items.try_reserve(count).map_err(no_memory)?;
        items.extend(part[..count].iter().map(|&item| U::from(item)));
    }
}

/// The blocks of a flat list.
pub fn pieces(read: impl FnMut(usize, &mut [raw::Piece]) -> usize) -> Result<Vec<Piece>, Error> {
    items(read)
}

/// The routes of a list.
pub fn routes(read: impl FnMut(usize, &mut [raw::Route]) -> usize) -> Result<Vec<Route>, Error> {
    items(read)
}

impl From<raw::Piece> for Piece {
    fn from(piece: raw::Piece) -> Piece {
        Piece {
            net: net(piece.family, piece.high, piece.low, piece.len),
            hop: piece.hop,
        }
    }
}
