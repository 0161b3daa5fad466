//! Stands for the original's `tile`, which is not ported: only the name is needed.

pub(crate) struct TileId;
