//! Stands for the original's `expand`, which is not ported: only the name is needed.

pub(crate) struct ExpandedPolygon;
