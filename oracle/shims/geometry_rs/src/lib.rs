//! The two point types that the original takes from the crate of this name.

#[derive(Debug, Clone, Copy)]
pub struct Point {
    pub x: f64,
    pub y: f64,
}

#[derive(Debug, Clone, Copy)]
pub struct I32Point {
    pub x: i32,
    pub y: i32,
}
