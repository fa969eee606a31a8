//! A small tracer over the proved library: a drawing becomes a sheet, and the distances from the artist's mark become
//! a picture. Whatever cannot be taken is told in one sentence, the `Err` of every function here.

pub mod distances;
pub mod drawing;
pub mod picture;
pub mod png;
pub mod steps;
pub mod text;
pub mod traced;
