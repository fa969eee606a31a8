//! Shows an image of the queue level by level. What is shown is read from the words by the page's
//! definitions; every call is made by the proved library. So the two can be held against each
//! other: what is shown as the next Delete-Min must be what the library then answers.
//!
//! | module | what it is |
//! |---|---|
//! | `pair` | the page's numbers: pairs, bounds, update words |
//! | `image` | where things lie in an image, and its levels |
//! | `faults` | what is wrong with an image that is refused, word by word |
//! | `reading` | oldest to newest: the live map, dead pairs, where a Delete-Min would stop |
//! | `input` | words, sheets and lines of `queue` from bytes of any kind and length |
//! | `session` | the calls, by the proved library |
//! | `text`, `svg` | an image as text, as a picture |
//! | `layout` | an image word by word |
//! | `sheet` | a sheet given by its numbers, and the run over it |
//! | `manual` | the drawings and pictures of the manual |

pub mod faults;
pub mod image;
pub mod input;
pub mod layout;
pub mod manual;
pub mod pair;
pub mod reading;
pub mod session;
pub mod sheet;
pub mod svg;
pub mod text;
