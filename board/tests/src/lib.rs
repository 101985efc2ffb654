//! The archive that a controller links (`.ci/archive`, `include/lawqendo.h`), compared with the second program.
//!
//! The dispatcher is proved, and the second program is written apart from it. What no proof covers is what lies between the
//! proved functions and a controller: the compiler's back end, the header, the way an image is laid out. So the
//! archive is called from here as a controller calls it, with runs from fresh starts and with states that nobody would make,
//! and each reply and each image is held to what the second program says.

pub mod archive;
pub mod compare;
pub mod found;
pub mod hammer;
