//! Three implementations of the updater behind one trait, inputs for them, and the comparison of what they answer. The calls are those of include/cfu.h.

pub mod bundles;
pub mod calls;
pub mod case;
pub mod demand;
pub mod devices;
pub mod floors;
pub mod header;
pub mod hosts;
pub mod layout;
pub mod lengths;
pub mod lent;
pub mod library;
pub mod made;
pub mod other;
pub mod packets;
pub mod parts;
pub mod random;
pub mod runs;
pub mod tally;
pub mod writers;

use calls::Calls;

/// The three, in the order in which a difference is printed.
pub const ALL: [&dyn Calls; 3] = [&library::Library, &made::Made, &other::Other];
