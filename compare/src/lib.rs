//! A second card, written from the card's rules and the decisions on their corners, and what compares it with the
//! proved one.
pub mod calls;
pub mod card;
pub mod flow;
pub mod host;
pub mod lists;
pub mod message;
pub mod messages;
pub mod pair;
pub mod proved;
pub mod replication;
pub mod reply;
pub mod rng;
pub mod sources;
pub mod starts;
pub mod tlv;
pub mod zeros;
