//! What the parts are made of: packets, images, events, damaged states, fields for the builder and harm to a saved form.

pub mod event;
pub mod fields;
pub mod form;
pub mod harm;
pub mod image;
pub mod packet;
pub mod state;
