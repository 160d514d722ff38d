//! Pictures of sessions, read back and compared with what they should show by the model of the rules: their structure, and not how they look.

mod check;
mod drawn;
mod expected;
mod picture;
mod said;
mod wrong;
mod xml;
