// Stands in for the missing node/hiding.rs: the name only.
pub struct Hiding(());
