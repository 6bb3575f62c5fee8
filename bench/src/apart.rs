/// What lies on cache lines of its own: processors load lines of 64 bytes in pairs.
#[derive(Default)]
#[repr(align(128))]
pub struct Apart<T>(pub T);
