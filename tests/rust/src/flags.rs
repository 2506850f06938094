//! Stands in for the original's src/bitflags_ext.rs: its macro makes a set of flags and its error. Here it makes the type, the constants and the one
//! question that is asked of it; no answer of the program rests on it.

macro_rules! my_bitflags {
    (
        $name:ident, #[$message:meta] $error:ident, $bits:ty,
        $(#[$note:meta])* pub struct $same:ident: $also:ty { $($(#[$about:meta])* const $flag:ident = $value:expr;)* }
    ) => {
        $(#[$note])*
        pub struct $name(pub $bits);

        impl $name {
            $($(#[$about])* pub const $flag: Self = Self($value);)*

            pub fn contains(&self, other: Self) -> bool {
                self.0 & other.0 == other.0
            }
        }
    };
}
