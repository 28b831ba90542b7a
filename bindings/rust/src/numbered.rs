//! Enums whose cases are numbers of document 01, each with a text.

macro_rules! numbered {
    ($(#[$about:meta])* $name:ident { $($(#[$case_about:meta])* $case:ident = $number:literal $text:literal,)* }) => {
        $(#[$about])*
        #[derive(Clone, Copy, Debug, PartialEq, Eq, PartialOrd, Ord, Hash)]
        #[non_exhaustive]
        #[repr(u8)]
        pub enum $name {
            $($(#[$case_about])* #[doc = concat!("Number ", $number, ": ", $text, ".")] $case = $number,)*
        }

        impl $name {
            /// All of them, by their numbers.
            pub const ALL: &[$name] = &[$($name::$case),*];

            /// The one with a number.
            #[inline]
            pub const fn of(number: u64) -> Option<Self> {
                match number {
                    $($number => Some($name::$case),)*
                    _ => None,
                }
            }

            /// Its number.
            #[inline]
            pub const fn number(self) -> u64 {
                self as u64
            }

            /// What it is, in words.
            pub const fn text(self) -> &'static str {
                match self {
                    $($name::$case => $text,)*
                }
            }
        }

        impl std::fmt::Display for $name {
            fn fmt(&self, f: &mut std::fmt::Formatter<'_>) -> std::fmt::Result {
                f.pad(self.text())
            }
        }
    };
}

pub(crate) use numbered;
