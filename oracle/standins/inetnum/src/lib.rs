//! Stand-in for the crate `inetnum`: only the AS number that the parser makes.

pub mod asn {
    #[derive(Clone, Copy, Debug, PartialEq, Eq)]
    pub struct Asn(u32);

    impl Asn {
        pub fn from_u32(value: u32) -> Self {
            Asn(value)
        }

        pub fn into_u32(self) -> u32 {
            self.0
        }
    }
}
