// Stand-in for src/macros.rs: the macro uint_enum! only.
// It is the one stand-in that the shared domain runs through. What it must do
// is fixed by its uses in tiberius/src: `X as u8` (header.rs, type_info.rs,
// pre_login.rs), `X::try_from(u8)` with `Err(())` for what isn't listed
// (type_info.rs matches on `Err(())`), Debug, Copy, ==.
macro_rules! uint_enum {
    ($(#[$g:meta])* pub enum $ty:ident { $($(#[$a:meta])* $variant:ident = $val:expr,)* }) => {
        $(#[$g])*
        #[derive(Debug, Copy, Clone, PartialEq, Eq)]
        pub enum $ty { $($(#[$a])* $variant = $val,)* }

        impl ::std::convert::TryFrom<u8> for $ty {
            type Error = ();
            fn try_from(n: u8) -> ::std::result::Result<$ty, ()> {
                match n {
                    $(x if x == $ty::$variant as u8 => Ok($ty::$variant),)*
                    _ => Err(()),
                }
            }
        }
    };
}
