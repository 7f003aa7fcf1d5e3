//! Stand-in for `jxl_oxide_common`: a bundle is a table of fields, each with a type, a condition under which it is there, and a default
//! where it isn't. A field with no stated default is 0, false or its type's own default. A field that is a bundle is handed the
//! context named at it, else the one of the bundle it stands in.

use jxl_bitstream::Bitstream;

#[doc(hidden)]
pub use jxl_bitstream as bits;

pub trait Bundle<Ctx = ()>: Sized {
    type Error;

    fn parse(bitstream: &mut Bitstream, ctx: Ctx) -> Result<Self, Self::Error>;
}

/// What a bundle is where it isn't read.
pub trait BundleDefault<Ctx = ()>: Sized {
    fn default_with_context(ctx: Ctx) -> Self;
}

impl<T: Default, Ctx> BundleDefault<Ctx> for T {
    fn default_with_context(_: Ctx) -> Self {
        T::default()
    }
}

/// A name's length is U32(0, u(4), 16 + u(5), 48 + u(10)), then bytes, each a field. They aren't asked to be UTF-8.
#[derive(Debug, Clone, Default, PartialEq, Eq)]
pub struct Name(pub Vec<u8>);

impl<Ctx> Bundle<Ctx> for Name {
    type Error = jxl_bitstream::Error;

    fn parse(bitstream: &mut Bitstream, _: Ctx) -> Result<Self, Self::Error> {
        use jxl_bitstream::U;
        let length = bitstream.read_u32(0, U(4), 16 + U(5), 48 + U(10))?;
        let mut bytes = vec![0; length as usize];
        for byte in &mut bytes {
            *byte = bitstream.read_bits(8)? as u8;
        }
        Ok(Name(bytes))
    }
}

/// The structs, and how each is read and made where it isn't: field by field, in the order of the table.
#[macro_export]
macro_rules! define_bundle {
    () => {};

    ($(#[$meta:meta])* $vis:vis struct $name:ident ctx($ctx:ident : $of:ty) error($error:ty) { $($fields:tt)* } $($rest:tt)*) => {
        $crate::bundle_struct! { $(#[$meta])* $vis $name { $($fields)* } }

        impl $crate::Bundle<$of> for $name {
            type Error = $error;

            #[allow(unused_variables)]
            fn parse(bitstream: &mut $crate::bits::Bitstream, $ctx: $of) -> ::std::result::Result<Self, $error> {
                Ok($crate::bundle_value! { bitstream $ctx { $($fields)* } })
            }
        }

        impl $crate::BundleDefault<$of> for $name {
            #[allow(unused_variables)]
            fn default_with_context($ctx: $of) -> Self {
                $crate::bundle_default! { $ctx { $($fields)* } }
            }
        }

        $crate::define_bundle! { $($rest)* }
    };

    ($(#[$meta:meta])* $vis:vis struct $name:ident error($error:ty) { $($fields:tt)* } $($rest:tt)*) => {
        $crate::bundle_struct! { $(#[$meta])* $vis $name { $($fields)* } }

        impl<Ctx> $crate::Bundle<Ctx> for $name {
            type Error = $error;

            fn parse(bitstream: &mut $crate::bits::Bitstream, _: Ctx) -> ::std::result::Result<Self, $error> {
                Ok($crate::bundle_value! { bitstream none { $($fields)* } })
            }
        }

        impl Default for $name {
            #[allow(unused_variables)]
            fn default() -> Self {
                let none = ();
                $crate::bundle_default! { none { $($fields)* } }
            }
        }

        $crate::define_bundle! { $($rest)* }
    };
}

#[doc(hidden)]
#[macro_export]
macro_rules! bundle_struct {
    ($(#[$meta:meta])* $vis:vis $name:ident { $($v:vis $field:ident: ty($($ty:tt)*) $(ctx($c:expr))? $(cond($on:expr))? $(default($d:expr))?,)* }) => {
        $(#[$meta])*
        $vis struct $name { $($v $field: $crate::bundle_type!($($ty)*),)* }
    };
}

#[doc(hidden)]
#[macro_export]
macro_rules! bundle_type {
    (Bool) => { bool };
    (Bundle($t:ty)) => { $t };
    ($(U32)? $(u)? ($($bits:tt)*)) => { u32 };
    ($base:literal + u($n:literal)) => { u32 };
    (U32($($choices:tt)*); UnpackSigned) => { i32 };
    (Array[$($ty:tt)*]; $n:expr) => { [$crate::bundle_type!($($ty)*); $n] };
    (Vec[$($ty:tt)*]; $n:expr) => { Vec<$crate::bundle_type!($($ty)*)> };
}

#[doc(hidden)]
#[macro_export]
macro_rules! bundle_value {
    ($bits:ident $ctx:ident { $($v:vis $field:ident: ty($($ty:tt)*) $(ctx($c:expr))? $(cond($on:expr))? $(default($d:expr))?,)* }) => {{
        $(let $field: $crate::bundle_type!($($ty)*) =
            $crate::bundle_field!($bits $ctx [$($ty)*] $(ctx($c))? $(cond($on))? $(default($d))?);)*
        Self { $($field,)* }
    }};
}

#[doc(hidden)]
#[macro_export]
macro_rules! bundle_default {
    ($ctx:ident { $($v:vis $field:ident: ty($($ty:tt)*) $(ctx($c:expr))? $(cond($on:expr))? $(default($d:expr))?,)* }) => {{
        $(let $field: $crate::bundle_type!($($ty)*) = $crate::bundle_unread!($ctx $(ctx($c))? $(default($d))?);)*
        Self { $($field,)* }
    }};
}

/// A field: read where it is there, else its default.
#[doc(hidden)]
#[macro_export]
macro_rules! bundle_field {
    ($bits:ident $ctx:ident [$($ty:tt)*] ctx($c:expr) $(cond($on:expr))? $(default($d:expr))?) => {
        $crate::bundle_field!(@ $bits ($c) [$($ty)*] ctx($c) $(cond($on))? $(default($d))?)
    };
    ($bits:ident $ctx:ident [$($ty:tt)*] $(cond($on:expr))? $(default($d:expr))?) => {
        $crate::bundle_field!(@ $bits ($ctx) [$($ty)*] ctx($ctx) $(cond($on))? $(default($d))?)
    };
    (@ $bits:ident ($c:expr) [$($ty:tt)*] ctx($unused:expr) cond($on:expr) $(default($d:expr))?) => {
        if $on { $crate::bundle_read!($bits ($c) $($ty)*) } else { $crate::bundle_unread!(none ctx($c) $(default($d))?) }
    };
    (@ $bits:ident ($c:expr) [$($ty:tt)*] ctx($unused:expr) $(default($d:expr))?) => {
        $crate::bundle_read!($bits ($c) $($ty)*)
    };
}

#[doc(hidden)]
#[macro_export]
macro_rules! bundle_unread {
    ($ctx:ident $(ctx($c:expr))? default($d:expr)) => { $d };
    ($ctx:ident ctx($c:expr)) => { $crate::BundleDefault::default_with_context($c) };
    ($ctx:ident) => { $crate::BundleDefault::default_with_context($ctx) };
}

/// Reads a field by its type.
#[doc(hidden)]
#[macro_export]
macro_rules! bundle_read {
    ($bits:ident ($c:expr) Bool) => { $bits.read_bool()? };
    ($bits:ident ($c:expr) Bundle($t:ty)) => { <$t as $crate::Bundle<_>>::parse($bits, $c)? };
    ($bits:ident ($c:expr) u($n:literal)) => { $bits.read_bits($n)? };
    ($bits:ident ($c:expr) $base:literal + u($n:literal)) => { $base + $bits.read_bits($n)? };
    ($bits:ident ($c:expr) U32($($choices:tt)*)) => {{
        #[allow(unused_imports)]
        use $crate::bits::U as u;
        $bits.read_u32($($choices)*)?
    }};
    ($bits:ident ($c:expr) U32($($choices:tt)*); UnpackSigned) => {
        $crate::bits::unpack_signed($crate::bundle_read!($bits ($c) U32($($choices)*)))
    };
    ($bits:ident ($c:expr) Array[$($ty:tt)*]; $n:expr) => {{
        let mut values: [$crate::bundle_type!($($ty)*); $n] = Default::default();
        for value in &mut values {
            *value = $crate::bundle_read!($bits ($c) $($ty)*);
        }
        values
    }};
    ($bits:ident ($c:expr) Vec[$($ty:tt)*]; $n:expr) => {{
        let n = ($n) as usize;
        let mut values = Vec::with_capacity(n);
        for _ in 0..n {
            values.push($crate::bundle_read!($bits ($c) $($ty)*));
        }
        values
    }};
}
