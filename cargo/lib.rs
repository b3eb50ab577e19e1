//! Reads printf formats of C, brings each to one canonical spelling, and decides whether two mean the same.
//!
//! A format is bytes without NUL. A [`Model`] says how many bits `long` and `size_t` have where the format is used. The
//! calls of this page accept the *profile*: the conversions `d i u o x X b c s` and `%%`, with the flags and length
//! modifiers that C defines for them, and widths and precisions up to 4,095. [`whole`] also accepts `%f`, `%p`, `%n`,
//! `*`, `%ls` and, for types, numbered arguments. [`literals`] reads string literals of C, as formats are written.
//!
//! What isn't accepted is rejected by a [`Refusal`]: a reason, and the offset of a byte. Calls that allocate also
//! return an error if memory is refused.
//!
//! ```
//! use fmtcanon::*;
//! // Of all formats with one meaning, one is canonical.
//! assert_eq!(canonical(Model::Lp64, b"Total: %i of %u%%").unwrap(), b"Total: %d of %u%%");
//! assert_eq!((is_canonical(Model::Lp64, b"%i"), canonical_len(Model::Lp64, b"%i")), (Ok(false), Ok(2)));
//! assert_eq!(same_text(Model::Lp64, b"%5c", b"    %c"), Ok(true));
//! // If two formats differ, arguments show it.
//! let Verdict::Args(shown) = compare(Model::Lp64, b"%05d", b"%.5d").unwrap().verdict else { panic!() };
//! assert!(matches!(shown[0].as_arg(), Arg::Int(-1)));
//! assert_eq!(confirms(Model::Lp64, b"%05d", b"%.5d", &[Arg::Int(-1)]), Ok(true));
//! // What a format takes, or why it is rejected.
//! assert_eq!(signature(Model::Llp64, b"%zu: %c").unwrap().as_slice(), [ArgType::ULongLong, ArgType::Int]);
//! let refusal = check(b"100%").unwrap_err();
//! assert_eq!((refusal.kind.name(), refusal.at), ("Truncated", 4));
//! // What a format prints, and how many bytes.
//! let name = CBytes::new(b"stdio").unwrap();
//! assert_eq!(render_vec(Model::Lp64, b"%.3s", &[Arg::Str(name)]).unwrap(), b"std");
//! assert_eq!(bounds(Model::Lp64, b"%d%%"), Ok(Bounds { least: 2, greatest: Some(12) }));
//! ```
//!
//! Streams are readers and writers that count their failures:
//!
//! ```
//! use fmtcanon::*;
//! let (mut reader, mut writer) = (Counted::new(&b"%i items"[..]), Counted::new(Vec::new()));
//! canonical_stream(Model::Lp64, &mut reader, &mut writer).unwrap();
//! render(Model::Lp64, b": %+05d", &[Arg::Int(42)], &mut writer).unwrap();
//! assert_eq!(writer.into_inner(), b"%d items: +0042");
//! ```
//!
//! These are the sources of the proved libraries of fmtcanon without their contracts. What rustc makes of them isn't
//! proved: the README says what else isn't, and what this package is tested for.

#![cfg_attr(not(feature = "c"), forbid(unsafe_code))]
#![deny(missing_docs)]
// Contracts, which are left out, use some of them.
#![allow(dead_code, unused_imports, unused_variables)]

#[cfg(feature = "c")]
#[allow(clippy::style, clippy::complexity)]
mod c;
// All that the libraries show one another, for the program. It has no promise. Bodies have the form that was proved.
#[doc(hidden)]
#[allow(missing_docs, clippy::style, clippy::complexity)]
pub mod proved;
#[doc(hidden)]
pub mod support;

pub use proved::bounds::{Bounds, bounds};
pub use proved::canon::{CanonBytes, CopyFault, StreamFault};
pub use proved::canon::{canonical, canonical_len, canonical_stream, is_canonical, same_text};
pub use proved::compare::{CompareFault, Comparison, OwnedArg, Verdict, compare, confirms};
pub use proved::render::{RenderFault, RenderVecFault, render, render_vec};
pub use proved::text::{Refusal, Side, Signature, TextFault, check, signature};
pub use proved::values::{Arg, ArgType, CBytes, Counted, Model, RefusalKind};
pub use support::AllocError;

/// All of the language of POSIX `fprintf`, and `%m`.
///
/// ```
/// use fmtcanon::whole::*;
/// use fmtcanon::{ArgType, Model};
/// assert_eq!(canonical(Model::Lp64, b"%*i: %-f").unwrap(), b"%*d: %f");
/// assert_eq!(same_text(Model::Lp64, b"%5c%f", b"    %c%f"), Ok(true));
/// assert!(matches!(compare(Model::Lp64, b"%e", b"%E").unwrap(), WholeVerdict::Directives(0)));
/// // Whether a translation takes the arguments of its message.
/// assert_eq!(fits(Model::Lp64, b"%s of %d", b"%2$d/%1$s"), Ok(None));
/// assert_eq!(fits(Model::Lp64, b"%s of %d", b"%d of %s"), Ok(Some(0)));
/// assert_eq!(fits_fewer(Model::Lp64, b"%s of %d", b"%s"), Ok(None));
/// let types = arguments_vec(Model::Lp64, b"%2$s %1$f").unwrap();
/// assert_eq!(types, [WholeArgType::Double, WholeArgType::Profile(ArgType::Str)]);
/// ```
pub mod whole {
    pub use crate::proved::posix::{WholeArgType, arguments, arguments_vec, fits, fits_fewer};
    pub use crate::proved::whole::{WholeVerdict, canonical, canonical_len, check, compare, is_canonical, same_text};
}

/// String literals of C (C11 6.4.5), as formats are written in source.
///
/// ```
/// use fmtcanon::literals::*;
/// assert_eq!(decode(br#""%d\t" "\x25s""#).unwrap(), b"%d\t%s");
/// assert_eq!(encode(b"%d\n").unwrap(), br#""%d\n""#);
/// assert_eq!(source_offset(br#""\t%y""#, 1), Some(3));
/// ```
pub mod literals {
    pub use crate::proved::literals::{LiteralFault, LiteralKind, LiteralRefusal};
    pub use crate::proved::literals::{decode, encode, source_offset};
}
