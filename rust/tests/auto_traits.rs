//! Which types may go to another thread, which may be shared with one, and which may be cloned: a
//! table of all public types, which a test walks.
//!
//! Each type is looked at with four kinds of `T`. A column lists the kinds that give the type the
//! trait: `b` a `T` that is both `Send` and `Sync`, `y` one that is `Sync` alone, `s` one that is
//! `Send` alone, `n` one that is neither. The last column has `Unpin`, `UnwindSafe`,
//! `RefUnwindSafe` and `Clone` with a `T` that is a plain number: `p`, `u`, `r`, `c`.

use kupaldiz::*;
use std::collections::BTreeSet;
use std::marker::PhantomData;
use std::panic::{RefUnwindSafe, UnwindSafe};

/// Whether a type has a trait: an inherent constant is found before one of a trait, where its bound
/// holds.
macro_rules! has {
    ($type:ty, $trait:path) => {{
        struct Probe<P: ?Sized>(PhantomData<P>);
        #[allow(dead_code)]
        trait Otherwise {
            const HAS: bool = false;
        }
        impl<P: ?Sized> Otherwise for Probe<P> {}
        #[allow(dead_code)]
        impl<P: ?Sized + $trait> Probe<P> {
            const HAS: bool = true;
        }
        <Probe<$type>>::HAS
    }};
}

/// The letters of the kinds of `T` that give a type a trait.
macro_rules! kinds {
    ($type:ty, $trait:path) => {
        kinds!($type, $trait, b: u64, y: std::sync::MutexGuard<'static, u8>,
            s: std::cell::Cell<u8>, n: std::rc::Rc<u8>)
    };
    ($type:ty, $trait:path, $($letter:ident: $kind:ty),*) => {{
        let mut letters = String::new();
        $({
            #[allow(dead_code)]
            type T = $kind;
            if has!($type, $trait) {
                letters += stringify!($letter);
            }
        })*
        letters
    }};
}

/// The name of a type, what the compiler says of it, and what it should say.
type Row = (&'static str, [String; 3], [&'static str; 3]);

macro_rules! row {
    ($name:ident, $type:ty, $send:literal, $sync:literal, $others:literal) => {{
        let (send, sync) = (kinds!($type, Send), kinds!($type, Sync));
        #[allow(dead_code)]
        type T = u64;
        let others = [
            ("p", has!($type, Unpin)),
            ("u", has!($type, UnwindSafe)),
            ("r", has!($type, RefUnwindSafe)),
            ("c", has!($type, Clone)),
        ];
        let others = others.iter().filter(|one| one.1).map(|one| one.0).collect();
        (stringify!($name), [send, sync, others], [$send, $sync, $others])
    }};
}

/// All types, the plain values in brackets.
macro_rules! table {
    ($($name:ident: $type:ty, $send:literal, $sync:literal, $others:literal;)*
        [$($plain:ident)*]) => {
        fn table() -> Vec<Row> {
            vec![$(row!($name, $type, $send, $sync, $others),)*
                $(row!($plain, $plain, "bysn", "bysn", "purc"),)*]
        }
    };
}

table! {
    // type                                              Send    Sync    others
    Registry: Registry<T>,                               "b",    "b",    "purc";
    Cpu: Cpu<T>,                                         "b",    "",     "pu";
    CpuPool: CpuPool<T>,                                 "b",    "b",    "pur";
    Table: Table<T>,                                     "b",    "b",    "pur";
    TableThread: TableThread<T>,                         "b",    "",     "pu";
    LentCpu: LentCpu<'static, T>,                              "",     "",     "pu";
    Section: Section<'static, T>,                        "",     "",     "p";
    Found: Found<'static, 'static, T>,                   "",     "",     "pc";
    Entries: Entries<'static, 'static, T>,               "",     "",     "p";
    ReadGuard: ReadGuard<'static, T>,                    "",     "",     "p";
    PassiveRef: PassiveRef<'static, T>,                  "",     "",     "p";
    Passive: Passive<std::rc::Rc<Cpu<T>>, T>,            "",     "",     "p";
    PassiveRc: PassiveRc<T>,                             "",     "",     "p";
    LocalRef: LocalRef<T>,                               "b",    "b",    "purc";
    Retired: Retired<T>,                                 "b",    "b",    "pur";
    Mapped: Mapped<LocalRef<T>, u8>,                     "b",    "b",    "pur";
    Mapped: Mapped<LocalRef<u8>, T>,                     "by",   "by",   "pur";
    Mapped: Mapped<ReadGuard<'static, T>, u8>,           "",     "",     "p";
    Mapped: Mapped<PassiveRef<'static, T>, u8>,          "",     "",     "p";
    Mapped: Mapped<PassiveRc<T>, u8>,                    "",     "",     "p";
    Freed: Freed<T>,                                     "bs",   "by",   "purc";
    Refused: Refused<AttachError, T>,                    "bs",   "by",   "purc";
    Drained: Drained<T>,                                 "b",    "b",    "pur";
    Refused: Refused<CloseError, Registry<T>>,           "b",    "b",    "purc";
    Destroyed: Destroyed<T>,                             "b",    "b",    "pur";
    Refused: Refused<DestroyError, Retired<T>>,          "b",    "b",    "pur";
    [AttachError CloseError CpusError DestroyError DetachError LookUpError OpenError
    SynchronizeError RegistryError NameError Hold Holder Holders Place Balance Entry Key Kind
    Limits Name Patience Settings]
}

#[test]
fn each_type_has_the_auto_traits_that_the_table_says() {
    let wrong: Vec<_> = table().into_iter().filter(|(_, told, should)| told != should).collect();
    assert!(wrong.is_empty(), "{wrong:#?}");
}

/// `pub use` of the crate's root has no other types. Functions have no capitals, and constants
/// nothing else.
#[test]
fn each_public_type_is_in_the_table() {
    let root = include_str!("../src/lib.rs");
    let lines = root.lines().filter_map(|line| line.strip_prefix("pub use ")?.rsplit("::").next());
    let names = lines.flat_map(|line| line.split(|c: char| !c.is_alphanumeric()));
    let exported: BTreeSet<&str> = names
        .filter(|name| name.starts_with(char::is_uppercase) && name.contains(char::is_lowercase))
        .collect();
    assert_eq!(exported, table().iter().map(|row| row.0).collect());
    assert!(
        !root.contains("pub mod ") && !root.contains("pub struct ") && !root.contains("pub enum ")
    );
}
