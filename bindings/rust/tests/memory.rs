//! Memory refused to this crate after each number of allocations: the process goes on, and the call says so. The
//! archive's own memory is C's, which isn't refused here.
use mysql_params::{Error, Params, Template, Texts, Value, bind, bind_rows, names};
use std::alloc::{GlobalAlloc, Layout, System};
use std::cell::Cell;
use std::fmt::Debug;

thread_local! {
    /// How many more allocations of this thread succeed; none if all do.
    static LEFT: Cell<Option<usize>> = const { Cell::new(None) };
    /// Whether one was refused.
    static REFUSED: Cell<bool> = const { Cell::new(false) };
}

/// The system's memory, of which a thread can refuse itself some.
struct Refusing;

/// Whether this allocation is to be refused.
fn is_refused() -> bool {
    match LEFT.get() {
        None => false,
        Some(0) => {
            REFUSED.set(true);
            true
        }
        Some(left) => {
            LEFT.set(Some(left - 1));
            false
        }
    }
}

// SAFETY: each call is the system's as it is, but that some allocations fail, as any may.
unsafe impl GlobalAlloc for Refusing {
    unsafe fn alloc(&self, layout: Layout) -> *mut u8 {
        if is_refused() {
            return std::ptr::null_mut();
        }
        // SAFETY: the layout is that of the caller.
        unsafe { System.alloc(layout) }
    }

    unsafe fn dealloc(&self, block: *mut u8, layout: Layout) {
        // SAFETY: the block is of `alloc`, and so of the system, with this layout.
        unsafe { System.dealloc(block, layout) }
    }
}

#[global_allocator]
static MEMORY: Refusing = Refusing;

/// The call answers the same, or that it is out of memory, whatever number of its allocations succeeds.
fn survives<T: Debug + PartialEq>(call: impl Fn() -> Result<T, Error>) {
    let wanted = call();
    for allocations in 0.. {
        REFUSED.set(false);
        LEFT.set(Some(allocations));
        let answer = call();
        LEFT.set(None);
        if !REFUSED.get() {
            assert!(allocations > 0, "it allocates nothing");
            assert_eq!(answer, wanted);
            return;
        }
        let told = answer == Err(Error::OutOfMemory) || answer == wanted;
        assert!(told, "{answer:?} after {allocations} allocations");
    }
}

#[test]
fn names_without_memory() {
    survives(|| names(b"SELECT 1"));
    survives(|| names(b":a, :b, :a"));
    survives(|| names(b":a, ?"));
    let query = vec![":a"; 100].join(",");
    survives(|| names(query.as_bytes()));
}

#[test]
fn texts_without_memory() {
    let values = [Value::Null, "x' OR '1'='1".into()];
    let pairs = [("a", Value::Int(1)), ("b", "b".into())];
    let repeated = [("a", Value::Null), ("a", Value::Null)];
    survives(|| bind(b"?, ?", &Params::Positional(&values)));
    survives(|| bind(b":a, :b", &Params::Named(&pairs)));
    survives(|| bind(b":a, :missing", &Params::Named(&pairs)));
    survives(|| bind(b":a, :missing\xC3\xA9", &Params::Named(&pairs)));
    survives(|| bind(b":a, :b\xC3\xA9", &Params::Named(&pairs)));
    survives(|| bind(b":\xC3\xA9", &Params::Named(&pairs)));
    survives(|| {
        bind(
            b":b, :a",
            &Params::Named(&[("a", 1.5.into()), ("b", 1.into())]),
        )
    });
    survives(|| bind(b":a", &Params::Named(&repeated)));
    let long = [("a", Value::Bytes(&[b'\''; 300]))];
    let query = vec![":a"; 100].join(",");
    survives(|| bind(query.as_bytes(), &Params::Named(&long)));
}

#[test]
fn templates_without_memory() {
    let query = vec![":a"; 100].join(",");
    survives(|| Template::new(query.as_bytes()));
    let template = Template::new(query.as_bytes()).expect("a template");
    let pairs = [("a", "x' OR '1'='1".into())];
    survives(|| template.bind(&Params::Named(&pairs)));
    survives(|| template.bind(&Params::Named(&[("b", Value::Null)])));
}

/// The texts of rows; or the error of the one that is refused, before which each row has its text.
fn texts_of(query: &[u8], rows: &[Params<'_>]) -> Result<Texts, Error> {
    bind_rows(query, rows.iter().copied()).map_err(|refused| {
        assert_eq!(refused.texts.len(), refused.row);
        for (text, row) in refused.texts.iter().zip(rows) {
            let left = LEFT.replace(None);
            assert_eq!(bind(query, row).as_deref(), Ok(text));
            LEFT.set(left);
        }
        refused.error
    })
}

#[test]
fn rows_without_memory() {
    let values = [Value::Int(1), "x' OR '1'='1".into()];
    let long = [Value::Null, Value::Bytes(&[b'\''; 300])];
    let rows = [&values, &long, &values].map(|row| Params::Positional(row));
    survives(|| texts_of(b"?, ?", &rows));
    let pairs = [("a", Value::Int(1)), ("b", 1.into())];
    let floats = [("a", 1.5.into()), ("b", 1.into())];
    let rows = [&pairs, &floats].map(|row| Params::Named(row));
    survives(|| texts_of(b":b, :a", &rows));
}
