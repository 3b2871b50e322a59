//! Calls that make a vector, while Rust's own allocator has no memory: they return the error.
use std::alloc::{GlobalAlloc, Layout, System};
use std::cell::Cell;
use sweep_bptree_proved::{InsertError, Map, NumberMap, OutOfMemory};

thread_local! {
    // How many more allocations of this thread succeed; `None`: all.
    static LEFT: Cell<Option<usize>> = const { Cell::new(None) };
}

struct Failing;

// SAFETY: each call is that of `System`, or fails.
unsafe impl GlobalAlloc for Failing {
    unsafe fn alloc(&self, layout: Layout) -> *mut u8 {
        match LEFT.get() {
            Some(0) => return std::ptr::null_mut(),
            left => LEFT.set(left.map(|left| left - 1)),
        }
        // SAFETY: the caller keeps what `System` asks for.
        unsafe { System.alloc(layout) }
    }

    unsafe fn dealloc(&self, at: *mut u8, layout: Layout) {
        // SAFETY: the caller keeps what `System` asks for.
        unsafe { System.dealloc(at, layout) }
    }
}

#[global_allocator]
static HEAP: Failing = Failing;

fn with_left<T>(left: usize, call: impl FnOnce() -> T) -> T {
    LEFT.set(Some(left));
    let result = call();
    LEFT.set(None);
    result
}

#[test]
fn load_and_page_return_the_error() -> Result<(), OutOfMemory> {
    let pairs: Vec<_> = (0..100).map(|key| (key, key * 10)).collect();
    let mut map = NumberMap::from_pairs(&pairs)?;
    let other = [(1, 1), (2, 2)];
    assert_eq!(with_left(0, || map.load(&other)), Err(OutOfMemory));
    for left in [0, 1] {
        assert_eq!(with_left(left, || map.page(1, 30)), Err(OutOfMemory));
    }
    assert!(map.iter().eq(pairs.iter().copied()));
    assert_eq!(with_left(2, || map.page(1, 30))?, pairs[30..60]);
    assert_eq!(with_left(1, || map.load(&other)), Ok(()));
    assert!(map.iter().eq(other));
    Ok(())
}

#[test]
fn insert_returns_key_and_value() -> Result<(), OutOfMemory> {
    let mut map: Map<u32, String> = (0..100).map(|key| (key, key.to_string())).collect();
    let before = map.clone();
    for key in [50, 200] {
        let value = "new".to_string();
        let error = with_left(0, || map.insert(key, value));
        assert_eq!(error, Err(InsertError { key, value: "new".to_string() }));
        assert_eq!(map, before);
    }
    assert_eq!(with_left(0, || map.get(&50).map(String::len)), Some(2));
    assert_eq!(with_left(0, || map.rank(&50)), Ok(50));
    assert_eq!(map.insert(50, "new".to_string()), Ok(Some("50".to_string())));
    Ok(())
}
