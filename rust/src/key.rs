//! Keys as bytes.

/// A key that is written as bytes in whose order the keys are.
///
/// The least key has the least bytes, in the order of `[u8]`, and keys that are equal have equal
/// bytes. A type and what it borrows as, such as `String` and `str`, have the same bytes. A map whose
/// keys break this rule may return wrong pairs, but causes no memory error.
///
/// A tuple is ordered by its parts, from the first one on:
///
/// ```
/// use sweep_bptree_proved::OrderedKey;
///
/// let bytes = |key: (i32, &str)| key.with_bytes(|bytes| bytes.to_vec());
/// assert!(bytes((-1, "b")) < bytes((1, "a")));
/// assert!(bytes((1, "a")) < bytes((1, "a\0")));
/// ```
pub trait OrderedKey {
    /// Calls `call` with the bytes of this key.
    ///
    /// It allocates nothing for numbers, texts and arrays of bytes, and for tuples only if their
    /// bytes are more than 64.
    fn with_bytes<R>(&self, call: impl FnOnce(&[u8]) -> R) -> R {
        let mut bytes = KeyBytes::new();
        self.write_part(&mut bytes);
        call(bytes.as_slice())
    }

    /// Appends the bytes of this key as a part of a tuple. No such bytes are the beginning of those
    /// of another key.
    fn write_part(&self, bytes: &mut KeyBytes);
}

const INLINE: usize = 64;

/// Bytes that are appended one after another.
pub struct KeyBytes {
    inline: [u8; INLINE],
    len: usize,
    // All bytes, if they are more than `INLINE`.
    spilled: Vec<u8>,
}

impl KeyBytes {
    fn new() -> KeyBytes {
        KeyBytes { inline: [0; INLINE], len: 0, spilled: Vec::new() }
    }

    /// Appends bytes.
    pub fn push(&mut self, bytes: &[u8]) {
        let end = self.len + bytes.len();
        if end <= INLINE {
            self.inline[self.len..end].copy_from_slice(bytes);
        } else {
            if self.len <= INLINE {
                self.spilled.extend_from_slice(&self.inline[..self.len]);
            }
            self.spilled.extend_from_slice(bytes);
        }
        self.len = end;
    }

    fn as_slice(&self) -> &[u8] {
        if self.len <= INLINE {
            &self.inline[..self.len]
        } else {
            &self.spilled
        }
    }
}

macro_rules! unsigned_keys {
    ($($number:ty)*) => {$(
        impl OrderedKey for $number {
            fn with_bytes<R>(&self, call: impl FnOnce(&[u8]) -> R) -> R {
                call(&self.to_be_bytes())
            }

            fn write_part(&self, bytes: &mut KeyBytes) {
                bytes.push(&self.to_be_bytes());
            }
        }
    )*};
}

// The sign is turned over, so that negative numbers come first.
macro_rules! signed_keys {
    ($($number:ty)*) => {$(
        impl OrderedKey for $number {
            fn with_bytes<R>(&self, call: impl FnOnce(&[u8]) -> R) -> R {
                call(&(self ^ <$number>::MIN).to_be_bytes())
            }

            fn write_part(&self, bytes: &mut KeyBytes) {
                bytes.push(&(self ^ <$number>::MIN).to_be_bytes());
            }
        }
    )*};
}

unsigned_keys! { u8 u16 u32 u64 u128 usize }
signed_keys! { i8 i16 i32 i64 i128 isize }

impl OrderedKey for bool {
    fn write_part(&self, bytes: &mut KeyBytes) {
        bytes.push(&[u8::from(*self)]);
    }
}

impl OrderedKey for char {
    fn write_part(&self, bytes: &mut KeyBytes) {
        u32::from(*self).write_part(bytes);
    }
}

impl OrderedKey for [u8] {
    fn with_bytes<R>(&self, call: impl FnOnce(&[u8]) -> R) -> R {
        call(self)
    }

    // A byte 0 is followed by 1, and two bytes 0 are the end.
    fn write_part(&self, bytes: &mut KeyBytes) {
        for (number, piece) in self.split(|byte| *byte == 0).enumerate() {
            if number > 0 {
                bytes.push(&[0, 1]);
            }
            bytes.push(piece);
        }
        bytes.push(&[0, 0]);
    }
}

// Keys whose bytes are those of what they borrow as.
macro_rules! borrowed_keys {
    ($($key:ty: $call:ident,)*) => {$(
        impl OrderedKey for $key {
            fn with_bytes<R>(&self, call: impl FnOnce(&[u8]) -> R) -> R {
                self.$call().with_bytes(call)
            }

            fn write_part(&self, bytes: &mut KeyBytes) {
                self.$call().write_part(bytes);
            }
        }
    )*};
}

borrowed_keys! { str: as_bytes, String: as_str, Vec<u8>: as_slice, }

impl<K: OrderedKey + ?Sized> OrderedKey for &K {
    fn with_bytes<R>(&self, call: impl FnOnce(&[u8]) -> R) -> R {
        (**self).with_bytes(call)
    }

    fn write_part(&self, bytes: &mut KeyBytes) {
        (**self).write_part(bytes);
    }
}

macro_rules! tuple_keys {
    ($($part:ident: $at:tt,)*) => {
        impl<$($part: OrderedKey),*> OrderedKey for ($($part,)*) {
            fn write_part(&self, bytes: &mut KeyBytes) {
                $(self.$at.write_part(bytes);)*
            }
        }
    };
}

tuple_keys! { A: 0, }
tuple_keys! { A: 0, B: 1, }
tuple_keys! { A: 0, B: 1, C: 2, }
tuple_keys! { A: 0, B: 1, C: 2, D: 3, }
