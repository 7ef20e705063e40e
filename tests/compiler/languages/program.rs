//! What a compiler for the sandbox can spoil: results of three words, numbers of 64 and 128 bits, floating point, tables of jumps, calls by
//! tables, memory, formats, and a panic, if there is a word.
#![no_std]
#![no_main]
use core::cell::RefCell;
use core::sync::atomic::{AtomicU64, AtomicUsize, Ordering};
use nc::alloc::{boxed::Box, collections::BTreeMap, format, rc::Rc, string::String, vec, vec::Vec};
use nc::println;

nc::entry!(main);

#[inline(never)]
fn sum(a: u64, b: u64) -> Option<u64> {
    a.checked_add(b)
}

#[inline(never)]
fn three(a: u64, b: u32) -> (u64, u32) {
    (a.wrapping_mul(3), b ^ 5)
}

#[inline(never)]
fn parsed(text: &str) -> Result<u64, core::num::ParseIntError> {
    text.parse()
}

#[inline(never)]
fn by_pointer(function: fn(u64, u32) -> (u64, u32), a: u64, b: u32) -> u64 {
    let (c, d) = function(a, b);
    let (e, f) = function(c, d);
    c ^ e << 7 ^ u64::from(d + 3 * f)
}

fn results() {
    let mut made = 0u64;
    for k in 0..40u32 {
        let a = 0x9E37_79B9_7F4A_7C15u64.wrapping_mul(u64::from(k) + 1);
        made = made.rotate_left(5) ^ by_pointer(three, a, k) ^ sum(a, made).unwrap_or(made / 3) ^ three(made, k).0;
    }
    println!("results {made:016x} {:?} {:?}", sum(u64::MAX, 1), sum(1 << 40, 2));
    println!("{:?} {:?} {:?}", parsed("18446744073709551615"), parsed("18446744073709551616"), parsed("x").is_err());
}

fn numbers() {
    let (a, b) = (0xFEDC_BA98_7654_3210_0123_4567_89AB_CDEFu128, 0x1_0000_0000_0000_0007u128);
    println!("{} {} {:x} {}", a / b, a % b, a.wrapping_mul(b), (a as i128 >> 70) * -3);
    println!("{:?} {:?} {}", 7i64.checked_div(0), i64::MIN.overflowing_neg(), (-7i64).rem_euclid(4));
    let x = 2.5f64;
    println!("{:.6} {:e} {:?} {} {}", x / 7.0, x * 1e300, f64::NAN.max(1.5), (x * 1e10) as u64, (-x) as i8);
    println!("{:?} {:?} {:?}", "3.14159e-5".parse::<f64>(), "1e400".parse::<f64>(), "0.1".parse::<f32>());
    println!("{:?}", [0.1 + 0.2, 1.0 / 3.0, 1e21, 5e-324, f64::MAX]);
}

trait Shape {
    fn area(&self) -> f64;
    fn name(&self) -> String {
        String::from("shape")
    }
}
struct Square(f64);
struct Rectangle {
    width: f64,
    height: f64,
}
impl Shape for Square {
    fn area(&self) -> f64 {
        self.0 * self.0
    }
}
impl Shape for Rectangle {
    fn area(&self) -> f64 {
        self.width * self.height
    }
    fn name(&self) -> String {
        format!("{}x{}", self.width, self.height)
    }
}

#[inline(never)]
fn kind(letter: char) -> &'static str {
    match letter {
        'a' => "first",
        'b' => "second",
        'c' => "third",
        'd' => "fourth",
        'e' => "fifth",
        'f' => "sixth",
        '0'..='9' => "digit",
        ' ' => "space",
        _ => "other",
    }
}

fn memory() {
    let shapes: Vec<Box<dyn Shape>> = vec![Box::new(Square(1.5)), Box::new(Rectangle { width: 2.0, height: 3.25 })];
    for shape in &shapes {
        println!("{} {:.3}", shape.name(), shape.area());
    }
    let mut counts = BTreeMap::new();
    for letter in "a fine 90 bcd".chars() {
        *counts.entry(kind(letter)).or_insert(0) += 1;
    }
    println!("{counts:?}");
    let mut many: Vec<u64> = (0..2000).map(|k: u64| k.wrapping_mul(0x5851_F42D_4C95_7F2D).rotate_left(17)).collect();
    many.sort_unstable();
    let text: String = many.iter().step_by(500).map(|n| format!("{n:x},")).collect();
    println!("{text} {:?}", many.binary_search(&many[77]));
    let shared = Rc::new(RefCell::new(Vec::with_capacity(1)));
    let other = Rc::clone(&shared);
    (0..100).for_each(|k| other.borrow_mut().push(k));
    println!("{} {}", shared.borrow().iter().sum::<i32>(), Rc::strong_count(&shared));
    #[repr(align(64))]
    struct Wide([u8; 100]);
    let wide = Box::new(Wide([3; 100]));
    println!("{} {}", wide.0.as_ptr() as usize % 64, wide.0.len());
}

fn atomics() {
    static COUNT: AtomicU64 = AtomicU64::new(0xFFFF_FFFF);
    static PLACE: AtomicUsize = AtomicUsize::new(7);
    COUNT.fetch_add(3, Ordering::SeqCst);
    let swapped = COUNT.compare_exchange(0x1_0000_0002, 5, Ordering::SeqCst, Ordering::Relaxed);
    println!("{swapped:?} {} {}", COUNT.load(Ordering::Acquire), PLACE.swap(8, Ordering::AcqRel));
}

fn main() -> i32 {
    results();
    numbers();
    memory();
    atomics();
    let words: Vec<&str> = nc::args().skip(1).collect();
    if let Some(word) = words.first() {
        let places = [1, 2, 3];
        println!("{}", places[word.len() + 2]);
    }
    3
}
