//! The cases of `vecbench` over the vector of allocator-api2 and over Rust's own: `bench/run` builds it by rustc and runs it.
//!
//! It reads the lines that `vecbench` reads, and prints in the same form. `CASE COUNT [REPEAT]` prints the nanoseconds for each element
//! over allocator-api2's vector, on an allocator that can't resize a block and on one that can, and over Rust's own. Each is the fastest of
//! REPEAT runs. Then come the checksums of what each left. `check CASE COUNT` prints the checksums alone. It prints a - if the vector has
//! no such case. Without the `original` configuration it is built over Rust's own vector alone.
use std::io::BufRead;
use std::time::{Duration, Instant};

/// An element. It is made from a number, and has a number that the checksum is made from.
trait Element: Clone {
    fn of(number: u32) -> Self;
    fn number(&self) -> u32;
}

impl Element for u32 {
    fn of(number: u32) -> Self {
        number
    }
    fn number(&self) -> u32 {
        *self
    }
}

impl Element for u64 {
    fn of(number: u32) -> Self {
        u64::from(number)
    }
    fn number(&self) -> u32 {
        *self as u32
    }
}

impl Element for usize {
    fn of(number: u32) -> Self {
        number as usize
    }
    fn number(&self) -> u32 {
        *self as u32
    }
}

impl Element for u8 {
    fn of(number: u32) -> Self {
        number as u8
    }
    fn number(&self) -> u32 {
        u32::from(*self)
    }
}

impl Element for u16 {
    fn of(number: u32) -> Self {
        number as u16
    }
    fn number(&self) -> u32 {
        u32::from(*self)
    }
}

/// An element of 24 bytes.
#[derive(Clone, Copy)]
struct Wide {
    first: u64,
    second: u64,
    third: u64,
}

impl Element for Wide {
    fn of(number: u32) -> Self {
        let part = u64::from(number);
        Wide { first: part, second: part, third: part }
    }
    fn number(&self) -> u32 {
        self.first.wrapping_add(self.second).wrapping_add(self.third) as u32
    }
}

impl Element for () {
    fn of(_number: u32) -> Self {}
    fn number(&self) -> u32 {
        0
    }
}

/// The checksum of the elements, from that of what came before them.
fn checksum_from<E: Element>(sum: u64, elements: &[E]) -> u64 {
    elements.iter().fold(sum, |sum, x| sum.wrapping_mul(31).wrapping_add(u64::from(x.number())))
}

// The call of a case's name, and the size of its elements.
fn sized(case: &str) -> (&str, usize) {
    let sizes = [("_u8", 1), ("_24", 24), ("_zst", 0)];
    sizes.into_iter().find_map(|(end, size)| Some((case.strip_suffix(end)?, size))).unwrap_or((case, 4))
}

/// Blocks of the C library, which are never resized. A growth allocates a new one, copies what is in the old one, and frees that.
#[cfg(original)]
mod blocks {
    use allocator_api2::alloc::{AllocError, Allocator, Layout};
    use std::ptr::{slice_from_raw_parts_mut, NonNull};

    #[derive(Clone, Copy)]
    pub struct Blocks;

    unsafe impl Allocator for Blocks {
        #[inline]
        fn allocate(&self, layout: Layout) -> Result<NonNull<[u8]>, AllocError> {
            let block = match layout.size() {
                0 => layout.align() as *mut u8,
                _ => unsafe { std::alloc::alloc(layout) },
            };
            NonNull::new(slice_from_raw_parts_mut(block, layout.size())).filter(|_| !block.is_null()).ok_or(AllocError)
        }

        #[inline]
        unsafe fn deallocate(&self, block: NonNull<u8>, layout: Layout) {
            if layout.size() != 0 {
                unsafe { std::alloc::dealloc(block.as_ptr(), layout) }
            }
        }
    }
}

/// The cases over the vector of allocator-api2, on an allocator of this type.
#[cfg(original)]
macro_rules! original_over {
    ($module:ident, $blocks:path) => {
        mod $module {
            use super::{checksum_from, sized, Element, Wide};
            use std::io::Write;
            use $blocks as Blocks;

            type Vec<E> = allocator_api2::vec::Vec<E, Blocks>;
            type Box<E> = allocator_api2::boxed::Box<E, Blocks>;

            const HAS_EXTRACT: bool = false;

            fn empty<E>() -> Vec<E> {
                Vec::new_in(Blocks)
            }

            fn boxed<E>(value: E) -> Box<E> {
                Box::new_in(value, Blocks)
            }

            fn extract_half(_list: &mut Vec<u32>) {}

            // It has no table and no queue. A gap buffer in plain Rust is built on its vector.
            #[derive(Default)]
            struct Held {
                text: GapBuffer,
            }

            impl Held {
                fn prepare(&mut self, case: &str, count: u32) -> bool {
                    let is_of_text = matches!(case, "gap_insert" | "gap_typing");
                    if is_of_text {
                        self.text.fill(count);
                    }
                    is_of_text
                }
                fn run(&mut self, case: &str, count: u32) {
                    match case {
                        "gap_insert" => gap_insert(&mut self.text),
                        _ => gap_typing(&mut self.text, count),
                    }
                }
                fn checksum(&self, sum: u64) -> u64 {
                    self.text.checksum(sum)
                }
            }

            include!("gap.rs");
            include!("cases.rs");
        }
    };
}

#[cfg(original)]
original_over!(original, crate::blocks::Blocks);
#[cfg(resizing)]
original_over!(resizing, allocator_api2::alloc::Global);

/// Over Rust's own vector, whose allocator resizes blocks.
mod standard {
    use super::{checksum_from, sized, Element, Wide};
    use crate::collections::Held;
    use std::io::Write;

    const HAS_EXTRACT: bool = true;

    fn empty<E>() -> Vec<E> {
        Vec::new()
    }

    fn boxed<E>(value: E) -> Box<E> {
        Box::new(value)
    }

    #[inline(never)]
    fn extract_half(list: &mut Vec<u32>) {
        let mut sum: u32 = 0;
        for x in list.extract_if(.., |x| *x % 2 == 0) {
            sum = sum.wrapping_add(x);
        }
        list.push(sum);
    }

    include!("cases.rs");
}

mod collections;

// The fastest run of a case over one kind of vector so far, and what it left.
#[derive(Default)]
struct Measure {
    time: Option<Duration>,
    checksum: Option<u64>,
}

// Runs the case so often, if the vectors have it. All runs over one kind of vector come before those over the other: each leaves the heap
// as its own next run finds it.
macro_rules! measured {
    ($vectors:ident, $case:expr, $count:expr, $repeat:expr) => {{
        let mut measure = Measure::default();
        for _ in 0..$repeat {
            let Some(mut lists) = $vectors::Lists::prepared($case, $count) else { break };
            let start = Instant::now();
            lists.run($case, $count);
            let time = start.elapsed();
            measure.time = Some(measure.time.map_or(time, |best: Duration| best.min(time)));
            measure.checksum = Some(lists.checksum());
        }
        measure
    }};
}

fn answer(line: &str) -> Option<String> {
    let words: Vec<&str> = line.split_ascii_whitespace().collect();
    let (checks, case, count, repeat) = match words[..] {
        ["check", case, count] => (true, case, count, "1"),
        [case, count] => (false, case, count, "1"),
        [case, count, repeat] => (false, case, count, repeat),
        _ => return None,
    };
    let (number, repeat): (u32, u32) = (count.parse().ok()?, repeat.parse().ok()?);
    let mut all = [Measure::default(), Measure::default(), Measure::default()];
    #[cfg(original)]
    {
        all[0] = measured!(original, case, number, repeat);
    }
    #[cfg(resizing)]
    {
        all[1] = measured!(resizing, case, number, repeat);
    }
    all[2] = measured!(standard, case, number, repeat);
    let time = |measure: &Measure| match measure.time {
        Some(time) => format!("{:.3}", time.as_nanos() as f64 / f64::from(number)),
        None => "-".to_string(),
    };
    let sum = |measure: &Measure| measure.checksum.map_or("-".to_string(), |sum| sum.to_string());
    let sums = all.iter().map(sum).collect::<Vec<_>>().join(" ");
    Some(match checks {
        true => format!("{case} {count} {sums}"),
        false => format!("{case} {count} {} {sums}", all.iter().map(time).collect::<Vec<_>>().join(" ")),
    })
}

fn main() {
    for line in std::io::stdin().lock().lines().map_while(Result::ok) {
        match answer(&line) {
            Some(answer) => println!("{answer}"),
            None => std::process::exit(1),
        }
    }
}
