//! The cases over Rust's own maps, heap and queue, and over a gap buffer in plain Rust on its own vector.
use super::checksum_from;
use std::collections::{BTreeMap, BinaryHeap, HashMap, VecDeque};
use std::hash::{BuildHasherDefault, Hasher};

/// The hasher that the toolchain's map has, for keys of 8 bytes: the product with a fixed number in 128 bits, its halves joined.
pub struct Folded(u64);

impl Default for Folded {
    fn default() -> Self {
        Folded(0x243f_6a88_85a3_08d3)
    }
}

impl Hasher for Folded {
    fn finish(&self) -> u64 {
        self.0
    }
    fn write(&mut self, bytes: &[u8]) {
        for byte in bytes {
            self.write_u64(u64::from(*byte));
        }
    }
    #[inline]
    fn write_u64(&mut self, number: u64) {
        let product = u128::from(self.0 ^ number) * u128::from(0x9e37_79b9_7f4a_7c15_u64 ^ 16);
        self.0 = product as u64 ^ (product >> 64) as u64;
    }
}

type Numbers = HashMap<u64, u64, BuildHasherDefault<Folded>>;

fn empty<E>() -> Vec<E> {
    Vec::new()
}

include!("gap.rs");

/// What a case of a collection finds and leaves.
#[derive(Default)]
pub struct Held {
    keys: Vec<u64>,
    table: Numbers,
    map: BTreeMap<u64, u64>,
    tree: Option<Box<Node>>,
    heap: BinaryHeap<u64>,
    queue: VecDeque<u32>,
    text: GapBuffer,
    rows: Vec<Vec<u32>>,
    slots: Slots,
    issued: Vec<Key>,
    sum: u64,
}

impl Held {
    /// Fills the collection as the case finds it, and returns whether there is such a case.
    pub fn prepare(&mut self, case: &str, count: u32) -> bool {
        match case {
            "table_insert" | "table_reserved" | "box_tree" | "slots_insert" | "slots_in_place" | "heap_push" | "map_insert" => fill_keys(&mut self.keys, count, 0),
            "table_hit" | "table_remove" | "table_iter" => self.fill_table(count),
            "table_iter_sparse" => self.fill_sparse(count),
            "table_miss" => {
                self.fill_table(count);
                self.keys.clear();
                fill_keys(&mut self.keys, count, 1 << 32);
            }
            "box_tree_find" => {
                fill_keys(&mut self.keys, count, 0);
                box_tree(&mut self.tree, &self.keys);
            }
            "map_get" | "map_remove" | "map_scan" => {
                fill_keys(&mut self.keys, count, 0);
                map_insert(&mut self.map, &self.keys);
            }
            "heap_pop" => {
                fill_keys(&mut self.keys, count, 0);
                heap_push(&mut self.heap, &self.keys);
            }
            "ring_queue" => ring_push(&mut self.queue, 100),
            "slots_get" | "slots_churn" => {
                fill_keys(&mut self.keys, count, 0);
                self.issued.reserve_exact(self.keys.len());
                for value in &self.keys {
                    self.issued.push(self.slots.insert(*value));
                }
            }
            "ring_push" | "ring_in_place" | "inline_few" | "inline_rows" => (),
            "gap_insert" | "gap_typing" => self.text.fill(count),
            _ => return false,
        }
        true
    }

    fn fill_table(&mut self, count: u32) {
        fill_keys(&mut self.keys, count, 0);
        table_insert(&mut self.table, &self.keys);
    }

    // Fills the table, and removes nine of each ten keys in a row.
    fn fill_sparse(&mut self, count: u32) {
        self.fill_table(count);
        for ten in self.keys.chunks(10) {
            table_remove(&mut self.table, &ten[1..]);
        }
    }

    /// Runs the case.
    pub fn run(&mut self, case: &str, count: u32) {
        match case {
            "table_insert" => table_insert(&mut self.table, &self.keys),
            "table_hit" => self.sum = table_hit(&self.table, &self.keys),
            "table_miss" => self.sum = table_miss(&self.table, &self.keys),
            "table_remove" => self.sum = table_remove(&mut self.table, &self.keys),
            "table_reserved" => table_reserved(&mut self.table, &self.keys),
            "table_iter" => self.sum = table_iter(&self.table),
            "table_iter_sparse" => self.sum = table_iter_sparse(&self.table),
            "box_tree" => box_tree(&mut self.tree, &self.keys),
            "box_tree_find" => self.sum = box_tree_find(&self.tree, &self.keys),
            "map_insert" => map_insert(&mut self.map, &self.keys),
            "map_get" => self.sum = map_get(&self.map, &self.keys),
            "map_remove" => self.sum = map_remove(&mut self.map, &self.keys),
            "map_scan" => self.sum = map_scan(&self.map),
            "heap_push" => heap_push(&mut self.heap, &self.keys),
            "heap_pop" => self.sum = heap_pop(&mut self.heap),
            "ring_queue" => ring_queue(&mut self.queue, count),
            "ring_push" => ring_push(&mut self.queue, count),
            "ring_in_place" => ring_in_place(&mut self.queue, count),
            "gap_insert" => gap_insert(&mut self.text),
            "gap_typing" => gap_typing(&mut self.text, count),
            "inline_rows" => inline_rows(&mut self.rows, count),
            "slots_insert" => slots_insert(&mut self.slots, &self.keys),
            "slots_in_place" => slots_in_place(&mut self.slots, &self.keys),
            "slots_get" => self.sum = slots_get(&self.slots, &self.issued),
            "slots_churn" => slots_churn(&mut self.slots, &self.issued),
            _ => self.sum = u64::from(inline_few(count)),
        }
    }

    /// The checksum of what the collections hold and returned. Keys are looked up in their order here.
    pub fn checksum(&self, sum: u64) -> u64 {
        let text = self.text.checksum(sum);
        let (first, others) = self.queue.as_slices();
        let items = checksum_from(checksum_from(text, first), others);
        let values = self.keys.iter().fold(self.sum.wrapping_add(self.table.len() as u64), |values, key| {
            values.wrapping_mul(31).wrapping_add(self.table.get(key).copied().unwrap_or(0))
        });
        let values = self.map.iter().fold(values, |values, (key, value)| values.wrapping_mul(31).wrapping_add(key ^ value));
        let values = self.heap.iter().fold(values, |values, key| values.wrapping_add(*key));
        let tree = tree_checksum(&self.tree, items.wrapping_add(values));
        let rows = self.rows.iter().fold(tree, |sum, row| checksum_from(sum, row));
        rows.wrapping_add(self.slots.sum())
    }
}

// First reserves capacity for exactly these keys, so that no block is freed before the case runs.
fn fill_keys(keys: &mut Vec<u64>, count: u32, least: u64) {
    keys.reserve_exact(count as usize);
    let mut state: u32 = 1;
    for _ in 0..count {
        state = state.wrapping_mul(1_664_525).wrapping_add(1_013_904_223);
        keys.push(least + u64::from(state));
    }
}

#[inline(never)]
fn table_insert(table: &mut Numbers, keys: &[u64]) {
    for key in keys {
        table.insert(*key, *key >> 1);
    }
}

#[inline(never)]
fn table_hit(table: &Numbers, keys: &[u64]) -> u64 {
    let mut sum: u64 = 0;
    for key in keys {
        if let Some(value) = table.get(key) {
            sum = sum.wrapping_add(*value);
        }
    }
    sum
}

#[inline(never)]
fn table_miss(table: &Numbers, keys: &[u64]) -> u64 {
    let mut misses: u64 = 0;
    for key in keys {
        if !table.contains_key(key) {
            misses = misses.wrapping_add(1);
        }
    }
    misses
}

#[inline(never)]
fn table_remove(table: &mut Numbers, keys: &[u64]) -> u64 {
    let mut sum: u64 = 0;
    for key in keys {
        if let Some(value) = table.remove(key) {
            sum = sum.wrapping_add(value);
        }
    }
    sum
}

#[inline(never)]
fn table_reserved(table: &mut Numbers, keys: &[u64]) {
    table.reserve(keys.len());
    table_insert(table, keys);
}

#[inline(never)]
fn table_iter(table: &Numbers) -> u64 {
    let mut sum: u64 = 0;
    for (_, value) in table.iter() {
        sum = sum.wrapping_add(*value);
    }
    sum
}

// Adds up the keys, and not the values, so that the compiler does not join it with `table_iter`.
#[inline(never)]
fn table_iter_sparse(table: &Numbers) -> u64 {
    let mut sum: u64 = 0;
    for (key, _) in table.iter() {
        sum = sum.wrapping_add(*key);
    }
    sum
}

/// A node of a tree that is not balanced: a key between the lesser keys and the others.
struct Node {
    key: u64,
    lesser: Option<Box<Node>>,
    others: Option<Box<Node>>,
}

#[inline(never)]
fn box_tree(tree: &mut Option<Box<Node>>, keys: &[u64]) {
    for key in keys {
        let mut place = &mut *tree;
        while let Some(node) = place {
            place = if *key < node.key { &mut node.lesser } else { &mut node.others };
        }
        *place = Some(Box::new(Node { key: *key, lesser: None, others: None }));
    }
}

#[inline(never)]
fn box_tree_find(tree: &Option<Box<Node>>, keys: &[u64]) -> u64 {
    let mut found: u64 = 0;
    for key in keys {
        let mut rest = tree;
        while let Some(node) = rest {
            if *key == node.key {
                found += 1;
                break;
            }
            rest = if *key < node.key { &node.lesser } else { &node.others };
        }
    }
    found
}

fn tree_checksum(tree: &Option<Box<Node>>, sum: u64) -> u64 {
    match tree {
        Some(node) => tree_checksum(&node.others, tree_checksum(&node.lesser, sum).wrapping_mul(31).wrapping_add(node.key)),
        None => sum,
    }
}

#[inline(never)]
fn map_insert(map: &mut BTreeMap<u64, u64>, keys: &[u64]) {
    for key in keys {
        map.insert(*key, *key >> 1);
    }
}

#[inline(never)]
fn map_get(map: &BTreeMap<u64, u64>, keys: &[u64]) -> u64 {
    let mut sum: u64 = 0;
    for key in keys {
        if let Some(value) = map.get(key) {
            sum = sum.wrapping_add(*value);
        }
    }
    sum
}

#[inline(never)]
fn map_remove(map: &mut BTreeMap<u64, u64>, keys: &[u64]) -> u64 {
    let mut sum: u64 = 0;
    for key in keys {
        if let Some(value) = map.remove(key) {
            sum = sum.wrapping_add(value);
        }
    }
    sum
}

#[inline(never)]
fn map_scan(map: &BTreeMap<u64, u64>) -> u64 {
    let mut sum: u64 = 0;
    for (key, value) in map {
        sum = sum.wrapping_mul(31).wrapping_add(key ^ value);
    }
    sum
}

#[inline(never)]
fn heap_push(heap: &mut BinaryHeap<u64>, keys: &[u64]) {
    for key in keys {
        heap.push(*key);
    }
}

#[inline(never)]
fn heap_pop(heap: &mut BinaryHeap<u64>) -> u64 {
    let mut sum: u64 = 0;
    for _ in 0..heap.len() {
        if let Some(key) = heap.pop() {
            sum = sum.wrapping_mul(31).wrapping_add(key);
        }
    }
    sum
}

#[inline(never)]
fn ring_queue(queue: &mut VecDeque<u32>, count: u32) {
    let mut sum: u32 = 0;
    for i in 0..count {
        queue.push_back(i);
        if let Some(x) = queue.pop_front() {
            sum = sum.wrapping_add(x);
        }
    }
    queue.push_back(sum);
}

#[inline(never)]
fn ring_push(queue: &mut VecDeque<u32>, count: u32) {
    for i in 0..count {
        queue.push_back(i);
    }
}

#[inline(never)]
fn ring_in_place(queue: &mut VecDeque<u32>, count: u32) {
    for i in 0..count {
        queue.push_back(i);
    }
}

// Rust has no vector with places in itself.
#[inline(never)]
fn inline_few(count: u32) -> u32 {
    let mut sum: u32 = 0;
    for i in 0..count / 8 {
        let mut few: Vec<u32> = Vec::new();
        for k in 0..8 {
            few.push(i ^ k);
        }
        for _ in 0..8 {
            sum = sum.wrapping_add(few.pop().unwrap_or(0));
        }
    }
    sum
}

#[inline(never)]
fn inline_rows(rows: &mut Vec<Vec<u32>>, count: u32) {
    for i in 0..count / 8 {
        let mut few = Vec::new();
        for k in 0..8 {
            few.push(i ^ k);
        }
        rows.push(few);
    }
}

#[derive(Clone, Copy)]
struct Key {
    index: usize,
    serial: u64,
}

enum Entry {
    Free(Option<usize>),
    Held(u64, u64),
}

/// A slot map in plain Rust. A free slot has the index of the next free one, another one a serial and a number.
#[derive(Default)]
struct Slots {
    entries: Vec<Entry>,
    first: Option<usize>,
    issued: u64,
}

impl Slots {
    fn insert(&mut self, value: u64) -> Key {
        let serial = self.issued;
        self.issued += 1;
        let entry = Entry::Held(serial, value);
        let Some(index) = self.first else {
            self.entries.push(entry);
            return Key { index: self.entries.len() - 1, serial };
        };
        if let Entry::Free(next) = std::mem::replace(&mut self.entries[index], entry) {
            self.first = next;
        }
        Key { index, serial }
    }

    fn get(&self, key: Key) -> Option<&u64> {
        match self.entries.get(key.index) {
            Some(Entry::Held(serial, value)) if *serial == key.serial => Some(value),
            _ => None,
        }
    }

    fn remove(&mut self, key: Key) -> Option<u64> {
        let value = *self.get(key)?;
        self.entries[key.index] = Entry::Free(self.first.replace(key.index));
        Some(value)
    }

    fn sum(&self) -> u64 {
        self.entries.iter().fold(0, |sum, entry| match entry {
            Entry::Held(_, value) => sum.wrapping_add(*value),
            Entry::Free(_) => sum,
        })
    }
}

#[inline(never)]
fn slots_insert(slots: &mut Slots, values: &[u64]) {
    for value in values {
        slots.insert(*value);
    }
}

#[inline(never)]
fn slots_in_place(slots: &mut Slots, values: &[u64]) {
    for value in values {
        slots.insert(*value);
    }
}

#[inline(never)]
fn slots_get(slots: &Slots, issued: &[Key]) -> u64 {
    let mut sum: u64 = 0;
    for key in issued {
        if let Some(value) = slots.get(*key) {
            sum = sum.wrapping_add(*value);
        }
    }
    sum
}

#[inline(never)]
fn slots_churn(slots: &mut Slots, issued: &[Key]) {
    for key in issued {
        if let Some(value) = slots.remove(*key) {
            slots.insert(value >> 1);
        }
    }
}
