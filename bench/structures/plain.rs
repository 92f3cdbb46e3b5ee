//! Times plain Rust structures with the algorithms of those in the program `bench_structures`.
use std::cmp::Ordering;
use std::collections::{BTreeSet, HashMap};
use std::hint::black_box;
use std::mem::replace;
use std::ptr::null_mut;
use std::time::Instant;

#[derive(Clone, Copy, Debug, Default, PartialEq, Eq)]
struct RowRef {
    slot: u32,
}

#[derive(Clone, Copy)]
struct Entry {
    key: u64,
    reference: RowRef,
}

/// Returns the key of a number (the finalizer of SplitMix64).
fn key_of(n: usize) -> u64 {
    let a = (n as u64).wrapping_add(0x9E37_79B9_7F4A_7C15);
    let b = (a ^ (a >> 30)).wrapping_mul(0xBF58_476D_1CE4_E5B9);
    let c = (b ^ (b >> 27)).wrapping_mul(0x94D0_49BB_1331_11EB);
    c ^ (c >> 31)
}

fn reference_of(n: usize) -> RowRef {
    RowRef { slot: n as u32 }
}

/// Returns the entry of a number.
fn entry_of(n: usize) -> Entry {
    Entry { key: key_of(n), reference: reference_of(n) }
}

/// Returns the entry of a number, with one of 25 equally frequent hashes.
fn by_few_hashes(n: usize) -> Entry {
    Entry { key: key_of(n % 25), ..entry_of(n) }
}

/// Returns the next number below `n` of the shuffle, which visits each number once if `n` is a power of 10 or 2.
fn after(number: usize, n: usize) -> usize {
    (number * 1_664_521 + 1_013_904_223) % n
}

fn shuffled(n: usize, entry_of: impl Fn(usize) -> Entry) -> Vec<Entry> {
    let mut entries = Vec::with_capacity(n);
    let mut number = 0;
    for _ in 0..n {
        entries.push(entry_of(number));
        number = after(number, n);
    }
    entries
}

// ---- modified linear hashing

const NIL: u32 = u32::MAX;

#[derive(Clone, Copy)]
struct Node {
    hash: u64,
    reference: RowRef,
    next: u32,
    live: bool,
}

impl Node {
    fn has(&self, hash: u64, reference: RowRef) -> bool {
        self.hash == hash && self.reference == reference
    }
}

/// Linear hashing with a chain of single entries per bucket. The table splits above two entries per
/// bucket and merges below half an entry. The directory maps the slot of a reference to the node that
/// last stored its entry.
struct LinearHash {
    heads: Vec<u32>,
    nodes: Vec<Node>,
    directory: Vec<u32>,
    len: usize,
    level: u32,
    split: usize,
    free: u32,
}

impl Default for LinearHash {
    fn default() -> Self {
        LinearHash { heads: vec![NIL; 4], nodes: Vec::new(), directory: Vec::new(), len: 0, level: 0, split: 0, free: NIL }
    }
}

impl LinearHash {
    fn bucket_of(&self, hash: u64) -> usize {
        let low = (hash & ((4 << self.level) - 1)) as usize;
        if low < self.split { (hash & ((8 << self.level) - 1)) as usize } else { low }
    }

    fn hint(&self, reference: RowRef) -> u32 {
        self.directory.get(reference.slot as usize).map_or(NIL, |&node| node)
    }

    fn note(&mut self, reference: RowRef, node: u32) {
        if let Some(place) = self.directory.get_mut(reference.slot as usize) {
            *place = node;
        }
    }

    fn insert(&mut self, hash: u64, reference: RowRef) {
        let bucket = self.bucket_of(hash);
        let node = Node { hash, reference, next: self.heads[bucket], live: true };
        let mut at = self.free;
        if at == NIL {
            at = self.nodes.len() as u32;
            self.nodes.push(node);
            if self.directory.len() < self.nodes.capacity() {
                self.directory.resize(self.nodes.capacity(), NIL);
            }
        } else {
            self.free = replace(&mut self.nodes[at as usize], node).next;
        }
        self.heads[bucket] = at;
        self.note(reference, at);
        self.len += 1;
        if self.len > 2 * self.heads.len() {
            self.split();
        }
    }

    fn split(&mut self) {
        let mask = (8 << self.level) - 1;
        let (mut staying, mut leaving, mut at) = (NIL, NIL, self.heads[self.split]);
        while at != NIL {
            let node = &mut self.nodes[at as usize];
            let onto = if node.hash & mask == self.split as u64 { &mut staying } else { &mut leaving };
            let next = replace(&mut node.next, *onto);
            *onto = replace(&mut at, next);
        }
        self.heads[self.split] = staying;
        self.heads.push(leaving);
        self.split += 1;
        if self.split == 4 << self.level {
            self.level += 1;
            self.split = 0;
        }
    }

    fn matches(&self, hash: u64, out: &mut Vec<RowRef>) {
        let mut at = self.heads[self.bucket_of(hash)];
        while at != NIL {
            let node = &self.nodes[at as usize];
            if node.hash == hash {
                out.push(node.reference);
            }
            at = node.next;
        }
    }

    /// Returns the node of an entry, by the directory or else by a walk along the chain.
    fn find(&self, head: u32, hash: u64, reference: RowRef) -> u32 {
        let hint = self.hint(reference);
        if self.nodes.get(hint as usize).is_some_and(|node| node.live && node.has(hash, reference)) {
            return hint;
        }
        let mut at = head;
        while at != NIL && !self.nodes[at as usize].has(hash, reference) {
            at = self.nodes[at as usize].next;
        }
        at
    }

    /// Replaces the removed entry with that of the chain's first node.
    fn remove(&mut self, hash: u64, reference: RowRef) -> bool {
        let bucket = self.bucket_of(hash);
        let head = self.heads[bucket];
        let at = self.find(head, hash, reference);
        if at == NIL {
            return false;
        }
        let first = self.nodes[head as usize];
        let next = self.nodes[at as usize].next;
        self.nodes[at as usize] = Node { next, ..first };
        self.nodes[head as usize] = Node { next: self.free, live: false, ..first };
        self.heads[bucket] = first.next;
        self.note(first.reference, at);
        self.free = head;
        self.len -= 1;
        if 2 * self.len < self.heads.len() && self.heads.len() > 4 {
            self.merge();
        }
        true
    }

    fn merge(&mut self) {
        if self.split == 0 {
            self.level -= 1;
            self.split = 4 << self.level;
        }
        self.split -= 1;
        let mut at = self.heads.pop().unwrap();
        let mut onto = self.heads[self.split];
        while at != NIL {
            let next = replace(&mut self.nodes[at as usize].next, onto);
            onto = replace(&mut at, next);
        }
        self.heads[self.split] = onto;
    }
}

// ---- references in the order of a table of keys

/// The keys by slot, set once before any reference is compared.
static mut KEYS: Vec<u64> = Vec::new();

fn key(at: RowRef) -> u64 {
    let keys = &raw const KEYS;
    unsafe { (&(*keys))[at.slot as usize] }
}

fn compare(a: RowRef, b: RowRef) -> Ordering {
    key(a).cmp(&key(b)).then(a.slot.cmp(&b.slot))
}

#[derive(Clone, Copy, PartialEq, Eq)]
struct ByKey(RowRef);

impl Ord for ByKey {
    fn cmp(&self, other: &Self) -> Ordering {
        compare(self.0, other.0)
    }
}

impl PartialOrd for ByKey {
    fn partial_cmp(&self, other: &Self) -> Option<Ordering> {
        Some(self.cmp(other))
    }
}

// ---- T-tree

const MOST: usize = 16;
const LEAST: usize = 14;

type Link = *mut TNode;

struct TNode {
    left: Link,
    right: Link,
    height: usize,
    len: usize,
    entries: [RowRef; MOST],
}

fn height(link: Link) -> usize {
    if link.is_null() { 0 } else { unsafe { (*link).height } }
}

impl TNode {
    fn leaf(entry: RowRef) -> Link {
        let mut entries = [RowRef::default(); MOST];
        entries[0] = entry;
        Box::into_raw(Box::new(TNode { left: null_mut(), right: null_mut(), height: 1, len: 1, entries }))
    }

    fn held(&self) -> &[RowRef] {
        &self.entries[..self.len]
    }

    fn put(&mut self, at: usize, entry: RowRef) {
        self.entries.copy_within(at..self.len, at + 1);
        self.entries[at] = entry;
        self.len += 1;
    }

    fn take(&mut self, at: usize) -> RowRef {
        let taken = self.entries[at];
        self.entries.copy_within(at + 1..self.len, at);
        self.len -= 1;
        taken
    }

    fn measure(&mut self) {
        self.height = height(self.left).max(height(self.right)) + 1;
    }

    fn place(&self, sought: RowRef) -> Result<usize, usize> {
        self.held().binary_search_by(|&at| compare(at, sought))
    }

    fn side(&self, sought: RowRef) -> Ordering {
        if compare(sought, self.entries[0]).is_lt() {
            Ordering::Less
        } else if compare(sought, self.entries[self.len - 1]).is_gt() {
            Ordering::Greater
        } else {
            Ordering::Equal
        }
    }
}

unsafe fn insert_into(link: Link, added: RowRef) -> Link {
    unsafe {
        if link.is_null() {
            return TNode::leaf(added);
        }
        let node = &mut *link;
        match node.side(added) {
            Ordering::Less if node.left.is_null() && node.len < MOST => node.put(0, added),
            Ordering::Greater if node.right.is_null() && node.len < MOST => node.put(node.len, added),
            Ordering::Less => {
                node.left = insert_into(node.left, added);
                return balance(link);
            }
            Ordering::Greater => {
                node.right = insert_into(node.right, added);
                return balance(link);
            }
            Ordering::Equal => {
                let at = node.place(added).unwrap_err();
                if node.len == MOST {
                    let least = node.take(0);
                    node.put(at - 1, added);
                    node.left = push_last(node.left, least);
                    return balance(link);
                }
                node.put(at, added);
            }
        }
        link
    }
}

unsafe fn push_last(link: Link, entry: RowRef) -> Link {
    unsafe {
        if link.is_null() {
            return TNode::leaf(entry);
        }
        let node = &mut *link;
        if node.right.is_null() && node.len < MOST {
            node.put(node.len, entry);
            return link;
        }
        node.right = push_last(node.right, entry);
        balance(link)
    }
}

unsafe fn balance(link: Link) -> Link {
    unsafe {
        let node = &mut *link;
        let (left, right) = (height(node.left), height(node.right));
        if left > right + 1 {
            let child = node.left;
            if height((*child).left) < height((*child).right) {
                if is_leaf((*child).right) {
                    slide_right(child);
                }
                node.left = rotate_left(child);
            }
            rotate_right(link)
        } else if right > left + 1 {
            let child = node.right;
            if height((*child).right) < height((*child).left) {
                if is_leaf((*child).left) {
                    slide_left(child);
                }
                node.right = rotate_right(child);
            }
            rotate_left(link)
        } else {
            node.height = left.max(right) + 1;
            link
        }
    }
}

unsafe fn is_leaf(link: Link) -> bool {
    unsafe { !link.is_null() && (*link).left.is_null() && (*link).right.is_null() }
}

unsafe fn rotate_left(link: Link) -> Link {
    unsafe {
        let top = (*link).right;
        (*link).right = (*top).left;
        (*link).measure();
        (*top).left = link;
        (*top).measure();
        top
    }
}

unsafe fn rotate_right(link: Link) -> Link {
    unsafe {
        let top = (*link).left;
        (*link).left = (*top).right;
        (*link).measure();
        (*top).right = link;
        (*top).measure();
        top
    }
}

fn count_to_hand_on(from: &TNode, to: &TNode) -> usize {
    (from.len - 1).min(LEAST.saturating_sub(to.len))
}

/// Moves the last entries of a node to its right leaf, which becomes an internal node.
unsafe fn slide_right(link: Link) {
    unsafe {
        let (node, leaf) = (&mut *link, &mut *(*link).right);
        let n = count_to_hand_on(node, leaf);
        leaf.entries.copy_within(..leaf.len, n);
        leaf.entries[..n].copy_from_slice(&node.entries[node.len - n..node.len]);
        leaf.len += n;
        node.len -= n;
    }
}

/// Moves the first entries of a node to its left leaf, which becomes an internal node.
unsafe fn slide_left(link: Link) {
    unsafe {
        let (node, leaf) = (&mut *link, &mut *(*link).left);
        let n = count_to_hand_on(node, leaf);
        leaf.entries[leaf.len..leaf.len + n].copy_from_slice(&node.entries[..n]);
        node.entries.copy_within(n..node.len, 0);
        leaf.len += n;
        node.len -= n;
    }
}

unsafe fn remove_from(link: Link, gone: RowRef) -> (Link, bool) {
    unsafe {
        if link.is_null() {
            return (link, false);
        }
        let node = &mut *link;
        let found;
        match node.side(gone) {
            Ordering::Less => (node.left, found) = remove_from(node.left, gone),
            Ordering::Greater => (node.right, found) = remove_from(node.right, gone),
            Ordering::Equal => {
                let Ok(at) = node.place(gone) else { return (link, false) };
                node.take(at);
                return (refill(link), true);
            }
        }
        (mend(link), found)
    }
}

/// An internal node of fewer than 14 entries borrows the greatest of its left side.
unsafe fn refill(link: Link) -> Link {
    unsafe {
        let node = &mut *link;
        if node.left.is_null() || node.right.is_null() {
            return settle(link);
        }
        if node.len < LEAST {
            let (left, last) = take_last(node.left);
            node.left = left;
            node.put(0, last);
        }
        mend(link)
    }
}

unsafe fn take_last(link: Link) -> (Link, RowRef) {
    unsafe {
        let node = &mut *link;
        if node.right.is_null() {
            let last = node.take(node.len - 1);
            return (settle(link), last);
        }
        let (right, last) = take_last(node.right);
        node.right = right;
        (mend(link), last)
    }
}

/// Fixes a node with at most one child after a removal: an empty leaf is freed.
unsafe fn settle(link: Link) -> Link {
    unsafe {
        let node = &mut *link;
        if !node.left.is_null() || !node.right.is_null() {
            return absorb(link);
        }
        if node.len == 0 {
            drop(Box::from_raw(link));
            return null_mut();
        }
        link
    }
}

unsafe fn mend(link: Link) -> Link {
    unsafe {
        let node = &mut *link;
        if node.right.is_null() && is_leaf(node.left) || node.left.is_null() && is_leaf(node.right) {
            absorb(link)
        } else {
            balance(link)
        }
    }
}

/// Merges a half-leaf with its leaf if both fit into one node.
unsafe fn absorb(link: Link) -> Link {
    unsafe {
        let node = &mut *link;
        let leaf = if node.left.is_null() { node.right } else { node.left };
        let n = (*leaf).len;
        if n + node.len > MOST {
            node.height = 2;
            return link;
        }
        if node.left.is_null() {
            node.entries[node.len..node.len + n].copy_from_slice((*leaf).held());
        } else {
            node.entries.copy_within(..node.len, n);
            node.entries[..n].copy_from_slice((*leaf).held());
        }
        node.len += n;
        (node.left, node.right, node.height) = (null_mut(), null_mut(), 1);
        drop(Box::from_raw(leaf));
        link
    }
}

unsafe fn find_in(mut link: Link, sought: RowRef) -> Option<RowRef> {
    unsafe {
        while !link.is_null() {
            let node = &*link;
            match node.side(sought) {
                Ordering::Less => link = node.left,
                Ordering::Greater => link = node.right,
                Ordering::Equal => return node.place(sought).ok().map(|at| node.entries[at]),
            }
        }
        None
    }
}

// ---- the passes

/// Times a pass over all entries, and prints the structure, the pass, the number of entries, the nanoseconds of the
/// pass, and the sum of the slots that it found.
fn timed(structure: &str, name: &str, n: usize, pass: impl FnOnce() -> usize) {
    let start = Instant::now();
    let sum = black_box(pass());
    println!("{structure} {name} {n} {} {sum}", start.elapsed().as_nanos());
}

/// A structure under test.
trait Structure: Default {
    fn insert(&mut self, entry: Entry);
    /// Returns the slot of the reference that was found.
    fn find(&self, entry: Entry, found: &mut Vec<RowRef>) -> usize;
    /// Returns the sum of the slots of all references in order.
    fn walk(&self) -> usize;
    fn remove(&mut self, entry: Entry) -> bool;
}

fn fill(filled: &mut impl Structure, n: usize, entry_of: impl Fn(usize) -> Entry) -> usize {
    for number in 0..n {
        filled.insert(entry_of(number));
    }
    0
}

/// Times the insert of each number, the look-up and the removal of each shuffled entry, and a walk over all entries
/// if the structure is ordered.
fn measure<S: Structure>(structure: &str, n: usize, is_ordered: bool, entry_of: impl Fn(usize) -> Entry + Copy) {
    let sought = shuffled(n, entry_of);
    let mut filled = S::default();
    timed(structure, "insert", n, || fill(&mut filled, n, entry_of));
    let mut found = Vec::new();
    timed(structure, "look-up", n, || sought.iter().map(|&entry| filled.find(entry, &mut found)).sum());
    if is_ordered {
        timed(structure, "walk", n, || filled.walk());
    }
    timed(structure, "remove", n, || sought.iter().filter(|&&entry| filled.remove(entry)).count());
}

/// Times the passes of an ordered structure, and the insert of each number in ascending order.
fn measure_ordered<S: Structure>(structure: &str, n: usize) {
    unsafe { KEYS = (0..n as u64).collect() };
    let mut filled = S::default();
    timed(structure, "ascending", n, || fill(&mut filled, n, entry_of));
    drop(filled);
    unsafe { KEYS = (0..n).map(key_of).collect() };
    measure::<S>(structure, n, true, entry_of);
}

/// Times the insert of each number and the removal of each shuffled entry, with few different hashes.
fn measure_few_hashes<S: Structure>(structure: &str, n: usize) {
    let sought = shuffled(n, by_few_hashes);
    let mut filled = S::default();
    timed(structure, "insert", n, || fill(&mut filled, n, by_few_hashes));
    timed(structure, "remove", n, || sought.iter().filter(|&&entry| filled.remove(entry)).count());
}

impl Structure for LinearHash {
    fn insert(&mut self, entry: Entry) {
        self.insert(entry.key, entry.reference);
    }

    fn find(&self, entry: Entry, found: &mut Vec<RowRef>) -> usize {
        found.clear();
        self.matches(entry.key, found);
        found[0].slot as usize
    }

    fn walk(&self) -> usize {
        0
    }

    fn remove(&mut self, entry: Entry) -> bool {
        self.remove(entry.key, entry.reference)
    }
}

impl Structure for HashMap<u64, RowRef> {
    fn insert(&mut self, entry: Entry) {
        self.insert(entry.key, entry.reference);
    }

    fn find(&self, entry: Entry, _: &mut Vec<RowRef>) -> usize {
        self[&entry.key].slot as usize
    }

    fn walk(&self) -> usize {
        0
    }

    fn remove(&mut self, entry: Entry) -> bool {
        self.remove(&entry.key).is_some()
    }
}

/// A T-tree, freed when it is dropped.
struct TTree(Link);

impl Default for TTree {
    fn default() -> Self {
        TTree(null_mut())
    }
}

impl Drop for TTree {
    fn drop(&mut self) {
        unsafe { free(self.0) }
    }
}

unsafe fn free(link: Link) {
    unsafe {
        if !link.is_null() {
            free((*link).left);
            free((*link).right);
            drop(Box::from_raw(link));
        }
    }
}

unsafe fn sum_of(link: Link) -> usize {
    unsafe {
        if link.is_null() {
            return 0;
        }
        let node = &*link;
        let here: usize = node.held().iter().map(|entry| entry.slot as usize).sum();
        sum_of(node.left) + here + sum_of(node.right)
    }
}

impl Structure for TTree {
    fn insert(&mut self, entry: Entry) {
        self.0 = unsafe { insert_into(self.0, entry.reference) };
    }

    fn find(&self, entry: Entry, _: &mut Vec<RowRef>) -> usize {
        unsafe { find_in(self.0, entry.reference) }.unwrap().slot as usize
    }

    fn walk(&self) -> usize {
        unsafe { sum_of(self.0) }
    }

    fn remove(&mut self, entry: Entry) -> bool {
        let found;
        (self.0, found) = unsafe { remove_from(self.0, entry.reference) };
        found
    }
}

impl Structure for BTreeSet<ByKey> {
    fn insert(&mut self, entry: Entry) {
        self.insert(ByKey(entry.reference));
    }

    fn find(&self, entry: Entry, _: &mut Vec<RowRef>) -> usize {
        self.get(&ByKey(entry.reference)).unwrap().0.slot as usize
    }

    fn walk(&self) -> usize {
        self.iter().map(|held| held.0.slot as usize).sum()
    }

    fn remove(&mut self, entry: Entry) -> bool {
        self.remove(&ByKey(entry.reference))
    }
}

fn bound(list: &[RowRef], sought: RowRef) -> usize {
    list.partition_point(|&held| compare(held, sought).is_lt())
}

/// A sorted vector: an edit moves half of it.
impl Structure for Vec<RowRef> {
    fn insert(&mut self, entry: Entry) {
        self.insert(bound(self, entry.reference), entry.reference);
    }

    fn find(&self, entry: Entry, found: &mut Vec<RowRef>) -> usize {
        found.clear();
        let rest = &self[bound(self, entry.reference)..];
        found.extend(&rest[..rest.partition_point(|&held| compare(held, entry.reference).is_le())]);
        found[0].slot as usize
    }

    fn walk(&self) -> usize {
        self.iter().map(|held| held.slot as usize).sum()
    }

    fn remove(&mut self, entry: Entry) -> bool {
        let at = bound(self, entry.reference);
        let held = self.get(at) == Some(&entry.reference);
        if held {
            self.remove(at);
        }
        held
    }
}

/// Rows without values, allocated 64 slots at a time, and a stack of the free ones.
fn in_rows(n: usize) {
    let mut slots: Vec<Option<Vec<u64>>> = Vec::new();
    let mut vacant = Vec::new();
    let mut refs = Vec::with_capacity(n);
    timed("slots", "insert", n, || {
        for _ in 0..n {
            if vacant.is_empty() {
                vacant.extend((slots.len()..slots.len() + 64).rev());
                slots.resize(slots.len() + 64, None);
            }
            let at = vacant.pop().unwrap();
            slots[at] = Some(Vec::new());
            refs.push(RowRef { slot: at as u32 });
        }
        0
    });
    timed("slots", "look-up", n, || {
        let (mut found, mut number) = (0, 0);
        for _ in 0..n {
            let at: RowRef = refs[number];
            found += slots[at.slot as usize].as_ref().unwrap().len() + number;
            number = after(number, n);
        }
        found
    });
    timed("slots", "remove", n, || {
        let mut gone = 0;
        while let Some(at) = refs.pop() {
            let index = at.slot as usize;
            gone += usize::from(slots[index].take().is_some());
            vacant.push(index);
        }
        gone
    });
}

fn main() {
    for n in [10_000, 100_000, 1_048_576] {
        measure::<LinearHash>("LinearHash", n, false, entry_of);
        measure_few_hashes::<LinearHash>("LinearHash_of_25", n);
        measure::<HashMap<u64, RowRef>>("HashMap", n, false, entry_of);
        measure_ordered::<TTree>("unsafe_TTree", n);
        measure_ordered::<BTreeSet<ByKey>>("BTreeSet", n);
        in_rows(n);
        if n <= 100_000 {
            measure_ordered::<Vec<RowRef>>("sorted_Vec", n);
        }
    }
}
