//! The finds of crates/bench_hosts over Rust's `HashMap`: the same contexts, hosts and order, and the same words.

use std::collections::HashMap;
use std::env;
use std::hash::{Hash, Hasher};
use std::time::Instant;

#[derive(Clone, Copy, PartialEq, Eq, Hash)]
struct Step {
    class: u16,
    key: i64,
}

#[derive(Clone, Copy)]
struct Path {
    steps: [Step; 8],
    len: usize,
}

impl Path {
    fn as_slice(&self) -> &[Step] {
        &self.steps[..self.len]
    }
}

impl PartialEq for Path {
    fn eq(&self, other: &Path) -> bool {
        self.as_slice() == other.as_slice()
    }
}

impl Eq for Path {}

impl Hash for Path {
    fn hash<H: Hasher>(&self, state: &mut H) {
        self.as_slice().hash(state);
    }
}

struct Host {
    store: HashMap<Path, [u64; 16]>,
    gone: HashMap<Path, (u8, u64)>,
}

#[derive(PartialEq)]
enum Found {
    Here,
    Gone(u8, u64),
    Unknown,
}

impl Host {
    fn find(&self, path: &Path) -> Found {
        if self.store.contains_key(path) {
            return Found::Here;
        }
        match self.gone.get(path) {
            Some(&(to, number)) => Found::Gone(to, number),
            None => Found::Unknown,
        }
    }
}

fn path(number: u32) -> Path {
    let mut steps = [Step { class: 0, key: 0 }; 8];
    steps[0] = Step { class: 1, key: i64::from(number / 10) };
    steps[1] = Step { class: 2, key: i64::from(number % 10) };
    Path { steps, len: 2 }
}

#[inline(never)]
fn found(hosts: &[Host], paths: &[Path], finds: u32) -> u32 {
    let mut x: u64 = 1;
    let mut found: u32 = 0;
    for _ in 0..finds {
        x = x.wrapping_mul(6364136223846793005).wrapping_add(1442695040888963407);
        let host = hosts.get((x >> 61) as usize);
        let path = paths.get(((x >> 33) % 1000) as usize);
        if let (Some(host), Some(path)) = (host, path) {
            if host.find(path) == Found::Here {
                found = found.wrapping_add(1);
            }
        }
    }
    found
}

fn main() {
    let mut words = env::args().skip(1).map(|word| word.parse::<u32>().unwrap());
    let finds = words.next().unwrap();
    let runs = words.next().unwrap_or(1);
    let mut hosts: Vec<Host> = (0..8).map(|_| Host { store: HashMap::new(), gone: HashMap::new() }).collect();
    for number in 0..1000 {
        hosts[(number % 8) as usize].store.insert(path(number), [0; 16]);
    }
    let paths: Vec<Path> = (0..1000).map(path).collect();
    for _ in 0..runs {
        let start = Instant::now();
        let found = found(&hosts, &paths, finds);
        println!("{} {found}", start.elapsed().as_nanos());
    }
}
