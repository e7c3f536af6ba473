//! Scripts: what the product does with lines for arrays of uint8, chunks, reads, erasures and keys.
use std::collections::BTreeMap;
use std::fmt::Write;

enum Order {
    Array { dimensions: usize, len: usize, fill: u8 },
    Chunk(Vec<u64>, Vec<u8>),
    Read(Vec<u64>),
    Erase(Vec<u64>),
    Keys,
}

fn list<T: std::str::FromStr>(word: &str) -> Option<Vec<T>> {
    if word == "-" {
        return Some(Vec::new());
    }
    word.split(',').map(|item| item.parse().ok()).collect()
}

fn array(shape: &str, chunk: &str, fill: &str) -> Option<Order> {
    let (shape, chunk) = (list::<u64>(shape)?, list::<u64>(chunk)?);
    Some(Order::Array {
        dimensions: shape.len(),
        len: chunk.iter().product::<u64>() as usize,
        fill: fill.parse().ok()?,
    })
}

fn order(line: &str) -> Option<Order> {
    let mut words = line.split(' ');
    match [(); 5].map(|_| words.next()) {
        [Some("array"), Some(shape), Some(chunk), Some("uint8"), Some(fill)] => array(shape, chunk, fill),
        [Some("chunk"), Some(indices), Some(cells), None, None] => Some(Order::Chunk(list(indices)?, list(cells)?)),
        [Some("read"), Some(indices), None, None, None] => Some(Order::Read(list(indices)?)),
        [Some("erase"), Some(indices), None, None, None] => Some(Order::Erase(list(indices)?)),
        [Some("keys"), None, None, None, None] => Some(Order::Keys),
        _ => None,
    }
}

fn key(indices: &[u64]) -> String {
    let mut key = String::from("c");
    for index in indices {
        write!(key, "/{index}").expect("a string takes all");
    }
    key
}

fn put_cells(text: &mut String, cells: &[u8]) {
    for (place, cell) in cells.iter().enumerate() {
        if place > 0 {
            text.push(',');
        }
        write!(text, "{cell}").expect("a string takes all");
    }
    text.push('\n');
}

/// An array of uint8, and what was printed.
#[derive(Default)]
struct State {
    store: BTreeMap<String, Vec<u8>>,
    dimensions: usize,
    len: usize,
    fill: u8,
    text: String,
}

impl State {
    fn store(&mut self, indices: &[u64], cells: Vec<u8>) {
        if indices.len() != self.dimensions {
            return self.text.push_str("refused E3\n");
        }
        if cells.len() != self.len {
            return self.text.push_str("refused E4\n");
        }
        if cells.iter().all(|cell| *cell == self.fill) {
            self.store.remove(&key(indices));
        } else {
            self.store.insert(key(indices), cells);
        }
        self.text.push_str("ok\n");
    }

    fn print_keys(&mut self) {
        for (key, value) in &self.store {
            self.text.push_str(key);
            self.text.push(' ');
            for byte in value {
                write!(self.text, "{byte:02x}").expect("a string takes all");
            }
            self.text.push('\n');
        }
    }

    fn run(&mut self, order: Order) {
        match order {
            Order::Array { dimensions, len, fill } => {
                *self = State { dimensions, len, fill, text: std::mem::take(&mut self.text), ..State::default() };
                self.text.push_str("ok\n");
            }
            Order::Chunk(indices, cells) => self.store(&indices, cells),
            Order::Read(indices) => match self.store.get(&key(&indices)) {
                Some(cells) => put_cells(&mut self.text, cells),
                None => put_cells(&mut self.text, &vec![self.fill; self.len]),
            },
            Order::Erase(indices) => {
                self.store.remove(&key(&indices));
                self.text.push_str("ok\n");
            }
            Order::Keys => self.print_keys(),
        }
    }
}

/// What a script prints; `None` if a line is no command. All lines are read before the first is done.
#[inline(never)]
pub fn run(script: &str) -> Option<String> {
    let lines = script.split('\n').filter(|line| !line.is_empty() && !line.starts_with('#'));
    let orders: Vec<Order> = lines.map(order).collect::<Option<_>>()?;
    let mut state = State::default();
    for order in orders {
        state.run(order);
    }
    Some(state.text)
}
