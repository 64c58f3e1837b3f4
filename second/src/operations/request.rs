//! What goes over the desk: a request with its tables, and an answer.

/// The operations in the order of their numbers.
#[derive(Clone, Copy, Debug, PartialEq, Eq)]
pub enum Operation {
    Check,
    Reach,
    Distances,
    MustRows,
    MustFacts,
    MustSteps,
    JustBeforeRows,
    Cuts,
    Replay,
    Read,
}

/// All operations.
pub const OPERATIONS: [Operation; 10] = [
    Operation::Check,
    Operation::Reach,
    Operation::Distances,
    Operation::MustRows,
    Operation::MustFacts,
    Operation::MustSteps,
    Operation::JustBeforeRows,
    Operation::Cuts,
    Operation::Replay,
    Operation::Read,
];

/// The entries of a table, of which only the first so many are lent.
#[derive(Clone, Debug, Default, PartialEq, Eq)]
pub struct Table<T> {
    pub held: Vec<T>,
    pub lent: usize,
}

impl<T> Table<T> {
    /// The part that is lent.
    pub fn lent(&self) -> &[T] {
        &self.held[..self.lent]
    }

    /// The part that is lent, for writing.
    pub fn lent_mut(&mut self) -> &mut [T] {
        &mut self.held[..self.lent]
    }
}

/// The tables of a request, before or after the call.
#[derive(Clone, Debug, Default, PartialEq, Eq)]
pub struct Tables {
    pub needs: Table<u64>,
    pub sets: Table<u64>,
    pub clears: Table<u64>,
    pub costs: Table<u32>,
    pub start: Table<u64>,
    pub goal: Table<u64>,
    pub walk: Table<u16>,
    pub file: Table<u8>,
    /// Rows, or the one set asked for.
    pub words: Table<u64>,
    /// Distances, or the costs of cuts.
    pub prices: Table<u32>,
    /// The costs left.
    pub left: Table<u32>,
}

/// A call that is asked for.
#[derive(Clone, Debug, PartialEq, Eq)]
pub struct Request {
    pub operation: Operation,
    pub facts: usize,
    pub steps: usize,
    pub tables: Tables,
}

/// What a call gives: the numbers of its answer, 0 for those that it lacks,
/// and all tables as they are afterwards.
#[derive(Clone, Debug, PartialEq, Eq)]
pub struct Answer {
    pub numbers: [u64; 4],
    pub tables: Tables,
}

/// One table as it goes over the desk.
struct Part {
    name: &'static str,
    width: usize,
    lent: usize,
    bytes: Vec<u8>,
}

impl Part {
    /// A table with entries of so many bytes.
    fn new<T: Copy, const WIDTH: usize>(
        name: &'static str,
        table: &Table<T>,
        bytes: fn(T) -> [u8; WIDTH],
    ) -> Part {
        Part {
            name,
            width: WIDTH,
            lent: table.lent,
            bytes: table.held.iter().flat_map(|&entry| bytes(entry)).collect(),
        }
    }
}

impl Tables {
    /// The tables in the order in which they go over the desk.
    fn parts(&self) -> [Part; 11] {
        [
            Part::new("needs", &self.needs, u64::to_le_bytes),
            Part::new("sets", &self.sets, u64::to_le_bytes),
            Part::new("clears", &self.clears, u64::to_le_bytes),
            Part::new("costs", &self.costs, u32::to_le_bytes),
            Part::new("start", &self.start, u64::to_le_bytes),
            Part::new("goal", &self.goal, u64::to_le_bytes),
            Part::new("walk", &self.walk, u16::to_le_bytes),
            Part::new("file", &self.file, u8::to_le_bytes),
            Part::new("words", &self.words, u64::to_le_bytes),
            Part::new("prices", &self.prices, u32::to_le_bytes),
            Part::new("left", &self.left, u32::to_le_bytes),
        ]
    }
}

impl Request {
    /// The request as bytes: operation, facts and steps, then each table with
    /// how many of its entries are lent and held.
    pub fn bytes(&self) -> Vec<u8> {
        let head = [self.operation as usize, self.facts, self.steps];
        let mut bytes = numbers(&head);
        for part in self.tables.parts() {
            bytes.extend(numbers(&[part.lent, part.bytes.len() / part.width]));
            bytes.extend(part.bytes);
        }
        bytes
    }
}

impl Answer {
    /// The answer as bytes: its four numbers, then the entries of each table.
    pub fn bytes(&self) -> Vec<u8> {
        let mut bytes = self.numbers.map(u64::to_le_bytes).concat();
        for part in self.tables.parts() {
            bytes.extend(part.bytes);
        }
        bytes
    }

    /// Where the bytes of another answer to the same request differ first;
    /// none if they are the same.
    pub fn difference(&self, other: &[u8]) -> Option<String> {
        let (numbers, mut rest) = other.split_at(4 * 8);
        let given: Vec<u64> = numbers.chunks(8).map(number).collect();
        if given != self.numbers {
            return Some(format!("answer {given:?}, expected {:?}", self.numbers));
        }
        for part in self.tables.parts() {
            let (given, others) = rest.split_at(part.bytes.len());
            rest = others;
            let entries = given.chunks(part.width).zip(part.bytes.chunks(part.width));
            for (place, (given, right)) in entries.enumerate() {
                if given != right {
                    let (name, given, right) = (part.name, number(given), number(right));
                    return Some(format!(
                        "{name}[{place}] is {given:#x} after the call, expected {right:#x}"
                    ));
                }
            }
        }
        None
    }
}

/// Numbers of 64 bits as bytes.
fn numbers(list: &[usize]) -> Vec<u8> {
    let bytes = list.iter().map(|&number| (number as u64).to_le_bytes());
    bytes.flatten().collect()
}

/// The number that these bytes hold, the lowest first.
fn number(bytes: &[u8]) -> u64 {
    let lowest_last = bytes.iter().rev();
    lowest_last.fold(0, |number, &byte| number << 8 | u64::from(byte))
}
