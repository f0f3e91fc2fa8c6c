//! Relay networks, and how they are solved by columns.

#[derive(Clone, Copy)]
enum Element {
    Open(usize),
    Closed(usize),
    Rise(usize),
    Fall(usize),
    Coil(usize),
    Wire,
}

struct Cell {
    row: u8,
    element: Element,
}

#[derive(Default)]
struct Column {
    cells: Vec<Cell>,
    /// Bit i joins rows i + 1 and i + 2 at the right border.
    shorts: u8,
}

pub struct Network {
    columns: Vec<Column>,
}

/// The coils, and behind them the inputs; as they stand, and as the last scan ended.
pub struct Discretes {
    pub coils: usize,
    pub now: Vec<bool>,
    pub past: Vec<bool>,
}

impl Discretes {
    /// The place of a reference such as 00001 or 10001.
    pub fn place(&self, reference: &str) -> usize {
        let number: usize = reference[1..].parse().expect("a number");
        match reference.as_bytes()[0] {
            b'0' => number - 1,
            b'1' => self.coils + number - 1,
            _ => panic!("{reference} is no coil and no input"),
        }
    }
}

pub fn network_of(text: &str, discretes: &Discretes) -> Network {
    let mut columns: Vec<Column> = (0..11).map(|_| Column::default()).collect();
    for piece in text.split(';') {
        let words: Vec<&str> = piece.split_whitespace().collect();
        let (row, column) = words[0].split_once(',').expect("a position");
        let row: u8 = row.parse().expect("a row");
        let column = &mut columns[column.parse::<usize>().expect("a column") - 1];
        let at = || discretes.place(words[2]);
        let element = match words[1] {
            "V" => {
                column.shorts |= 1 << (row - 1);
                continue;
            }
            "NO" => Element::Open(at()),
            "NC" => Element::Closed(at()),
            "PT" => Element::Rise(at()),
            "NT" => Element::Fall(at()),
            "CO" | "CL" => Element::Coil(at()),
            "H" => Element::Wire,
            other => panic!("{other} is no relay element"),
        };
        column.cells.push(Cell { row, element });
    }
    for column in &mut columns {
        column.cells.sort_by_key(|cell| cell.row);
    }
    let used = columns.iter().rposition(|column| !column.cells.is_empty());
    columns.truncate(used.map_or(0, |last| last + 1));
    Network { columns }
}

/// The rows that power reaches over the shorts of a column.
fn join(shorts: u8, mut power: u8) -> u8 {
    if shorts == 0 {
        return power;
    }
    for row in 0..6 {
        power |= (power & shorts & 1 << row) << 1;
    }
    for row in (0..6).rev() {
        power |= power >> 1 & shorts & 1 << row;
    }
    power
}

pub fn solve(network: &Network, discretes: &mut Discretes) {
    let mut live = 0x7f_u8;
    for column in &network.columns {
        let mut power = 0;
        for cell in &column.cells {
            let on = live >> (cell.row - 1) & 1 != 0;
            let output = match cell.element {
                Element::Open(at) => on && discretes.now[at],
                Element::Closed(at) => on && !discretes.now[at],
                Element::Rise(at) => on && discretes.now[at] && !discretes.past[at],
                Element::Fall(at) => on && !discretes.now[at] && discretes.past[at],
                Element::Coil(at) => {
                    discretes.now[at] = on;
                    false
                }
                Element::Wire => on,
            };
            power |= u8::from(output) << (cell.row - 1);
        }
        live = join(column.shorts, power);
    }
}
