//! The load list of a netlist, and the run of a load list, as document 01 tells them under 'Load list'; simple rather than fast.

use super::evaluate::{and, byte, not, or, ringed, trit, xor, Bit, Cell, Trit, INPUT, OUTPUT};
use super::Tables;
use crate::{refusal, Refusal};

/// "at most 8,192 records"
const MOST_RECORDS: usize = 8_192;

/// The operations of document 01.
const INPUT_BIT: u8 = 3;
const NOT: u8 = 4;
const AND: u8 = 5;
const OR: u8 = 6;
const XOR: u8 = 7;
const OUTPUT_BIT: u8 = 8;

/// Slot numbers may pass 16 bits until the records are counted.
struct Record {
    operation: u8,
    first: usize,
    second: usize,
}

impl Record {
    fn bytes(&self) -> [u8; 8] {
        let [a, b] = [self.first, self.second].map(|field| (field as u16).to_le_bytes());
        [0x47, 0x53, self.operation, 0, a[0], a[1], b[0], b[1]]
    }
}

/// The load list of tables that reading has made: 20, 21, or its bytes.
pub fn translate(tables: &Tables) -> Result<Vec<u8>, Refusal> {
    let cells = Cell::all(tables);
    if ringed(&cells) {
        return Err(refusal(20, 0));
    }
    let records = records(&cells);
    if records.len() > MOST_RECORDS {
        return Err(refusal(21, 0));
    }
    Ok(records.iter().flat_map(|record| record.bytes()).collect())
}

/// "constants 0, 1, X; input bits by row, bit 0 first; the other cells, each time the lowest unplaced row whose cells are all placed;
/// output bits by row"
fn records(cells: &[Cell]) -> Vec<Record> {
    let mut made = Making { records: Vec::new(), slots: vec![None; cells.len()] };
    for constant in 0..3 {
        made.add(constant, 0, 0);
    }
    let mut inputs = 0;
    for (row, cell) in cells.iter().enumerate().filter(|(_, cell)| cell.kind == INPUT) {
        made.slots[row] = Some((inputs..inputs + cell.width).map(|bit| made.add(INPUT_BIT, bit, 0)).collect());
        inputs += cell.width;
    }
    while let Some(row) = (0..cells.len()).find(|&row| cells[row].kind != OUTPUT && made.may_place(&cells[row], row)) {
        made.slots[row] = Some(made.cell(&cells[row]));
    }
    let outputs = cells.iter().filter(|cell| cell.kind == OUTPUT);
    let bits: Vec<usize> = outputs.flat_map(|cell| made.operand(&cell.operands[0])).collect();
    for (number, slot) in bits.into_iter().enumerate() {
        made.add(OUTPUT_BIT, slot, number);
    }
    made.records
}

struct Making {
    records: Vec<Record>,
    /// The slots of each placed row's bits, from bit 0 up.
    slots: Vec<Option<Vec<usize>>>,
}

impl Making {
    /// "Record k makes slot k."
    fn add(&mut self, operation: u8, first: usize, second: usize) -> usize {
        self.records.push(Record { operation, first, second });
        self.records.len() - 1
    }

    fn may_place(&self, cell: &Cell, row: usize) -> bool {
        self.slots[row].is_none() && cell.asks().all(|asked| self.slots[asked].is_some())
    }

    fn operand(&self, bits: &[Bit]) -> Vec<usize> {
        let slot = |bit: &Bit| match *bit {
            Bit::Constant(trit) => usize::from(byte(trit)),
            Bit::Of(row, bit) => self.slots[row].as_ref().map_or(0, |slots| slots[bit]),
        };
        bits.iter().map(slot).collect()
    }

    /// The slots of a cell's bits, its records made.
    fn cell(&mut self, cell: &Cell) -> Vec<usize> {
        let [a, b, c] = [0, 1, 2].map(|operand| self.operand(&cell.operands[operand]));
        match cell.kind {
            3 => a,
            4 => a.iter().map(|&a| self.add(NOT, a, 0)).collect(),
            5 => self.each(AND, &a, &b),
            6 => self.each(OR, &a, &b),
            7 => self.each(XOR, &a, &b),
            8 => self.mux(a[0], &b, &c),
            9 => self.adc(&a, &b, c[0]),
            10 => vec![self.eq(&a, &b)],
            11 => vec![self.below(&a, &b, a.len())],
            _ => vec![self.below(&a, &b, a.len() - 1)],
        }
    }

    fn each(&mut self, operation: u8, a: &[usize], b: &[usize]) -> Vec<usize> {
        a.iter().zip(b).map(|(&a, &b)| self.add(operation, a, b)).collect()
    }

    /// "mux (first not s, xor s s): and s a; and (not s) b; or; xor with xor s s"
    fn mux(&mut self, s: usize, a: &[usize], b: &[usize]) -> Vec<usize> {
        let not_s = self.add(NOT, s, 0);
        let unknown = self.add(XOR, s, s);
        let mut bits = Vec::new();
        for (&a, &b) in a.iter().zip(b) {
            let left = self.add(AND, s, a);
            let right = self.add(AND, not_s, b);
            let either = self.add(OR, left, right);
            bits.push(self.add(XOR, unknown, either));
        }
        bits
    }

    /// "xor a b; xor that, carry; and a b; or a b; and that, carry; or (the next carry)"
    fn adc(&mut self, a: &[usize], b: &[usize], c: usize) -> Vec<usize> {
        let mut carry = c;
        let mut bits = Vec::new();
        for (&a, &b) in a.iter().zip(b) {
            let half = self.add(XOR, a, b);
            bits.push(self.add(XOR, half, carry));
            carry = self.carry(a, b, carry);
        }
        bits.push(carry);
        bits
    }

    /// "adc's last four records"
    fn carry(&mut self, a: usize, b: usize, last: usize) -> usize {
        let both = self.add(AND, a, b);
        let either = self.add(OR, a, b);
        let carried = self.add(AND, either, last);
        self.add(OR, both, carried)
    }

    /// "xor, then from bit 1 an or with the sum so far; last a not"
    fn eq(&mut self, a: &[usize], b: &[usize]) -> usize {
        let mut sum = None;
        for (&a, &b) in a.iter().zip(b) {
            let differ = self.add(XOR, a, b);
            sum = Some(sum.map_or(differ, |sum| self.add(OR, sum, differ)));
        }
        self.add(NOT, sum.unwrap_or(0), 0)
    }

    /// "not a, then adc's last four records over not a, b and the last; slt at the top: not b, then a and not b. The first carry of ult
    /// and slt is slot 0"
    fn below(&mut self, a: &[usize], b: &[usize], top: usize) -> usize {
        let mut carry = 0;
        for (place, (&a, &b)) in a.iter().zip(b).enumerate() {
            carry = if place < top {
                let not_a = self.add(NOT, a, 0);
                self.carry(not_a, b, carry)
            } else {
                let not_b = self.add(NOT, b, 0);
                self.carry(a, not_b, carry)
            };
        }
        carry
    }
}

/// What a run that succeeds gives: a byte for each output bit, and one for each slot.
#[derive(Clone, Debug, PartialEq, Eq)]
pub struct Ran {
    pub outputs: Vec<u8>,
    pub slots: Vec<u8>,
}

/// The run of a list: 22, 23, or its output bits and slots.
pub fn run(list: &[u8], ins: &[u8]) -> Result<Ran, Refusal> {
    let records = checked(list)?;
    let inputs = records.iter().filter(|record| record.operation == INPUT_BIT).count();
    if ins.len() != inputs || ins.iter().any(|&byte| byte > 2) {
        return Err(refusal(23, 0));
    }
    let mut slots: Vec<Trit> = Vec::new();
    let mut outputs = Vec::new();
    for &Record { operation, first, second } in &records {
        let slot = match operation {
            0..=2 => trit(operation),
            INPUT_BIT => trit(ins[first]),
            NOT => not(slots[first]),
            AND => and(slots[first], slots[second]),
            OR => or(slots[first], slots[second]),
            XOR => xor(slots[first], slots[second]),
            _ => slots[first],
        };
        slots.push(slot);
        if operation == OUTPUT_BIT {
            outputs.push(byte(slot));
        }
    }
    Ok(Ran { outputs, slots: slots.into_iter().map(byte).collect() })
}

/// The records of a list, or 22 at the first bad one.
fn checked(list: &[u8]) -> Result<Vec<Record>, Refusal> {
    let mut records = Vec::new();
    let [mut inputs, mut outputs] = [0, 0];
    for bytes in list.chunks(8) {
        let k = records.len();
        let record = good(bytes, k, inputs, outputs).ok_or_else(|| refusal(22, 8 * k))?;
        inputs += usize::from(record.operation == INPUT_BIT);
        outputs += usize::from(record.operation == OUTPUT_BIT);
        records.push(record);
    }
    Ok(records)
}

/// Record k, if it is a good one behind so many inputs and outputs.
fn good(bytes: &[u8], k: usize, inputs: usize, outputs: usize) -> Option<Record> {
    let (operation, fields) = match *bytes {
        [0x47, 0x53, operation, 0, a, b, c, d] => (operation, [[a, b], [c, d]]),
        _ => return None,
    };
    let [first, second] = fields.map(|field| usize::from(u16::from_le_bytes(field)));
    let fits = match operation {
        0..=2 => first == 0 && second == 0,
        INPUT_BIT => first == inputs && second == 0,
        NOT => first < k && second == 0,
        AND | OR | XOR => first < k && second < k,
        OUTPUT_BIT => first < k && second == outputs,
        _ => false,
    };
    (fits && k < MOST_RECORDS).then_some(Record { operation, first, second })
}

#[cfg(test)]
mod tests {
    use super::*;
    use crate::read;
    use crate::reading::evaluate;

    const SUM: &str = "%9:1 = input \"a\"\n%3:1 = input \"b\"\n%0:2 = adc %9 %3 0\n%7:0 = output \"sum\" [%0+1 %0+0]\n";

    #[test]
    fn runs_are_evaluations() {
        let tables = read(SUM.as_bytes()).unwrap();
        let list = translate(&tables).unwrap();
        assert_eq!(list.len(), 13 * 8);
        for setting in 0..9 {
            let ins = [setting / 3, setting % 3];
            assert_eq!(run(&list, &ins).map(|ran| ran.outputs), evaluate(&tables, &ins));
        }
    }

    #[test]
    fn refusals() {
        let told = |text: &str| translate(&read(text.as_bytes()).unwrap()).map_err(|refusal| refusal.number);
        assert_eq!(told("%0:1 = buf %0\n"), Err(20));
        let wide: String = (1..20).map(|n| format!("%{n}:1 = eq X*256 X*256\n")).collect();
        assert_eq!(told(&wide), Err(21));
        assert_eq!(run(&[0x47], &[]), Err(refusal(22, 0)));
        assert_eq!(run(&[], &[0]), Err(refusal(23, 0)));
        assert_eq!(run(&[], &[]), Ok(Ran { outputs: vec![], slots: vec![] }));
    }
}
