//! The canonical text that tables show, found from the numbers of `docs/LAYOUT.md` alone: a second look at what was written where.

use super::Tables;

const KEYWORDS: [&str; 12] = ["input", "output", "buf", "not", "and", "or", "xor", "mux", "adc", "eq", "ult", "slt"];

/// The canonical text of tables that reading has made.
pub fn canonical(tables: &Tables) -> String {
    let [metas, ios, cells] = [0, 1, 2].map(|word| tables.rows[word] as usize);
    let metas = (0..metas).map(|row| format!("!{row} = {}\n", meta(tables, part(tables, 3, 16, row))));
    let ios = (0..ios).map(|row| io(tables, part(tables, 9_219, 3, row)));
    let cells = (0..cells).map(|row| cell(tables, row));
    let text: String = metas.chain(ios).chain(cells).collect();
    if text.is_empty() {
        return "\n".into();
    }
    text
}

/// A row of so many words, the first of which begins at `from`.
fn part(tables: &Tables, from: usize, words: usize, row: usize) -> &[u32] {
    &tables.rows[from + words * row..from + words * (row + 1)]
}

fn string(tables: &Tables, start: u32, size: u32) -> String {
    let bytes = &tables.strings[start as usize..(start + size) as usize];
    let shown = bytes.iter().map(|&byte| match byte {
        b'"' | b'\\' | 0..=0x1f | 0x7f..=0xff => format!("\\{byte:02x}"),
        _ => char::from(byte).to_string(),
    });
    format!("\"{}\"", shown.collect::<String>())
}

fn trits(tables: &Tables, from: usize, width: u32) -> String {
    tables.trits[from..from + width as usize].iter().map(|&trit| ['0', '1', 'X'][usize::from(trit)]).collect()
}

fn meta(tables: &Tables, row: &[u32]) -> String {
    let name = string(tables, row[1], row[2]);
    let what = match row[0] {
        1 => {
            let members = &tables.rows[8_195 + row[5] as usize..][..row[6] as usize];
            let members: Vec<String> = members.iter().map(|member| format!("!{}", member - 1)).collect();
            format!("{{{}}}", members.join(" "))
        }
        2 => format!("source {name} (#{} #{}) (#{} #{})", row[12], row[13], row[14], row[15]),
        3 => format!("scope {name}"),
        4 => format!("scope #{}", row[11] as i32),
        5 => format!("ident {name}"),
        6 => format!("attr {name} {}", trits(tables, row[7] as usize, row[8])),
        7 => format!("attr {name} #{}", row[11] as i32),
        8 => format!("attr {name} {}", string(tables, row[3], row[4])),
        kind => panic!("no metadata has the kind {kind}"),
    };
    what + &reference(" in=", row[9]) + &reference(" src=", row[10])
}

fn reference(before: &str, row: u32) -> String {
    match row {
        0 => String::new(),
        _ => format!("{before}!{}", row - 1),
    }
}

fn io(tables: &Tables, row: &[u32]) -> String {
    format!("&{}:{} = io\n", string(tables, row[0], row[1]), row[2])
}

fn cell(tables: &Tables, index: usize) -> String {
    let row = part(tables, 9_411, 9, index);
    let mut line = format!("%{}:{} = {}", number(tables, index), row[1], KEYWORDS[row[0] as usize - 1]);
    if row[3] > 0 {
        line = line + " " + &string(tables, row[2], row[3]);
    }
    let mut run = row[5] as usize;
    for &count in row[6..9].iter().filter(|count| **count > 0) {
        let runs: Vec<String> = (run..run + count as usize).map(|run| shown_run(tables, run)).collect();
        run += runs.len();
        line += &match &runs[..] {
            [one] => format!(" {one}"),
            _ => format!(" [{}]", runs.join(" ")),
        };
    }
    line + &reference(" ", row[4]) + "\n"
}

fn cell_width(tables: &Tables, index: usize) -> u32 {
    part(tables, 9_411, 9, index)[1]
}

/// The printed number of a cell: earlier cells take as many numbers as they are wide, and one at least.
fn number(tables: &Tables, index: usize) -> u32 {
    (0..index).map(|earlier| cell_width(tables, earlier).max(1)).sum()
}

fn shown_run(tables: &Tables, run: usize) -> String {
    let row = part(tables, 14_019, 3, run);
    let (at, width) = (row[1], row[2]);
    if row[0] == 0 {
        return trits(tables, 131_072 + at as usize, width);
    }
    let cell = row[0] as usize - 1;
    let offset = if width == cell_width(tables, cell) { String::new() } else { format!("+{at}") };
    let width = if width == 1 { String::new() } else { format!(":{width}") };
    format!("%{}{offset}{width}", number(tables, cell))
}
