//! The full name of an ident, found from the numbers of `docs/LAYOUT.md` alone.

use super::Tables;
use crate::{refusal, Refusal};

const INDEXED: u32 = 4;
const IDENT: u32 = 5;

/// The full name of a row of tables that reading has made, "parent first, down to the named declaration, joined by `/`, indexed scopes
/// in decimal"; 16 where the row is no ident.
pub fn full_name(tables: &Tables, row: usize) -> Result<Vec<u8>, Refusal> {
    if row >= tables.rows[0] as usize || words(tables, row)[0] != IDENT {
        return Err(refusal(16, 0));
    }
    let mut names = vec![own_name(tables, row)];
    let mut inside = words(tables, row)[9] as usize;
    while inside > 0 {
        names.push(own_name(tables, inside - 1));
        inside = words(tables, inside - 1)[9] as usize;
    }
    names.reverse();
    Ok(names.join(&b'/'))
}

fn words(tables: &Tables, row: usize) -> &[u32] {
    &tables.rows[3 + 16 * row..19 + 16 * row]
}

fn own_name(tables: &Tables, row: usize) -> Vec<u8> {
    let words = words(tables, row);
    if words[0] == INDEXED {
        return (words[11] as i32).to_string().into_bytes();
    }
    tables.strings[words[1] as usize..][..words[2] as usize].to_vec()
}

#[cfg(test)]
mod tests {
    use super::*;
    use crate::read;

    #[test]
    fn names_go_from_the_outermost_scope_down() {
        let tables =
            read(b"!3 = scope \"a/b\"\n!2 = scope #-7 in=!3\n!1 = ident \"\\00\" in=!2\n!0 = ident \"c\" in=!3\n").unwrap();
        let expected: [Result<&[u8], u32>; 5] = [Err(16), Err(16), Ok(b"a/b/-7/\0"), Ok(b"a/b/c"), Err(16)];
        for (row, expected) in expected.into_iter().enumerate() {
            let told = full_name(&tables, row).map_err(|refusal| (refusal.number, refusal.place));
            assert_eq!(told, expected.map(<[u8]>::to_vec).map_err(|number| (number, 0)), "{row}");
        }
    }
}
