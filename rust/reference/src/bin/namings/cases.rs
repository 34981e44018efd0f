//! Rows of worked texts, each with the name or the refusal that the documents give it, apart from any reader.

use reference::cases::Case;

pub fn all() -> Vec<Case> {
    let mut cases = listed(NAMES);
    cases.extend(listed(BYTES));
    cases.extend(listed(REFUSALS));
    cases.extend(listed(FULL));
    cases.extend(chains());
    cases
}

/// Cases one a line: `ROW |TEXT => ANSWER`.
fn listed(list: &str) -> Vec<Case> {
    let case = |line: &str| {
        let (line, answer) = line.split_once(" => ").unwrap_or_else(|| panic!("no case: {line}"));
        Case::new(line, answer)
    };
    list.lines().filter(|line| !line.is_empty()).map(case).collect()
}

const NAMES: &str = r##"
1 |!0 = scope "top"\n!1 = ident "clk" in=!0\n => top/clk
1 |!0 = scope #0\n!1 = ident "clk" in=!0\n => 0/clk
1 |!0 = scope #-0\n!1 = ident "a" in=!0\n => 0/a
1 |!0 = scope #007\n!1 = ident "a" in=!0\n => 7/a
1 |!0 = scope #10\n!1 = ident "a" in=!0\n => 10/a
1 |!0 = scope #-1\n!1 = ident "a" in=!0\n => -1/a
1 |!0 = scope #-10\n!1 = ident "a" in=!0\n => -10/a
1 |!0 = scope #1000000000\n!1 = ident "a" in=!0\n => 1000000000/a
1 |!0 = scope #2147483647\n!1 = ident "a" in=!0\n => 2147483647/a
1 |!0 = scope #-2147483647\n!1 = ident "a" in=!0\n => -2147483647/a
1 |!0 = scope #-2147483648\n!1 = ident "a" in=!0\n => -2147483648/a
2 |!0 = scope "top"\n!1 = scope "cpu" in=!0\n!2 = ident "pc" in=!1\n => top/cpu/pc
2 |!0 = scope "top"\n!1 = scope #-3 in=!0\n!2 = ident "pc" in=!1\n => top/-3/pc
2 |!0 = scope #0\n!1 = scope #0 in=!0\n!2 = ident "0" in=!1\n => 0/0/0
3 |!0 = scope "top"\n!1 = scope #3 in=!0\n!2 = scope "alu" in=!1\n!3 = ident "sum" in=!2\n => top/3/alu/sum
4 |!0 = scope #1\n!1 = scope "a" in=!0\n!2 = scope #-2 in=!1\n!3 = scope "b" in=!2\n!4 = ident "x" in=!3\n => 1/a/-2/b/x
4 |!0 = scope "a"\n!1 = scope "b" in=!0\n!2 = scope "a" in=!1\n!3 = scope "b" in=!2\n!4 = ident "a" in=!3\n => a/b/a/b/a
1 |!0 = scope "s"\n!1 = ident "x" in=!0\n!2 = ident "y" in=!0\n => s/x
2 |!0 = scope "s"\n!1 = ident "x" in=!0\n!2 = ident "y" in=!0\n => s/y
2 |!0 = scope "s"\n!1 = ident "x" in=!0\n!2 = ident "x" in=!0\n => s/x
2 |!0 = scope "a"\n!1 = scope "b"\n!2 = ident "x" in=!1\n => b/x
3 |!0 = scope "a"\n!1 = scope "b" in=!0\n!2 = scope #9 in=!0\n!3 = ident "x" in=!1\n!4 = ident "y" in=!2\n => a/b/x
4 |!0 = scope "a"\n!1 = scope "b" in=!0\n!2 = scope #9 in=!0\n!3 = ident "x" in=!1\n!4 = ident "y" in=!2\n => a/9/y
1 |!900 = scope "s"\n!7 = ident "x" in=!900\n => s/x
2 |%0:1 = input "i"\n!5 = attr "k" 1\n&"p":1 = io\n!6 = scope "s"\n%1:1 = buf %0 !6\n!7 = ident "x" in=!6\n => s/x
2 |!0 = source "f" (#1 #2) (#3 #4)\n!1 = scope "s" src=!0\n!2 = ident "x" in=!1\n => s/x
3 |!0 = source "f" (#1 #2) (#3 #4)\n!1 = scope "t"\n!2 = scope #4 in=!1 src=!0\n!3 = ident "x" in=!2\n => t/4/x
"##;

const BYTES: &str = r##"
1 |!0 = scope "a/b"\n!1 = ident "c/d" in=!0\n => a/b/c/d
1 |!0 = scope "/"\n!1 = ident "/" in=!0\n => ///
1 |!0 = scope "a b"\n!1 = ident "~ !" in=!0\n => a b/~ !
1 |!0 = scope "\\22"\n!1 = ident "\\22q\\22" in=!0\n => "/"q"
1 |!0 = scope "\\5c"\n!1 = ident "\\5c\\5cn" in=!0\n => \\/\\\\n
1 |!0 = scope "\\00"\n!1 = ident "\\ff" in=!0\n => \x00/\xff
1 |!0 = scope "\\ff\\00"\n!1 = ident "\\00\\00" in=!0\n => \xff\x00/\x00\x00
1 |!0 = scope "\\0a\\0d\\1f\\20"\n!1 = ident "\\7e\\7f\\80\\fe" in=!0\n => \x0a\x0d\x1f /~\x7f\x80\xfe
1 |!0 = scope "\\61\\2f"\n!1 = ident "\xc3\xa9" in=!0\n => a//\xc3\xa9
1 |!0 = scope "\\07\\07"\n!1 = ident "\\07" in=!0\n => \x07\x07/\x07
"##;

const REFUSALS: &str = r##"
0 |!0 = scope "top"\n!1 = ident "clk" in=!0\n => refused 16 at 0
0 |!0 = scope #5\n!1 = ident "clk" in=!0\n => refused 16 at 0
1 |!0 = scope #5\n!1 = scope "a" in=!0\n!2 = ident "clk" in=!1\n => refused 16 at 0
0 |!0 = source "f" (#1 #2) (#3 #4)\n => refused 16 at 0
2 |!0 = scope "a"\n!1 = ident "b" in=!0\n!2 = {!0 !1}\n => refused 16 at 0
0 |!0 = attr "a" 01X\n => refused 16 at 0
0 |!0 = attr "a" #5\n => refused 16 at 0
0 |!0 = attr "a" "b"\n => refused 16 at 0
2 |!0 = scope "top"\n!1 = ident "clk" in=!0\n => refused 16 at 0
511 |!0 = scope "top"\n!1 = ident "clk" in=!0\n => refused 16 at 0
512 |!0 = scope "top"\n!1 = ident "clk" in=!0\n => refused 16 at 0
4294967295 |!0 = scope "top"\n!1 = ident "clk" in=!0\n => refused 16 at 0
0 |\n => refused 16 at 0
511 |\n => refused 16 at 0
512 |\n => refused 16 at 0
4294967295 |\n => refused 16 at 0
0 |%0:1 = buf 1\n => refused 16 at 0
0 | => refused 4 at 0
0 |!0 = ident "x"\n => refused 7 at 14
1 |!0 = source "f" (#1 #2) (#3 #4)\n!1 = ident "x" in=!0\n => refused 10 at 50
"##;

/// All 512 rows in use.
const FULL: &str = r##"
1 |!600 = scope "s"\n\{511|!\# = ident "i\#" in=!600\n} => s/i0
510 |!600 = scope "s"\n\{511|!\# = ident "i\#" in=!600\n} => s/i509
511 |!600 = scope "s"\n\{511|!\# = ident "i\#" in=!600\n} => s/i510
512 |!600 = scope "s"\n\{511|!\# = ident "i\#" in=!600\n} => refused 16 at 0
"##;

/// A name or an index as the text says it, and as the full name has it.
type Own = (String, String);

fn indexed(index: i32) -> Own {
    (format!("#{index}"), index.to_string())
}

fn named(name: &str) -> Own {
    (format!("\"{name}\""), name.into())
}

fn long(letter: &str, size: usize) -> Own {
    (format!("\"\\{{{size}|{letter}}}\""), letter.repeat(size))
}

/// Scopes one inside the other, and an ident in the last: its line, and its full name.
fn chain(scopes: &[Own], ident: Own) -> (String, String) {
    let (mut text, mut answer) = (String::new(), String::new());
    for (row, (said, name)) in scopes.iter().enumerate() {
        let inside = if row == 0 { String::new() } else { format!(" in=!{}", row - 1) };
        text += &format!("!{row} = scope {said}{inside}\\n");
        answer += &format!("{name}/");
    }
    let row = scopes.len();
    let line = format!("{row} |{text}!{row} = ident {} in=!{}\\n", ident.0, row - 1);
    (line, answer + &ident.1)
}

fn chains() -> Vec<Case> {
    let numbered: Vec<Own> = (0..500).map(indexed).collect();
    let either = |row: i32| if row % 2 == 0 { named("n") } else { indexed(-row) };
    let mixed: Vec<Own> = (0..500).map(either).collect();
    // the longest of all names: 65 names fill the strings, and all other scopes have the longest index
    let mut longest = vec![long("n", 255); 64];
    longest.resize(511, indexed(i32::MIN));
    let longest = chain(&longest, long("x", 16_384 - 64 * 255));
    assert_eq!(longest.1.len(), 16_384 + 447 * 11 + 511);
    let chains = [chain(&numbered, named("x")), chain(&mixed, named("x")), longest];
    chains.into_iter().map(|(line, name)| Case::new(line, name)).collect()
}
