//! Texts in odd styles, each with its canonical twin: white space, numbers, operands, the order of declarations.

use crate::case::{listed, pair, Case};

pub fn cases() -> Vec<Case> {
    let mut cases: Vec<Case> =
        [DOCUMENTS, WHITE, NUMBERS, METADATA, ORDER, CELLS, REFUSED].iter().copied().flat_map(listed).collect();
    cases.extend(OPERANDS.lines().filter(|line| !line.is_empty()).flat_map(operand));
    cases.extend(cells_with_metadata());
    cases
}

/// Document 01's "Lines between yes and no" as far as they are printed, and the decided points on canonical text.
const DOCUMENTS: &str = r##"
%9:1 = input "a"\n%3:1 = input "b"\n%0:2 = adc %9 %3 0\n%7:0 = output "sum" [%0+1 %0+0]\n => %0:1 = input "a"\n%1:1 = input "b"\n%2:2 = adc %0 %1 0\n%4:0 = output "sum" %2:2\n
same \n
\n\n => \n
;\n => \n
 \t\n;x\r\n\r\n => \n
4 ^\{0|a}
14 %0:4 = input "size"\n%4:0 = output "y" ^%0+2:3\n
same %0:4 = input "size"\n%4:0 = output "y" %0+1:3\n
%0:4 = input "size"\n%4:0 = output "y" [%0+4:0 %0]\n => %0:4 = input "size"\n%4:0 = output "y" %0+0\n
14 %0:4 = input "size"\n%4:0 = output "y" [^%0+5:0 %0]\n
same %0:1 = buf %0\n
same %0:1 = input "\\5c"\n
5 %0:1 = input ^"\\5C"\n
same %0:256 = input "a"\n
12 ^%0:257 = input "a"\n
same %0:1 = mux X 1 1\n
%0:1 = eq 1X 0X\n%2:1 = eq 1X 10\n => %0:1 = eq 1X 0X\n%1:1 = eq 1X 10\n
same %0:1 = ult 0X 10\n%1:1 = slt 10 01\n
same %0:2 = adc 0 X 0\n
!0 = source "f" (#-0 #-0) (#0 #0)\n => !0 = source "f" (#0 #0) (#0 #0)\n
!2 = scope #0\n!10 = { !2 !2 }\n => !0 = scope #0\n!1 = {!0 !0}\n
"##;

/// White space, comments, line ends, brackets over lines.
const WHITE: &str = r##"
%0:1=input "a"\n => %0:1 = input "a"\n
  %0:1   =   input   "a"   \n => %0:1 = input "a"\n
\t%0:1\t=\tinput\t"a"\t\n => %0:1 = input "a"\n
 \t %0:1 \t = \t input \t "a" \t \n => %0:1 = input "a"\n
%0:1 = input "a"\r\n => %0:1 = input "a"\n
\r\n\r\n%0:1 = input "a"\r\n\r\n => %0:1 = input "a"\n
%0:1 = input "a";\n => %0:1 = input "a"\n
%0:1 = input "a" ; the clock\n; the end\n => %0:1 = input "a"\n
; top\n%0:1 = input "a"\n => %0:1 = input "a"\n
;%0:1 = input "b"\n%0:1 = input "a"\n => %0:1 = input "a"\n
;\xc3\xa9 \xf0\x9f\x8d\x8e\x00\x0b\x7f\r\n%0:1 = input "a"\n => %0:1 = input "a"\n
\n\n%0:1 = input "a"\n\n\n%1:1 = input "b"\n\n => %0:1 = input "a"\n%1:1 = input "b"\n
%0:1 = input "a;b" ; c\n => %0:1 = input "a;b"\n
%0:1 = input " a\xc2\xa0"\n => %0:1 = input " a\\c2\\a0"\n
%0:1=mux[1][0][X]\n => %0:1 = mux 1 0 X\n
%0:1 = mux [ 1 ] [\t0\t] [\nX\n]\n => %0:1 = mux 1 0 X\n
%0:2 = buf [1\n0]\n => %0:2 = buf 10\n
%0:2 = buf [1;c\n0]\n => %0:2 = buf 10\n
%0:2 = buf [\r\n1\r\n;]\r\n0;[\r\n]\r\n => %0:2 = buf 10\n
%0:3 = buf [\n\n%0\n\n1\n\n%0\n\n]\n => %0:3 = buf [%0+0 1 %0+0]\n
!0=scope #0\n => !0 = scope #0\n
!0 = scope #0\n!1 = scope #1 in = !0\n => !0 = scope #0\n!1 = scope #1 in=!0\n
!0 = scope #0\n!1 = scope #1 in\t=\t!0\n => !0 = scope #0\n!1 = scope #1 in=!0\n
!0=scope "a"\n!1=source "f"(#1 #2)(#3 #4)\n!2=scope "b" in=!0 src=!1\n => !0 = scope "a"\n!1 = source "f" (#1 #2) (#3 #4)\n!2 = scope "b" in=!0 src=!1\n
!0 = source "f" ( #1 #2 ) ( #3 #4 )\n => !0 = source "f" (#1 #2) (#3 #4)\n
!0 = source "f" (#1\n#2) (\n#3 #4;)\n)\n => !0 = source "f" (#1 #2) (#3 #4)\n
!0 = scope #0\n!1={!0 !0}\n => !0 = scope #0\n!1 = {!0 !0}\n
!0 = scope #0\n!1 = { !0  !0\t!0 }\n => !0 = scope #0\n!1 = {!0 !0 !0}\n
!0 = scope #0\n!1 = {\n  !0 ; first\n  !0 ; second\n}\n => !0 = scope #0\n!1 = {!0 !0}\n
&"a":1=io\n => &"a":1 = io\n
 &"a":1 \t=  io ;\n => &"a":1 = io\n
!0=scope #0\n%0:0=output "y"[1 0]!0\n => !0 = scope #0\n%0:0 = output "y" 10 !0\n
"##;

/// Numbers: leading zeros, sparse and reordered ones, widths summed, signs.
const NUMBERS: &str = r##"
%00:01 = input "a"\n => %0:1 = input "a"\n
%007:1 = input "a"\n%0008:1 = buf %7\n => %0:1 = input "a"\n%1:1 = buf %0\n
%65535:1 = buf %065535+00:01*001\n => %0:1 = buf %0\n
%5:3 = input "a"\n%0:0256 = buf [%5+02:01 %5:0002 X*000253]\n => %0:3 = input "a"\n%3:256 = buf [%0:3 \{253|X}]\n
!065535 = scope #00\n!9 = scope #-00\n!00 = scope #0010 in=!65535\n => !0 = scope #0\n!1 = scope #0\n!2 = scope #10 in=!0\n
!0 = scope #2147483647\n!1 = scope #-2147483648\n!2 = attr "a" #-0000000001\n => !0 = scope #2147483647\n!1 = scope #-2147483648\n!2 = attr "a" #-1\n
same !0 = scope #9\n!1 = scope #10\n!2 = scope #99\n!3 = scope #100\n!4 = scope #-9\n!5 = scope #-10\n!6 = scope #-99\n!7 = scope #-100\n
same !0 = attr "a" #999999999\n!1 = attr "a" #1000000000\n!2 = attr "a" #1999999999\n!3 = attr "a" #-999999999\n!4 = attr "a" #-1000000000\n!5 = attr "a" #-2147483647\n
same !0 = source "f" (#0 #0) (#0 #0)\n!1 = source "f" (#0 #2147483647) (#2147483647 #0)\n!2 = source "f" (#9 #10) (#99 #100)\n!3 = source "f" (#1000000000 #999999999) (#1000000000 #999999999)\n
&"a":0256 = io\n&"b":001 = io\n => &"a":256 = io\n&"b":1 = io\n
!3 = source "f" (#007 #01) (#0008 #00)\n => !0 = source "f" (#7 #1) (#8 #0)\n
%1:256 = input "a"\n%2:1 = input "b"\n%3:0 = output "x" %2\n%4:0 = output "y" %1:256\n%5:8 = buf %1+8:8\n%6:1 = buf %5+7\n => %0:256 = input "a"\n%256:1 = input "b"\n%257:0 = output "x" %256\n%258:0 = output "y" %0:256\n%259:8 = buf %0+8:8\n%267:1 = buf %259+7\n
%0:9 = input "a"\n%1:1 = input "b"\n%2:89 = input "c"\n%3:1 = input "d"\n%4:1 = buf %3\n%5:1 = buf %4\n => %0:9 = input "a"\n%9:1 = input "b"\n%10:89 = input "c"\n%99:1 = input "d"\n%100:1 = buf %99\n%101:1 = buf %100\n
%0:0 = output "a" 1\n%1:0 = output "b" 1\n%2:2 = buf 10\n%3:0 = output "c" 1\n%9:1 = buf X\n => %0:0 = output "a" 1\n%1:0 = output "b" 1\n%2:2 = buf 10\n%4:0 = output "c" 1\n%5:1 = buf X\n
"##;

/// Every kind of metadata, plain and with all that it may have.
const METADATA: &str = r##"
same !0 = scope "top"\n!1 = scope #-7\n!2 = source "a b.py" (#20 #4) (#20 #10)\n!3 = {!0 !1 !2}\n!4 = ident "clk" in=!1\n!5 = attr "keep" #1\n!6 = attr "PIN_TYPE" 110000\n!7 = attr "BEL" "X0/Y1"\n!8 = attr "empty" ""\n
same !0 = scope "a"\n!1 = scope "b" in=!0\n!2 = source "f" (#1 #2) (#3 #4)\n!3 = scope "c" src=!2\n!4 = scope "d" in=!3 src=!2\n!5 = scope #0 in=!4\n!6 = scope #1 src=!2\n!7 = scope #2 in=!6 src=!2\n!8 = ident "i" in=!7\n
same !0 = attr "a" 0\n!1 = attr "b" 1\n!2 = attr "c" X\n!3 = attr "d" 01X10\n!4 = attr "e" \{256|X}\n!5 = attr "f" 1\{254|0}X\n
!5 = scope #0\n!3 = scope #1\n!9 = {!3 !5 !3 !5}\n!2 = attr "a" 1\n!7 = {!2 !5}\n!4 = {!2 !2 !3}\n => !0 = scope #0\n!1 = scope #1\n!2 = {!1 !0 !1 !0}\n!3 = attr "a" 1\n!4 = {!3 !0}\n!5 = {!3 !3 !1}\n
!1 = source "f" (#0 #0) (#0 #0)\n!0 = scope "s" src=!1\n!8 = scope "t" in=!0 src=!1\n!4 = ident "u" in=!8\n!2 = {!1 !0 !8 !4}\n => !0 = source "f" (#0 #0) (#0 #0)\n!1 = scope "s" src=!0\n!2 = scope "t" in=!1 src=!0\n!3 = ident "u" in=!2\n!4 = {!0 !1 !2 !3}\n
same !0 = scope "a"\n!1 = scope "a"\n!2 = attr "a" "a"\n!3 = attr "a" "a"\n!4 = source "a" (#0 #0) (#0 #0)\n!5 = ident "a" in=!1\n!6 = ident "a" in=!1\n
same &"clk":1 = io\n&"gpio":8 = io\n&"bus":256 = io\n
&"\\63l\\6b":001 = io ;pad\r\n => &"clk":1 = io\n
"##;

/// Metadata, then I/O, then cells, whatever the order of the text.
const ORDER: &str = r##"
%0:1 = input "a"\n&"p":1 = io\n!0 = scope #0\n => !0 = scope #0\n&"p":1 = io\n%0:1 = input "a"\n
&"p":1 = io\n!0 = scope #0\n%0:1 = input "a" !0\n&"q":2 = io\n!1 = scope #1 in=!0\n%1:1 = buf %0 !1\n => !0 = scope #0\n!1 = scope #1 in=!0\n&"p":1 = io\n&"q":2 = io\n%0:1 = input "a" !0\n%1:1 = buf %0 !1\n
%1:1 = input "z"\n!8 = attr "k" "v"\n&"m":1 = io\n%0:1 = input "y"\n!7 = attr "l" 10X\n&"n":1 = io\n => !0 = attr "k" "v"\n!1 = attr "l" 10X\n&"m":1 = io\n&"n":1 = io\n%0:1 = input "z"\n%1:1 = input "y"\n
!9 = scope "s"\n!8 = scope "r"\n => !0 = scope "s"\n!1 = scope "r"\n
&"b":1 = io\n&"a":1 = io\n => &"b":1 = io\n&"a":1 = io\n
%0:0 = output "y" %1\n%1:1 = input "a"\n => %0:0 = output "y" %1\n%1:1 = input "a"\n
%0:0 = output "y" %9:2\n%9:2 = buf %3:2\n%3:2 = input "a"\n => %0:0 = output "y" %1:2\n%1:2 = buf %3:2\n%3:2 = input "a"\n
%3:2 = buf [%5 %4]\n%4:1 = input "b"\n%5:1 = input "a"\n => %0:2 = buf [%3 %2]\n%2:1 = input "b"\n%3:1 = input "a"\n
%2:1 = buf %1\n%1:1 = buf %0\n%0:1 = buf %2\n => %0:1 = buf %1\n%1:1 = buf %2\n%2:1 = buf %0\n
"##;

/// Every kind of cell, at widths 1, 2 and 256.
const CELLS: &str = r##"
same %0:1 = input "a"\n%1:0 = output "y" %0\n%2:1 = buf %0\n%3:1 = not %0\n%4:1 = and %0 %2\n%5:1 = or %0 %2\n%6:1 = xor %0 %2\n%7:1 = mux %0 %2 %3\n%8:2 = adc %0 %2 %3\n%10:1 = eq %0 %2\n%11:1 = ult %0 %2\n%12:1 = slt %0 %2\n
same %0:2 = input "a"\n%2:0 = output "y" %0:2\n%3:2 = buf %0:2\n%5:2 = not %0:2\n%7:2 = and %0:2 1X\n%9:2 = or 0X %0:2\n%11:2 = xor %0:2 %0:2\n%13:2 = mux %0+0 %0:2 10\n%15:3 = adc %0:2 01 %0+1\n%18:1 = eq %0:2 11\n%19:1 = ult 00 %0:2\n%20:1 = slt XX %0:2\n
same %0:256 = input "a"\n%256:0 = output "y" %0:256\n%257:256 = buf %0:256\n%513:256 = not %0:256\n%769:256 = and %0:256 %257:256\n%1025:256 = or %0:256 %257:256\n%1281:256 = xor %0:256 %257:256\n%1537:256 = mux %0+255 %0:256 %257:256\n%1793:256 = adc %0+1:255 %0+0:255 %0+255\n%2049:1 = eq %0:256 %257:256\n%2050:1 = ult %0:256 %257:256\n%2051:1 = slt %0:256 %257:256\n
same %0:256 = buf \{256|1}\n%256:1 = mux X 0 1\n%257:1 = eq \{256|0} \{256|X}\n%258:256 = adc \{255|1} \{255|0} X\n
%1:1 = mux [%2] [%2+0] [%2+0:1]\n%2:1 = mux 1*1 0 [1]\n => %0:1 = mux %1 %1 %1\n%1:1 = mux 1 0 1\n
%0:1 = input "a"\n%1:0 = output "a" %0\n&"a":1 = io\n!0 = scope "a"\n => !0 = scope "a"\n&"a":1 = io\n%0:1 = input "a"\n%1:0 = output "a" %0\n
"##;

/// Texts that a printer never sees.
const REFUSED: &str = r##"
10 %0:1 = input "a" ^!0\n!0 = scope #0\n
5 ^&"a\\FF":1 = io\n
5 %0:1 = input ^"\\0A"\n
7 %0:1 = buf [^[1]]\n
12 ^%0:0 = output "y" []\n
9 %0:1 = buf 1\n^%00:1 = buf 0\n
14 %0:1 = buf ^%1\n
"##;

/// Operands of an output over cells of 8, 8 and 1 bits, and how they are printed.
const OPERANDS: &str = r##"
%0:8 => %0:8
%0+0:8 => %0:8
[%0:8] => %0:8
[ %0+4:4 %0:4 ] => %0:8
[%0+7 %0+6 %0+5 %0+4 %0+3 %0+2 %0+1 %0] => %0:8
[%0+7 %0+6:1*1 %0+4:2 %0+3*1 %0:3*1] => %0:8
%0 => %0+0
%0+0 => %0+0
%0:1 => %0+0
%0+7 => %0+7
%0+7:1 => %0+7
%0+0:2 => %0+0:2
%0:7 => %0+0:7
%0+1:7 => %0+1:7
[%0+1 %0] => %0+0:2
[%0 %0+1] => [%0+0 %0+1]
[%0 %0] => [%0+0 %0+0]
%0*3 => [%0+0 %0+0 %0+0]
%0:8*2 => [%0:8 %0:8]
%0+2:2*2 => [%0+2:2 %0+2:2]
[%0:8 %8:8] => [%0:8 %8:8]
[%8:8 %0:8] => [%8:8 %0:8]
[%8 %0+7] => [%8+0 %0+7]
[%0 %8+7] => [%0+0 %8+7]
[%8+1 %0] => [%8+1 %0+0]
%16 => %16
%16:1 => %16
%16+0 => %16
%16+0:1 => %16
%16*1 => %16
%16*2 => [%16 %16]
[%16 %0:8 %16] => [%16 %0:8 %16]
[%0:0 %16 %8+8:0] => %16
[%0+6:2*0 %16] => %16
[%0+1 %8:0 %0] => %0+0:2
[%0+1 %8*0 %0] => %0+0:2
[%0+1 X*0 %0] => %0+0:2
[%0+1 1 %0] => [%0+1 1 %0+0]
1 => 1
[1] => 1
1*1 => 1
1*4 => 1111
10*3 => 101010
X*8 => XXXXXXXX
[1 0 X] => 10X
[1*2 0*2 X] => 1100X
[1 %0:0 0] => 10
[1 0*0 X] => 1X
[1 1 %0 0 0] => [11 %0+0 00]
[10 %16 X 01 %16] => [10 %16 X01 %16]
[%17:0 1] => 1
[%17:0*9 %16 %17+0:0] => %16
1*256 => \{256|1}
[1*255 0] => \{255|1}0
[0*128 1*64 X*64] => \{128|0}\{64|1}\{64|X}
%0:8*32 => [\{31|%0:8 }%0:8]
%16*256 => [\{255|%16 }%16]
"##;

/// A case of `OPERANDS`: `OPERAND => RUNS`.
fn operand(line: &str) -> Vec<Case> {
    let (odd, twin) = line.split_once(" => ").unwrap_or_else(|| panic!("no case: {line}"));
    let with = |operand: &str| {
        format!("%0:8 = input \"a\"\\n%8:8 = input \"b\"\\n%16:1 = input \"c\"\\n%17:0 = output \"y\" {operand}\\n")
    };
    pair(with(odd), with(twin))
}

/// Each kind of cell with each kind of metadata, the metadata written behind other declarations.
fn cells_with_metadata() -> Vec<Case> {
    let metas = [
        "{!0 !1}",
        "source \"g\" (#1 #2) (#3 #4)",
        "scope \"s\"",
        "scope #8",
        "ident \"i\" in=!0",
        "attr \"a\" 1X0",
        "attr \"a\" #-1",
        "attr \"a\" \"v\"",
    ];
    let cells = [
        (1, "input \"i\""),
        (0, "output \"o\" 1X"),
        (1, "buf 1"),
        (1, "not X"),
        (1, "and 1 0"),
        (1, "or 1 0"),
        (1, "xor 1 0"),
        (2, "mux 1 10 X0"),
        (2, "adc 1 0 X"),
        (1, "eq 10 X0"),
        (1, "ult 10 X0"),
        (1, "slt 10 X0"),
    ];
    let mut cases = Vec::new();
    for meta in metas {
        let (mut odd, mut twin) = (String::new(), String::new());
        let mut number = 0;
        for (row, (width, cell)) in cells.iter().enumerate() {
            odd += &format!("%{}:{width} = {cell} !77\\n", 90 - row);
            twin += &format!("%{number}:{width} = {cell} !2\\n");
            number += (*width).max(1);
        }
        let first = "!0 = scope \"p\"\\n!1 = source \"f\" (#0 #0) (#0 #0)\\n";
        cases.extend(pair(format!("{first}!77 = {meta}\\n{odd}"), format!("{first}!2 = {meta}\\n{twin}")));
    }
    cases
}
