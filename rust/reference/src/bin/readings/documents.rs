//! Lines of the documents themselves: document 01's lines between yes and no, the examples of document 001, and the examples of
//! `docs/DECISIONS.md`.

use crate::case::{listed, Case};

pub fn cases() -> Vec<Case> {
    [LINES, REFERENCE, DECIDED, MORE].iter().copied().flat_map(listed).collect()
}

/// "Lines between yes and no" of document 01, as far as reading answers.
const LINES: &str = r##"
4 ^\{0|a}
ok \n
14 %0:4 = input "size"\n%4:0 = output "y" ^%0+2:3\n
ok %0:4 = input "size"\n%4:0 = output "y" %0+1:3\n
ok %0:4 = input "size"\n%4:0 = output "y" [%0+4:0 %0]\n
14 %0:4 = input "size"\n%4:0 = output "y" [^%0+5:0 %0]\n
ok %0:1 = buf %0\n
ok %0:1 = input "\\5c"\n
5 %0:1 = input ^"\\5C"\n
ok %0:256 = input "a"\n
12 ^%0:257 = input "a"\n
ok %0:1 = mux X 1 1\n
ok %0:1 = eq 1X 0X\n%1:1 = eq 1X 10\n
ok %0:1 = ult 0X 10\n%1:1 = slt 10 01\n
ok %0:2 = adc 0 X 0\n
ok %0:256 = input "a"\n\{15|%1\#:1 = eq %0:256 %0:256\n}%1:0 = output "y" %0:253\n
ok %0:256 = input "a"\n\{15|%1\#:1 = eq %0:256 %0:256\n}%1:0 = output "y" %0:254\n
ok %9:1 = input "a"\n%3:1 = input "b"\n%0:2 = adc %9 %3 0\n%7:0 = output "sum" [%0+1 %0+0]\n
ok %0:1 = input "a"\n%1:1 = input "b"\n%2:2 = adc %0 %1 0\n%4:0 = output "sum" %2:2\n
"##;

/// Examples of document 001, those that are declarations as they stand, the others in a declaration that could hold them.
const REFERENCE: &str = r##"
7 ^[]\n
7 ^[ <part>... ]\n
7 ^[ &"pin" &_ ]\n
ok %0:1 = input "meow"\n
11 ^%0:1 = input ""\n
ok %0:1 = input "this\\0ais a anewline"\n
ok %0:1 = input "\\22quoted\\22"\n
ok %0:1 = input "\\5cescaped"\n
ok !0 = scope #0\n!1 = scope #10\n!2 = scope #-1\n
ok %0:1 = buf 0\n%1:1 = buf 1\n%2:1 = buf X\n%3:3 = buf 100\n%4:4 = buf 1XX0\n%5:4 = buf XXXX\n
7 %0:1 = buf ^&"pin"\n
7 %0:1 = buf ^&"gpio":8\n
7 %0:1 = buf ^&"gpio"+3\n
7 %0:1 = buf ^&_\n
7 %0:1 = buf ^&_:16\n
7 %0:1 = buf [^&"gpio":1 &"gpio":0]\n
7 %0:1 = buf [ ^&"pin" &_ ]\n
ok %0:1 = buf %0\n%1:4 = buf %1:4\n%2:1 = buf %1+0\n%3:2 = buf %1+2:2\n
12 ^%0:0 = output "y" %2:0\n
8 ^%3:_ = buf 1\n
12 ^%0:1 = buf X*0\n
ok %0:4 = buf %0*4\n%1:24 = buf XXX*8\n
12 ^%0:1 = buf []\n
12 ^%0:1 = buf [ ]\n
ok %0:4 = buf [1001]\n%1:4 = buf [10 01]\n
ok %0:1 = buf 1\n%1:4 = buf X*4\n%2:8 = buf [ %0 %1:4 000 ]\n
ok %0:4 = buf [ XXXX ]\n%1:12 = buf [ %0*4 %0:4 0*4 ]\n
ok %5:3 = buf [ 10 %5 ]\n
ok %5:10 = buf %5:10\n%1:10 = buf %1*10\n
8 ^set target "siliconblue"\n
8 ^set target "siliconblue" "device"="ice40hx8k"\n
8 ^set target "siliconblue" "device"="ice40up5k" "dsp"="off"\n
10 !1 = ident "clk" in=^!0\n
ok !0 = scope "top"\n!1 = ident "clk" in=!0\n!2 = attr "keep" #1\n%0:1 = input "clk" !2\n
10 !10 = { ^!2 !3 }\n
ok !2 = scope #2\n!3 = scope #3\n!4 = scope #4\n!10 = { !2 !3 }\n!11 = { !2 !3 !4 }\n
ok !1 = source "/home/whitequark/design/top.py" (#20 #4) (#20 #10)\n
ok !0 = source "f" (#7 #0) (#7 #0)\n
ok !0 = source "f" (#7 #0) (#7 #0)\n!1 = source "g" (#7 #0) (#7 #0)\n!2 = source "h" (#7 #0) (#7 #0)\n!10 = scope "top"\n!11 = scope "cpu" in=!10\n!12 = scope "alu" in=!11 src=!0\n!13 = scope "io" src=!1\n!14 = scope #0 in=!13\n
9 !2 = source "h" (#7 #0) (#7 #0)\n!13 = scope "io"\n!14 = scope #0 in=!13\n^!14 = scope #1 in=!13 src=!2\n
ok !0 = attr "top" #1\n!1 = attr "PIN_TYPE" 110000\n!2 = attr "BEL" "X0/Y1"\n
ok &"clk":1 = io\n&"gpio":8 = io\n
5 ^%<cell-idx>:<width> = and <a> <b>\n
"##;

/// The examples of `docs/DECISIONS.md`, from point 1 on.
const DECIDED: &str = r##"
8 ^%0:_ = buf 1\n
8 %0:1 = buf ^%0:_\n
7 %0:1 = buf 1 ^%0:_\n
7 !0 = attr "a" ^%0:_\n
5 %0:1 = buf 1^2\n
5 %0:1 = buf %0:1^+2\n
5 %0:1 = buf %0*2^*3\n
8 %0:1 = ^inPut "a"\n
5 !0 = scope #1^.5\n
5 &"a":1^+2 = io\n
7 ^&"a"+1:2 = io\n
7 ^&_+3 = io\n
7 %0:1 = ^X2\n
8 ^%0:_* = buf 1\n
8 ^%0:_*65536 = buf 1\n
5 ^%0+1:_ = buf 1\n
6 ^%65536:_ = buf 1\n
7 %0:1 = buf [1\n^
7 %0:1 = buf [1 ; ]\n^
7 %0:1 = buf [1\n%1:1 ^= buf 0\n
7 %0:1 = buf [1^)\n
7 ^%0 = buf 1\n
7 ^%0+0:1 = buf 1\n
7 ^%0:1*1 = buf 1\n
7 ^&"a" = io\n
7 ^&_:4 = io\n
11 ^&"":1 = io\n
7 &"":1 = io ^1\n
7 ^&"" = io\n
7 %0:1 = buf ^&""\n
12 \n \t^%0:2 = buf 1\n
10 !0 = scope #0 in = ^!8 src=!9\n
10 !0 = {^!1 !2}\n
7 ^buf 1\n
7 ^settle\n
8 %0:1 = buf 1\n^set target "x"\n
8 %0:1 = ^io\n
8 !0 = ^input "a"\n
7 %0:1 = ^"buf" 1\n
7 !0 = scope "a" ^foo=!1\n
8 %0:1 = ^dff 1\n
5 ^%65536+ = buf 1\n
5 %0:1 = buf 1^"a"\n
5 %0:1 = buf 1^#99999999999\n
6 ^&"a"+65536 = io\n
6 ^%65536 = buf 1\n
5 %0:1 = input ^"a\n
5 %0:1 = input ^"a\r\n
ok %0:1 = input "a;b"\n
5 ^&"a\n
5 ^&"\\q":1 = io\n
7 !0 = ident "a"^\n
7 !0 = scope "s"\n!1 = ident "a" in=!0 ^src=!0\n
7 !0 = attr "a" ^X*4\n
7 !0 = attr "a" ^[1]\n
8 %0:1 = ^foo $\n
7 ^foo"\n
7 %0:1 = buf 1 ^1 $\n
8 ^set$\n
ok %0:1 = buf 1;c\n
ok %0:1=mux[1][0][X]\n
ok %0:2 = buf [1;c\n0]\n
7 %0:1 = buf[1]^%0\n
ok !1 = scope #0\n!0 = scope #0 in\t= !1\n
7 !1 = scope #0\n!0 = scope #0 in=^\n!1\n
7 %0:1 = buf  ^\r\n
7 %0:1 = buf ^;x\n
7 !0 = {!1^,!2}\n
7 %0:1 = buf [^[1]]\n
5 %0:1 = buf^X\n
5 %0:1 = ^Buf 1\n
7 %0:1 = buf ^x\n
7 ^Xbuf\n
12 ^%0:1 = buf [%0:65535*65535 %0:65535*65535]\n
14 %0:1 = buf [1 ^%0+65535:65535*0]\n
6 %0:1 = buf [1 ^%0:65536*0]\n
12 ^%0:0 = output "y" []\n
12 ^%0:0 = output "y" %9:0\n
12 ^%0:0 = output "y" X*0\n
ok !0 = source "f" (#-0 #-0) (#0 #0)\n
ok %0:1 = buf %00000000000000000000000+0:01*001\n
6 !0 = scope ^#-2147483649\n
12 ^&"a":0 = io\n
12 ^%0:65535 = input "a"\n
12 ^%0:257 = adc X*256 X*256 0\n
12 ^%0:2 = buf 1\n$\n
5 %0:2 = buf 1 ^$\n
9 %0:1 = buf %9\n^%0:1 = buf 1\n
14 %0:2 = buf [%0+1 ^%7:0*5 %00+0]\n
ok %0:1 = input "a"\n%1:0 = output "a" %0\n&"a":1 = io\n!0 = scope "a"\n!1 = scope "a"\n
9 &"a":1 = io\n^&"\\61":1 = io\n
9 %1:1 = buf 1\n^%01:1 = buf 1\n
ok !0 = scope #0\n!1 = {!0 !0}\n
11 !0 = scope #0\n^!1 = {!0}\n
11 ^!0 = {}\n
10 !1 = {^!0}\n
10 !0 = scope #0 in=^!0\n
10 %0:1 = buf 1 ^!0\n!0 = scope #0\n
ok %0:0 = output "y" [%0:0 1]\n
14 %0:0 = output "y" [1 ^%0+1:0]\n
14 %0:0 = output "y" 1\n%1:1 = buf ^%0\n
ok !0 = source "f" (#1 #9) (#2 #0)\n
11 ^!0 = source "f" (#1 #9) (#1 #8)\n
11 ^!0 = source "f" (#1 #-1) (#2 #0)\n
ok %0:1 = input "\\00"\n
ok !0 = attr "a" ""\n
11 ^!0 = attr "" "a"\n
3 ;^\xe2\x82\n
3 ;^\r\xff\n
3 \n^\r
3 ;^\xed\xa0\x80\n
4 $ ^
ok ;\x00\x01\x7f\x0b\n
5 ^\xef\xbb\xbf\n
ok  \t\n;x\r\n\r\n
5 ^\x0c\n
ok %0:1 = input "\xc2\x80"\n
5 %0:1 = input ^"\x7f"\n
10 !0 = scope #0\n!1 = {!0 !0}\n!2 = {!0 ^!1}\n
5 %0:1 = buf [0]^*1\n
5 !1^*2 = scope #0\n
5 %0:1 = buf %1 ^+ 0\n
5 !0 = scope ^#+1\n
5 ^%70000+ = buf 1\n
5 %0:1 = input^"a"\n
10 %0:1 = buf [0]^!1\n
5 !0 = scope "s"\n!1 = scope "a" in=!0^src=!0\n
ok !0 = source "f" (#1\n#2) (#3 #4)\n
7 !0 = source "f" (#1 #2)^\n(#3 #4)\n
9 %0:1 = buf 1\n^%0:2 = buf 1 !9\n
"##;

/// What the decided points say further: one text or more for each, where the point's own examples leave a side out.
const MORE: &str = r##"
8 %0:1 = buf [1 ^%0:_ 1]\n
8 %0:1 = buf [^%0:_\n
8 %0:1 = mux 1 0 ^%5:_\n
7 %0:1 = ^%0:_\n
7 %0:1 ^%0:_ = buf 1\n
7 !0 = ^%0:_\n
7 %0:1 = input ^%0:_\n
7 !0 = {^%0:_}\n
7 !0 = source "f" (^%0:_ #1) (#1 #1)\n
7 %0:1 = buf 1 !0 ^%0:_\n
8 \n\n;x\n ^%0:_ = buf 1\n
8 %0:1 = buf ^%0:__\n
8 %0:1 = buf ^%0:_1\n
8 %0:1 = buf ^%0:_:1\n
5 %0:1 = buf ^%0+:1\n
5 %0:1 = buf ^%0:\n
5 %0:1 = buf ^%0*\n
5 %0:1 = buf ^%\n
5 %0:1 = buf ^1*\n
5 %0:1 = buf ^%0+1:2*\n
5 %0:1 = buf %0+1^+2\n
5 %0:1 = buf %0*2^:3\n
5 %0:1 = buf 1*2^*3\n
5 %0:1 = buf 1^:2\n
5 %0:1 = buf 1^+2\n
5 %0:1 = buf X^a\n
5 %0:1 = buf 1X0^2\n
5 %0:1 = buf %0^X\n
5 %0:1 = buf %0^a\n
5 %0:1 = buf %0^%0\n
5 %0:1 = buf %0^!0\n
5 %0:1 = buf 1^!0\n
5 %0:1 = buf %0^"a"\n
5 %0:1 = buf^%0\n
5 %0:1 = buf^"1"\n
5 !0 = scope^#0\n
5 !0 = scope #0^"a"\n
5 !0 = scope #0^in=!0\n
5 !0 = attr "a"^#1\n
5 !0 = attr "a"^"b"\n
5 !0 = attr "a"^1\n
5 !0 = attr^"a" 1\n
5 !0 = {!0^!1}\n
5 !0 = source "f" (#1^#2) (#3 #4)\n
ok !0=source "f"(#1 #2)(#3 #4)\n
7 !0 = scope #0\n%0:1 = buf 1 !0 ^!0\n
7 %0:1 = input "a" ^"b"\n
7 %0:1 = input "a" ^1\n
7 %0:0 = output "a" 1 ^1\n
7 %0:0 = output ^1 1\n
7 %0:1 = buf ^"a"\n
7 %0:1 = and 1^\n
7 %0:1 = and 1 1 ^1\n
7 %0:1 = mux 1 1 ^!0\n
7 %0:1 = buf ^!0\n
7 %0:1 = buf 1 !0^=\n
7 &"a":1 = io ^!0\n
7 !0 = scope #0 ^!0\n
7 !0 = scope "a" ^"b"\n
7 !0 = scope "a" src=!0 ^in=!0\n
7 !0 = scope "a" src=!0 ^src=!0\n
7 !0 = scope "a" in=!0 ^in=!0\n
7 !0 = scope "a" in=^"b"\n
7 !0 = ident ^#0 in=!0\n
7 !0 = ident "a" ^src=!0\n
7 !0 = attr ^#1 #1\n
7 !0 = attr "a" #1 ^#1\n
7 !0 = attr "a"^\n
7 !0 = {!0 ^{!1}}\n
7 !0 = {^"a" !1}\n
7 !0 = {!0 !1} ^!2\n
7 !0 = ^[!0 !1]\n
7 !0 = source "f" ^[#1 #2] (#3 #4)\n
7 !0 = source "f" (^1 #2) (#3 #4)\n
7 ^=\n
7 ^"a"\n
7 ^#1\n
7 ^1\n
7 ^]\n
7 ^,\n
11 ^!0={\n}\n
"##;
