//! Room's limits, each one below, at and one above, and the ranges of numbers.

use crate::case::{accepted, listed, refused, Case};

pub fn cases() -> Vec<Case> {
    let mut cases = listed(LENGTHS);
    cases.extend(listed(COUNTS));
    cases.extend(listed(BITS));
    cases.extend(listed(RUNS));
    cases.extend(listed(NUMBERS));
    cases.extend(listed(MEETING));
    cases.extend(string_lengths());
    cases.extend(strings_in_all());
    cases.extend(much());
    cases
}

/// "Text 65,536 bytes".
const LENGTHS: &str = r##"
ok \{65535|\n}
ok \{65536|\n}
2 \{65536|\n}^\n
2 \{65536|\n}^\{4464|\n}
ok ;\{65533|c}\n
ok ;\{65534|c}\n
2 ;\{65535|c}^\n
2 \{65536|\xff}^\xff
3 ^\{65536|\xff}
2 \{65536|a}^aaaa
4 \{65536|a}^
4 \{65535|;}^
4 \{65536|;}^
2 \{65536|;}^;
2 \{65536|$}^\n
2 \{65535|\n}\r^\n
ok \{65534|\n}\r\n
3 \{65535|\n}^\r
ok \{65535| }\n
5 ^\{65535|$}\n
7 ^\{65535|a}\n
7 %0:1 = buf [\{65523|1}\n^
7 %0:1 = buf [\{32761|1 }\n^
ok %0:1 = input "a"\n\{65519|\n}
2 %0:1 = input "a"\n\{65519|\n}^\n
ok \{65519|\n}%0:1 = input "a"\n
2 \{65520|\n}%0:1 = input "a"^\n
ok %0:1 = buf %\{65520|0}0:1\n
ok %0:1 = buf [\{9360|%0:0*0 }1]\n
12 ^%0:1 = buf \{65524|1}\n
12 ^%0:1 = buf [\{32761|1 }]\n
12 ^%0:1 = buf [\{16380|%0 \n}]\n
13 ^%0:1 = input "\{65520|s}"\n
13 ^!0 = attr "a" "\{65518|s}"\n
12 ^!0 = attr "a" \{65520|X}\n
"##;

/// Rows and set members.
const COUNTS: &str = r##"
ok \{511|!\# = scope #\#\n}
ok \{512|!\# = scope #\#\n}
13 \{512|!\# = scope #\#\n}^!512 = scope #512\n
13 \{512|!\# = scope #\#\n}^!512 = scope "s"\n
13 \{512|!\# = scope #\#\n}^!512 = {!0 !1}\n
13 \{512|!\# = scope #\#\n}^!512 = source "f" (#0 #0) (#0 #0)\n
13 \{512|!\# = scope #\#\n}^!512 = ident "i" in=!511\n
13 \{512|!\# = scope #\#\n}^!512 = attr "a" 1\n
13 \{512|!\# = scope #\#\n}^!512 = attr "a" #1\n
13 \{512|!\# = scope #\#\n}^!512 = attr "a" ""\n
9 \{512|!\# = scope #\#\n}^!511 = scope #512\n
10 \{512|!\# = scope #\#\n}!512 = scope #512 in=^!512\n
11 \{512|!\# = scope #\#\n}^!512 = scope ""\n
11 \{512|!\# = scope #\#\n}^!512 = {!0}\n
12 \{512|!\# = scope #\#\n}^!512 = attr "a" \{257|1}\n
7 \{512|!\# = scope #\#\n}!512 = scope #512 ^1\n
ok \{512|!\# = scope #\#\n}%0:1 = buf 1 !511\n&"p":1 = io\n
10 \{512|!\# = scope #\#\n}%0:1 = buf 1 ^!512\n
ok \{512|!\# = scope "s"\n}
ok \{512|!\# = source "f" (#\# #0) (#\# #9)\n}
ok !9999 = scope #0\n\{511|!\# = ident "\#" in=!9999\n}
13 !9999 = scope #0\n\{511|!\# = ident "\#" in=!9999\n}^!9998 = ident "i" in=!9999\n
ok \{512|!\# = attr "a\#" 10X\n}
ok \{512|!\# = attr "a\#" #-\#\n}
ok \{512|!\# = attr "a\#" "\#"\n}
13 \{512|!\# = attr "a\#" "\#"\n}^!999 = attr "a" "b"\n
ok !0 = scope #0\n\{511|!1\# = scope #\# in=!0\n}
ok \{63|&"\#":1 = io\n}
ok \{64|&"\#":1 = io\n}
13 \{64|&"\#":1 = io\n}^&"a":1 = io\n
9 \{64|&"\#":1 = io\n}^&"63":1 = io\n
11 \{64|&"\#":1 = io\n}^&"":1 = io\n
12 \{64|&"\#":1 = io\n}^&"a":0 = io\n
12 \{64|&"\#":1 = io\n}^&"a":257 = io\n
8 \{64|&"\#":1 = io\n}&"a":1 = ^pad\n
ok \{64|&"\#":256 = io\n}
ok \{64|&"\#":256 = io\n}\{16|%\#:256 = input "\#"\n}
ok \{511|%\#:1 = input "\#"\n}
ok \{512|%\#:1 = input "\#"\n}
13 \{512|%\#:1 = input "\#"\n}^%512:1 = input "a"\n
13 \{512|%\#:1 = input "\#"\n}^%512:0 = output "a" %0\n
13 \{512|%\#:1 = input "\#"\n}^%512:1 = buf %0\n
9 \{512|%\#:1 = input "\#"\n}^%0:1 = buf %0\n
9 \{512|%\#:1 = input "\#"\n}^%512:1 = input "511"\n
10 \{512|%\#:1 = input "\#"\n}%512:1 = buf %0 ^!0\n
11 \{512|%\#:1 = input "\#"\n}^%512:1 = input ""\n
12 \{512|%\#:1 = input "\#"\n}^%512:1 = buf 11\n
13 \{512|%\#:1 = input "\#"\n}^%512:1 = buf %600\n
ok \{512|%\#:0 = output "\#" 1\n}
13 \{512|%\#:0 = output "\#" 1\n}^%512:0 = output "a" 1\n
ok \{512|%\#:1 = buf %\#\n}
ok \{511|%\#:1 = buf %511\n}%511:1 = input "a"\n
14 %0:1 = buf ^%513\n\{511|%1\#:1 = buf %513\n}
ok \{512|%\#:1 = not 1\n}\{512|!\# = scope #0\n}\{64|&"\#":1 = io\n}
ok !0 = scope #0\n!1 = {\{1023|!0 }}\n
ok !0 = scope #0\n!1 = {\{1024|!0 }}\n
13 !0 = scope #0\n^!1 = {\{1025|!0 }}\n
13 !0 = scope #0\n^!1 = {\{9999|!0 }}\n
10 !0 = scope #0\n!1 = {\{1025|!0 }^!1}\n
9 !0 = scope #0\n^!0 = {\{1025|!0 }}\n
7 !0 = scope #0\n!1 = {\{1025|!0 }^]\n
ok !0 = scope #0\n!1 = {\{1000|!0 }}\n!2 = {\{24|!0 }}\n
13 !0 = scope #0\n!1 = {\{1000|!0 }}\n^!2 = {\{25|!0 }}\n
13 !0 = scope #0\n!1 = {\{1024|!0 }}\n^!2 = {!0 !0}\n
11 !0 = scope #0\n!1 = {\{1024|!0 }}\n^!2 = {!0}\n
ok !0 = scope #0\n!1 = {\{1024|!0 }}\n!2 = scope #1\n
ok !0 = scope #0\n\{510|!1\# = {!0 !0\x7d\n}!1 = {!0 !0 !0 !0}\n
13 !0 = scope #0\n\{510|!1\# = {!0 !0\x7d\n}^!1 = {!0 !0 !0 !0 !0}\n
13 !0 = scope #0\n\{511|!1\# = {!0 !0\x7d\n}^!1 = {!0 !0 !0}\n
"##;

/// "4,096 declared cell bits; 4,096 output bits".
const BITS: &str = r##"
ok \{16|%\#:256 = input "\#"\n}
13 \{16|%\#:256 = input "\#"\n}^%16:1 = input "a"\n
13 \{16|%\#:256 = input "\#"\n}^%16:1 = buf %0\n
13 \{16|%\#:256 = input "\#"\n}^%16:256 = not %0:256\n
ok \{16|%\#:256 = input "\#"\n}%16:0 = output "y" %0:256\n
ok \{15|%\#:256 = buf X*256\n}%15:255 = buf X*255\n
ok \{15|%\#:256 = buf X*256\n}%15:255 = buf X*255\n%16:1 = buf 1\n
13 \{15|%\#:256 = buf X*256\n}%15:255 = buf X*255\n^%16:2 = buf 11\n
13 \{15|%\#:256 = buf X*256\n}%15:255 = buf X*255\n%16:1 = buf 1\n^%17:1 = buf 0\n
12 \{16|%\#:256 = buf X*256\n}^%16:0 = buf 0\n
12 \{16|%\#:256 = buf X*256\n}^%16:257 = buf X*257\n
6 \{16|%\#:256 = buf X*256\n}^%16:65536 = buf 0\n
ok \{512|%\#:8 = buf X*8\n}
13 \{512|%\#:8 = buf X*8\n}^%512:1 = buf 1\n
13 \{512|%\#:8 = buf X*8\n}^%512:0 = output "y" 1\n
13 \{500|%\#:8 = buf X*8\n}^%500:97 = buf X*97\n
ok \{500|%\#:8 = buf X*8\n}%500:96 = buf X*96\n
ok \{31|%\#:129 = adc 1*128 X*128 0\n}%31:97 = adc 1*96 X*96 0\n
13 \{31|%\#:129 = adc 1*128 X*128 0\n}^%31:98 = adc 1*97 X*97 0\n
ok \{16|%\#:0 = output "\#" X*256\n}
13 \{16|%\#:0 = output "\#" X*256\n}^%16:0 = output "a" 1\n
ok \{16|%\#:0 = output "\#" X*256\n}%16:1 = buf 1\n
ok \{15|%\#:0 = output "\#" X*256\n}%15:0 = output "a" X*255\n
ok \{15|%\#:0 = output "\#" X*256\n}%15:0 = output "a" X*255\n%16:0 = output "b" X\n
13 \{15|%\#:0 = output "\#" X*256\n}%15:0 = output "a" X*255\n^%16:0 = output "b" XX\n
12 \{16|%\#:0 = output "\#" X*256\n}^%16:0 = output "a" X*257\n
12 \{16|%\#:0 = output "\#" X*256\n}^%16:0 = output "a" []\n
12 \{16|%\#:0 = output "\#" X*256\n}^%16:1 = output "a" 1\n
9 \{16|%\#:0 = output "\#" X*256\n}^%16:0 = output "15" 1\n
ok \{16|%\#:256 = input "\#"\n}\{16|%1\#00:0 = output "\#" %\#:256\n}
13 \{16|%\#:256 = input "\#"\n}\{16|%1\#00:0 = output "\#" %\#:256\n}^%99:1 = buf 1\n
13 \{16|%\#:256 = input "\#"\n}\{16|%1\#00:0 = output "\#" %\#:256\n}^%99:0 = output "y" 1\n
ok \{512|%\#:0 = output "\#" X*8\n}
13 \{511|%\#:0 = output "\#" X*8\n}^%511:0 = output "a" X*9\n
"##;

/// "4,096 runs (below) over all operands", counted as longest runs over the author's numbers.
const RUNS: &str = r##"
ok \{8|%\#:1 = eq %0*256 %0*256\n}
13 \{8|%\#:1 = eq %0*256 %0*256\n}^%8:1 = buf %0\n
13 \{8|%\#:1 = eq %0*256 %0*256\n}^%8:1 = buf 1\n
ok \{8|%\#:1 = eq %0*256 %0*256\n}%8:1 = input "a"\n
ok \{16|%\#:1 = eq %0*128 %0*128\n}
13 \{16|%\#:1 = eq %0*128 %0*128\n}^%16:1 = eq %0*128 %0*128\n
ok \{7|%\#:1 = eq %0*256 %0*256\n}%7:1 = eq %0*255 %0*255\n%8:1 = buf %0\n
ok \{7|%\#:1 = eq %0*256 %0*256\n}%7:1 = eq %0*255 %0*255\n%8:1 = buf %0\n%9:1 = buf %0\n
13 \{7|%\#:1 = eq %0*256 %0*256\n}%7:1 = eq %0*255 %0*255\n%8:1 = buf %0\n^%9:1 = eq %0 %0\n
ok \{7|%\#:1 = eq %0*256 %0*256\n}%7:1 = eq %0*255 %0*255\n%8:1 = buf %0\n%9:2 = buf [%9+1 %9+0]\n
ok \{7|%\#:1 = eq %0*256 %0*256\n}%7:1 = eq %0*255 %0*255\n%8:1 = buf %0\n%9:2 = buf [%9+1 %9+2:0*9 %9]\n
13 \{7|%\#:1 = eq %0*256 %0*256\n}%7:1 = eq %0*255 %0*255\n%8:1 = buf %0\n^%9:2 = buf [%9 %9+1]\n
13 \{7|%\#:1 = eq %0*256 %0*256\n}%7:1 = eq %0*255 %0*255\n%8:1 = buf %0\n^%9:2 = buf [%9+1 1]\n
ok \{7|%\#:1 = eq %0*256 %0*256\n}%7:1 = eq %0*255 %0*255\n%8:1 = buf %0\n%9:9 = buf [1 X*3 0XX 11]\n
13 \{7|%\#:1 = eq %0*256 %0*256\n}%7:1 = eq %0*255 %0*255\n%8:1 = buf %0\n^%9:9 = buf [1 X*3 %0 XX 11]\n
13 \{8|%\#:1 = eq %99*256 %99*256\n}^%8:1 = buf %99\n
14 %0:1 = eq ^%99*256 %99*256\n\{7|%1\#:1 = eq %99*256 %99*256\n}
13 %0:1 = buf %99\n\{7|%1\#:1 = eq %99*256 %99*256\n}^%5:1 = eq %99*256 %99*256\n
12 \{8|%\#:1 = eq %0*256 %0*256\n}^%8:1 = buf %0*257\n
9 \{8|%\#:1 = eq %0*256 %0*256\n}^%7:1 = buf %0\n
ok \{4|%\#:1 = eq %0*256 %0*256\n}\{4|%1\#:0 = output "\#" %0*256\n}\{4|%2\#:256 = not %1*256\n}
ok \{512|%\#:1 = eq [%0*2 1 %0] [0 %0*3]\n}
ok \{512|%\#:1 = eq [%0 1 %0 0] [%0 1 %0 0]\n}
13 \{511|%\#:1 = eq [%0 1 %0 0] [%0 1 %0 0]\n}^%511:1 = eq [%0 1 %0 0 %0] [%0 1 %0 0 %0]\n
ok \{512|%\#:1 = eq [%0 1 %0 00] [%0 1 %0 0X]\n}
ok \{512|%\#:1 = mux %0 %0 %0\n}
ok %9999:255 = input "a"\n\{511|%\#:1 = eq [%9999+254 %9999:255] [%9999:255 0]\n}
12 ^%0:1 = eq [%9999+255 %9999:256] [%9999:256 0]\n
ok %0:256 = buf [\{128|%0 %1 }]\n%1:256 = buf [\{128|%1 %0 }]\n
"##;

/// "Indices, offsets, widths, counts: at most 65,535"; `#` numbers.
const NUMBERS: &str = r##"
ok %65535:1 = buf %65535\n
6 ^%65536:1 = buf 1\n
6 %0:1 = buf ^%65536\n
14 %0:1 = buf ^%65535\n
6 ^%99999999999999999999999999999999999999:1 = buf 1\n
6 ^%4294967296:1 = buf 1\n
6 ^%18446744073709551616:1 = buf 1\n
ok %0000000000000000000065535:0001 = buf 1\n
ok !65535 = scope #0\n%0:1 = buf 1 !65535\n
6 ^!65536 = scope #0\n
6 ^!4294967296 = scope #0\n
6 %0:1 = buf 1 ^!65536\n
10 %0:1 = buf 1 ^!65535\n
6 !0 = {^!65536 !65536}\n
6 !0 = scope #0 in=^!65536\n
6 !0 = scope #0 src=^!65536\n
12 ^&"a":65535 = io\n
6 ^&"a":65536 = io\n
ok &"a":0000000000000000000256 = io\n
12 ^%0:65535 = buf 1\n
6 ^%0:65536 = buf 1\n
14 %0:1 = buf ^%0+65535\n
6 %0:1 = buf ^%0+65536\n
14 %0:1 = buf [1 ^%0+65535:65535*0]\n
14 %0:1 = buf [1 ^%0+1:65535*0]\n
14 %0:1 = buf [1 ^%0:65535*0]\n
6 %0:1 = buf [1 ^%0:65536*0]\n
12 ^%0:1 = buf %0*65535\n
6 %0:1 = buf ^%0*65536\n
12 ^%0:1 = buf 1*65535\n
6 %0:1 = buf ^1*65536\n
ok %0:1 = buf [1 %0:0*65535]\n
6 %0:1 = buf [1 ^%0:0*65536]\n
12 ^%0:1 = buf [%0:65535*65535 %0:65535*65535]\n
12 ^%0:1 = buf [%0:65535*65535 %0:2*65535 %0]\n
12 ^%0:256 = buf [%0:256*65535 %0:256]\n
12 ^%0:1 = buf %0:32768*2\n
12 ^%0:1 = buf X*257\n
12 ^%0:1 = buf [X*65535 XX]\n
12 ^%0:256 = buf [%0:256*256 %0:256]\n
12 ^%0:256 = buf \{257|1}*256\n
12 ^%0:1 = buf [%0:65535*65535 %0:65535*2 %0 1]\n
12 ^%0:256 = buf [\{256|%0:256*65535 }%0:256*256 %0:256]\n
12 ^%0:1 = eq [%0*65535 %0*2] [%0*65535 %0*2]\n
12 ^%0:0 = output "y" [X*65535 XX]\n
12 ^%0:2 = adc [X*65535 XX] 1 1\n
14 %0:1 = buf [1 ^%0+65535:2*0]\n
14 %0:1 = buf [1 ^%0+65535:1*0]\n
14 %0:1 = buf [1 ^%0+65535:0]\n
12 ^%0:1 = buf [%0:65535 %0:1 1]\n
12 ^%0:1 = buf [%0:65535*32768 %0:32768*65535 1]\n
ok !0 = scope #2147483647\n!1 = scope #-2147483648\n
6 !0 = scope ^#2147483648\n
6 !0 = scope ^#-2147483649\n
6 !0 = attr "a" ^#4294967296\n
6 !0 = attr "a" ^#-4294967296\n
6 !0 = attr "a" ^#18446744073709551616\n
6 !0 = attr "a" ^#-18446744073709551617\n
ok !0 = attr "a" #0000000000000002147483647\n!1 = attr "b" #-0000000000000002147483648\n
ok !0 = attr "a" #-1\n!1 = attr "b" #-0\n!2 = attr "c" #00\n
ok !0 = source "f" (#2147483647 #2147483647) (#2147483647 #2147483647)\n
6 !0 = source "f" (#0 #0) (^#2147483648 #0)\n
11 ^!0 = source "f" (#0 #0) (#0 #-2147483648)\n
"##;

/// Where two limits meet, the first declaration that passes one is told.
const MEETING: &str = r##"
13 \{512|%\#:8 = buf X*8\n}^%512:8 = buf X*8\n!0 = scope "\{256|s}"\n
13 \{512|%\#:8 = buf X*8\n}^!0 = scope "\{256|s}"\n%512:8 = buf X*8\n
13 \{512|!\# = scope #0\n}^!512 = scope "\{256|s}"\n
13 \{64|&"\#":1 = io\n}^&"\{256|s}":1 = io\n
13 \{64|&"\#":1 = io\n}\{512|%\#:1 = buf 1\n}^%512:1 = buf 1\n&"a":1 = io\n
13 \{64|&"\#":1 = io\n}\{512|%\#:1 = buf 1\n}^&"a":1 = io\n%512:1 = buf 1\n
13 \{16|%\#:256 = input "\#"\n}^%1000:1 = eq 1*256 1*256\n
12 \{16|%\#:256 = input "\#"\n}^%1000:1 = eq 1*257 1*257\n
13 \{512|!\# = scope #0\n}\{512|%\#:1 = buf 1\n}^!512 = scope #0\n%512:1 = buf 1\n
13 \{512|!\# = scope #0\n}\{512|%\#:1 = buf 1\n}^%512:1 = buf 1\n!512 = scope #0\n
13 \{16|%\#:0 = output "\#" X*256\n}\{16|%1\#00:256 = buf X*256\n}^%99:0 = output "a" 1\n%98:1 = buf 1\n
13 \{16|%\#:0 = output "\#" X*256\n}\{16|%1\#00:256 = buf X*256\n}^%98:1 = buf 1\n%99:0 = output "a" 1\n
13 \{16|%\#:0 = output "\#" %99*256\n}^%98:0 = output "a" %99\n
14 %0:0 = output "a" ^%99*256\n\{15|%1\#:0 = output "\#" %99*256\n}
"##;

/// "strings of 255 decoded bytes": each declaration that holds one, with 254, 255, 256 and 257 bytes, raw and escaped.
fn string_lengths() -> Vec<Case> {
    let holders = [
        "^!1 = scope \"S\"\\n",
        "^!1 = scope \"S\" in=!0\\n",
        "^!1 = ident \"S\" in=!0\\n",
        "^!1 = source \"S\" (#0 #0) (#0 #0)\\n",
        "^!1 = attr \"S\" 1\\n",
        "^!1 = attr \"S\" #1\\n",
        "^!1 = attr \"S\" \"\"\\n",
        "^!1 = attr \"a\" \"S\"\\n",
        "^&\"S\":1 = io\\n",
        "^%0:1 = input \"S\"\\n",
        "^%0:0 = output \"S\" 1\\n",
    ];
    let mut cases = Vec::new();
    for holder in holders {
        let with = |string: &str| format!("!0 = scope #0\\n{}", holder.replace('S', string));
        for string in ["\\{254|s}", "\\{255|s}", "\\{254|s}\\\\ff", "\\{255|\\\\00}"] {
            cases.push(accepted(with(string).replace('^', "")));
        }
        for string in ["\\{256|s}", "\\{255|s}\\\\5c", "\\{256|\\\\00}", "\\{85|\\xe2\\x82\\xac}s"] {
            cases.push(refused(13, with(string)));
        }
    }
    let both = "!1 = attr \"\\{255|s}\" \"\\{255|t}\"\\n";
    cases.push(accepted(both));
    cases.push(refused(13, format!("^{}", both.replace("255|t", "256|t"))));
    cases.push(accepted("!1 = attr \"\\{85|\\xe2\\x82\\xac}\" \"\\{127|\\xc3\\xa9}\"\\n"));
    cases
}

/// "16,384 in all": 64 strings of 255 bytes, then 64 bytes more in every way.
fn strings_in_all() -> Vec<Case> {
    let most = format!("\\{{64|!\\# = scope \"{}\"\\n}}", "s".repeat(255));
    let ways = [
        ("^!64 = scope \"S\"\\n", 0),
        ("^!64 = ident \"S\" in=!0\\n", 0),
        ("^!64 = source \"S\" (#0 #0) (#0 #0)\\n", 0),
        ("^!64 = attr \"S\" 1\\n", 0),
        ("^!64 = attr \"aS\" \"\"\\n", 1),
        ("^!64 = attr \"a\" \"S\"\\n", 1),
        ("^!64 = attr \"\\{32|a}\" \"S\"\\n", 32),
        ("^&\"S\":1 = io\\n", 0),
        ("^%0:1 = input \"S\"\\n", 0),
        ("^%0:0 = output \"S\" 1\\n", 0),
        ("%0:1 = input \"a\"\\n^%1:0 = output \"S\" 1\\n", 1),
        ("&\"a\":1 = io\\n^%1:0 = output \"S\" 1\\n", 1),
        ("%0:1 = input \"a\"\\n^!99 = scope \"S\"\\n", 1),
    ];
    let mut cases = Vec::new();
    for (way, other) in ways {
        let with = |size: usize| format!("{most}{}", way.replace('S', &format!("\\{{{}|t}}", size - other)));
        cases.push(accepted(with(63).replace('^', "")));
        cases.push(accepted(with(64).replace('^', "")));
        cases.push(refused(13, with(65)));
    }
    let full = format!("{most}!64 = scope \"\\{{64|t}}\"\\n");
    cases.extend([
        accepted(format!("{full}%0:1 = buf 1\\n!65 = scope #0\\n!66 = {{!0 !65}}\\n")),
        refused(13, format!("{full}^&\"a\":1 = io\\n")),
        refused(13, format!("{full}^%0:1 = input \"a\"\\n")),
        refused(13, format!("{full}^!65 = attr \"a\" #1\\n")),
        refused(11, format!("{full}^!65 = attr \"\" #1\\n")),
        refused(13, format!("{most}!64 = scope \"\\{{63|t}}\"\\n^!65 = attr \"a\" \"b\"\\n")),
        accepted(format!("{most}!64 = scope \"\\{{63|t}}\"\\n!65 = attr \"a\" \"\"\\n")),
        accepted(format!("\\{{64|!\\# = attr \"{}\" \"{}\"\\n}}", "n".repeat(128), "v".repeat(128))),
        refused(13, format!("\\{{64|!\\# = attr \"{}\" \"{}\"\\n}}^&\"a\":1 = io\\n", "n".repeat(128), "v".repeat(128))),
    ]);
    // decoded bytes count, not those of the text
    let escaped = format!("\\{{64|!\\# = scope \"{}\"\\n}}", "\\\\00".repeat(255));
    cases.push(accepted(format!("{escaped}!64 = scope \"\\{{64|\\\\00}}\"\\n")));
    cases.push(refused(13, format!("{escaped}^!64 = scope \"\\{{65|\\\\00}}\"\\n")));
    // equal strings are not shared
    cases.push(accepted(format!("\\{{256|!\\# = scope \"{}\"\\n}}", "e".repeat(64))));
    cases.push(refused(13, format!("\\{{256|!\\# = scope \"{}\"\\n}}^!256 = scope \"e\"\\n", "e".repeat(64))));
    // names of pads and cells alone
    cases.push(accepted(format!("\\{{64|&\"{}\\#\":1 = io\\n}}", "p".repeat(250))));
    cases.push(accepted(format!("\\{{100|%\\#:1 = input \"{}\\#\"\\n}}", "i".repeat(161))));
    cases.push(refused(
        13,
        format!(
            "\\{{100|%\\#:1 = input \"{}\\#\"\\n}}%100:1 = input \"\\{{94|a}}\"\\n^%101:0 = output \"a\" 1\\n",
            "i".repeat(161)
        ),
    ));
    cases
}

/// Much of everything at once, up to every limit.
fn much() -> Vec<Case> {
    let attributes = format!("\\{{240|!\\# = attr \"a\" {}\\n}}", "10X1".repeat(64));
    let full = full();
    vec![
        accepted(attributes.clone()),
        accepted(format!("{attributes}%0:1 = buf 1 !239\\n")),
        accepted("\\{512|%\\#:1 = eq X*256 1*256\\n}"),
        accepted("\\{512|%\\#:1 = eq 10X1*64 [0*128 X*127 1]\\n}"),
        accepted("\\{14|%\\#:256 = mux X X*256 1*256\\n}\\{498|%5\\#:1 = eq 1*256 X*256\\n}"),
        refused(
            13,
            "\\{15|%\\#:256 = mux X X*256 1*256\\n}\\{256|%5\\#:1 = eq 1*256 X*256\\n}^%5256:1 = eq 1*256 X*256\\n%6:1 = buf 1\\n",
        ),
        accepted(full.clone()),
        refused(13, format!("{full}^%59999:1 = buf 1\\n")),
        refused(13, format!("{full}^%59999:0 = output \"a\" 1\\n")),
        refused(13, format!("{full}^&\"a\":1 = io\\n")),
        refused(13, format!("{full}^!59999 = scope #0\\n")),
        refused(9, format!("{full}^!0 = scope #0\\n")),
        refused(9, format!("{full}^%0:1 = buf 1\\n")),
        refused(9, format!("{full}^&\"63\":1 = io\\n")),
        refused(5, format!("{full}^$\\n")),
    ]
}

/// A text at every limit of Room but its length: 512 metadata rows, 1,024 members, 64 pads, 512 cells, 4,096 cell bits, 4,096 output
/// bits, 4,096 runs, 16,384 bytes of strings.
fn full() -> String {
    let pads = "\\{64|&\"\\#\":256 = io\\n}";
    let inputs = "\\{16|%\\#:256 = input \"\\#\" !1\\n}";
    let outputs = "\\{368|%6\\#0:0 = output \"\\#\" %3*8\\n}\\{128|%6\\#5:0 = output \"o\\#\" %4*9 !60\\n}";
    let names = (10 + 54 * 2) + (10 + 6 * 2) + (10 + 90 * 2 + 268 * 3) + (10 * 2 + 90 * 3 + 28 * 4);
    let scopes = format!(
        "\\{{58|!\\# = scope \"{}\"\\n}}!60 = scope \"\\{{{}|s}}\"\\n\\{{197|!2\\#0 = scope #\\#\\n}}",
        "n".repeat(255),
        16_384 - 58 * 255 - names
    );
    let sets = "\\{256|!5\\#0 = {!0 !60 !0 !1\\x7d\\n}";
    format!("{inputs}{scopes}{pads}{sets}{outputs}").replacen(" !1\\n", "\\n", 1)
}
