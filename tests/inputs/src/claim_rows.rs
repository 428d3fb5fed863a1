//! Texts for each reading that was settled of the customer's request on
//! claims, with the refusal that each gets; 0 is none.

/// By reading: a refusal, a frame and pieces, two blanks or more between them.
/// Each piece makes one text; without any, the empty piece does.
const TABLE: &str = r#"
reading 1: blanks
0   whole   HOA:v1 States:1AP:2"a""b"Acceptance:1Inf(0)Start:0--BODY--State:0"s"{0}[t]0--END--
16  line    [t]0{0}  [t] 0 { 0 }
14  whole   HOA: v1States: 1 Start: 0

reading 2: names
0   item    x: t f true Inf v1 a-b_9 _ __ A--  a-_9Z: 1  x:
15  header  States : 1
15  item    9a: 1  -a: 1  x : 1  :  x: : 1  x:: 1
0   label   t  f
15  label   true  false  T  tt  t1  t-  t:  a
16  whole   HOA: v1 States: 1 Start: 0 Acceptance: 1 Inf(0) x: foo--BODY-- State: 0 --END--
0   whole   HOA: v1 States: 1 Start: 0 Acceptance: 1 Inf(0) x: foo --BODY-- State: 0 --END--

reading 3: integers
0   item    x: 0 1 10 2147483647
15  item    x: 00  x: 01 /*  x: 2147483648 /*  x: 4294967297  x: 10000000000000000000001  x: 000
15  header  States: 01  States: 4294967297  Start: 00  Start: 4294967296  AP: 00  AP: 01 "a"
15  accept  00  01  01 Inf(0)  2147483648  4294967297 Inf(0)  1 Inf(00)  1 Inf(01)  1 Inf(4294967296)
16  accept  2147483647  1 Inf(2147483647)  10
15  label   00  01  4294967296  4294967297
15  line    {00}  {01}  {4294967296}  [t] 00  [t] 4294967296
15  body    State: 00  State: 01  State: 4294967296

reading 4: strings
0   item    x: ""  x: "" "a""b"  x: "\"" "\\" "a\"/*"  x: "@a" "[" "--END--"  x: "\a\n\0"
15  item    x: "  x: "\"  x: "\\" "  x: "a\\"b"  x: "a"b"  x: '"'

reading 5: comments, aliases, other bytes
16  item    /*  /**/  x: /* a */ 1  x: 1/*  /* */ Foo:  /*/
16  label   /**/t  t/**/  !/**/t  (/**/  0&/**/1  0/**/&1
16  line    /*  "s"/*  {/**/0}  {0/**/}  {0}/*  [/*  [t]/**/0  [t] 0 /*
16  header  States: /**/1  States: 1/*  Start: /**/  AP: /**/0  AP: 1 /**/ "a"
16  accept  /**/  1/**/  1 Inf/**/(0)  1 Inf(/**/0)  1 Inf(0/**/)  1 Inf(0)/**/
16  body    /*  State: /*
16  ended   /*  /**/  /* end  /* */ HOA: v1
15  item    /  //  / *  / /*  */  *  -/*  #/*  x: / 1  --/*
15  ended   /  / *  */
16  label   @a  @_  @0  @-  @A1 ^  @t
15  label   @  @ a  @"a"  @@a  @/**/  @!a  @)
15  item    --ABORT--  -  --  --BODY-  --body--  --Body--  #  .  ;  ~  $  %  +  =  <  ?  ^  `  'a'
15  line    --ABORT--  [t] 0 --ABORT--  --END-  --EN/*  %
15  whole   HOA: v1 States: 1 Start: 0 Acceptance: 1 Inf(0) --BODY-- State: 0 --ABORT--

reading 6: opening
14  whole
14  whole   HOA  HOA:  HOA: v2  HOA: v1x  HOA: v1:  HOA: v1-  HOA: v  HOA: V1  HOA: 1  HOA: "v1"
14  whole   HOA : v1  hoa: v1  Hoa: v1  v1  States: 1  "HOA:" v1  xHOA: v1  HOA:: v1  HOA: HOA: v1  HOA: v 1
14  whole   /**/HOA: v1  HOA: /**/ v1  HOA:/* v1  /HOA: v1  HOA: v1States:  HOA: v1--BODY--
15  whole   HOA:v1  HOA: v1  HOA: v1.1  HOA: v1 v1  HOA:v1""  HOA: v1(  HOA: v1 :
16  whole   HOA:v1/*  HOA: v1 Foo:

reading 7: where a token is told
16  whole   HOA: v1 Acceptance: 1 I  HOA: v1 Acceptance: 1 Infx  HOA: v1 Acceptance: 1 t  HOA: v1 Acceptance: 2
16  whole   HOA: v1 Acceptance: 0  HOA: v1 Acceptance: 1 (  HOA: v1 Acceptance: 1 Inf(1  HOA: v1 Acceptance: 1 Inf(!
16  whole   HOA: v1 Foo:  HOA: v1 /*  HOA: v1 Start: 0 &  HOA: v1 Acceptance: 12
15  whole   HOA: v1 Acceptance: 1 Inf  HOA: v1 Acceptance: 1 Inf(  HOA: v1 Acceptance: 1 Inf(0  HOA: v1 Acceptance: 1
15  whole   HOA: v1 Acceptance:  HOA: v1 Foo  HOA: v1 /  HOA: v1 Start: 0  HOA: v1 "Foo:
15  item    x: ( /*  _x: /*  States: /*  y "/*  y /*  ( Foo:
16  item    /* _x:  Foo: _x:  Start: (  Foo: "

reading 8: 16 only where the format has it
16  label   @a  !@a  (@a)  0&@a  0|@a  !(!@a
15  label   0@a  t @a  (0)@a  (0@a)
15  item    @a  x: @a  x: 1 @a
15  line    @a  "s" @a  {@a}  {0}@a  [t] @a  [t] 0 @a
15  header  States: @a  Start: @a  Start: 0 @a  AP: @a  AP: 1 @a  AP: 1 "a" @a
15  accept  @a  1 @a  1 Inf @a  1 Inf(@a)  1 Inf(0 @a  1 Inf(0) @a
15  body    @a  State: @a
15  ended   @a
16  line    [t] 0 {  [t] 0 {}  [t] 0{0}  [t] 0 [t] 0 {0}  {0} [t] 0 {1}
15  header  States: 1 Start: 0 {0}  States: 1 {0}  Start: 0 {  Start: {0}
15  line    [t] {0} 0  [{0}] 0  [t {0}] 0
16  body    State: [  State: [t] 0
15  body    [t] 0  [t] State: 0  State: {0} 0  State: "s" 0  State: (
16  header  Start: 0 &  States: 1 Start: 0&0
15  header  Start: & 0  Start: 0 States: 1 & 0  Start: 0 | 0  Start: 0 !  States: 1 &  AP: 0 &
15  line    & 0  [t] & 0  [t] 0 & 0  [t] 0 | 0  [t] 0 Foo: 1  Alias: 0  [t] 0 Start: 0  Foo:
15  body    Foo: 1  Alias: @a 0  Start: 0  x: 1  Acceptance: 2  States: 1  HOA: v1
15  header  States: Foo:  Start: Foo:  AP: Foo:  Acceptance: Foo:  Start: Start:  Acceptance: 1 Foo:
15  ended   Foo:  Alias: @a  Start: 0  [t] 0 {0}

reading 9: states
15  header  States: 0 /*  States: 16 /*  States: 0 Foo:  States: 2147483647 Foo:  States: 17
15  header  States: /  States: a  States: "1"  States: States: 1  States: --BODY--  States: (1)
15  header  States: 1 1 /*  States: -1  States: 1 "a"  States: 1 & 1  States: 1 a
16  header  States: 1 /*  States: 15 Foo:

reading 10: start
15  header  Start: 2 States: 2 /*  States: 2 Start: 2 /*  States: 1 Start: 14 Foo:  States: 2 Start: 2 & 0
16  header  Start: 2 /**/ States: 2  Start: 14 /**/  Start: 2 Foo: States: 2  Start: 14 States: 15 /*
15  header  Start: 15 /**/  Start: 15 States: 15  Start: 16 Foo:  Start: a  Start: "0"  Start: 15 & 0
15  header  Start: 14 States: 14 /*  Start: 1 States: 1 /*  Start: 0 States: 0 /*  Start: 2 States: 1 Foo:
16  header  Start: 0 Start:  Start: 0 Start: 99  Start: 0 x: 0 Start: (  Start: 0 States: 1 Start: 0
16  header  Start: 0 & 0  Start: 0&  Start: 5 & States: 2  States: 2 Start: 1 & 7
15  header  Start: 0 0  Start: --BODY--  Start:  Start: States: 1
16  item    Start: 0  Start:

reading 11: propositions
15  header  AP: 9 /*  AP: 256 Foo:  AP: "a"  AP:  AP: a  AP: --BODY--
15  header  AP: 1 "a" "b" /*  AP: 0 "a" Foo:  AP: 1 "a" a /*  AP: 1 "a" 0
15  header  AP: 1 a /*  AP: 1 0  AP: 1 x: "a"  AP: 1 --BODY--  AP: 2 "a" States: 1  AP: 1 (  AP: 1
15  header  AP: 1 Foo:  AP: 2 "a" Foo:  Start: 0 AP: 1 Start: 0  AP: 1 Alias: @a
16  header  AP: /*  AP: 1 /*  AP: 2 "a"/*  AP: 1 "a" /*  AP: 1 "a" Foo:  AP: 0 Foo:
0   header  States: 1 Start: 0 Acceptance: 1 Inf(0)  AP: 2 "a" "a" States: 1 Start: 0 Acceptance: 1 Inf(0)
15  label   2  0&2  15
15  whole   HOA: v1 States: 1 Start: 0 Acceptance: 1 Inf(0) --BODY-- State: 0 [0] 0 --END--

reading 12: acceptance
0   accept  1 Inf(0)  1Inf ( 0 )
16  accept  0 t  0 f  2 Inf(0)&Inf(1)  2  3 /  15 ""
16  accept  1 Fin(0)  1 t  1 f  1 (Inf(0))  1 inf(0)  1 INF(0)  1 Infx  1 Inf-
16  accept  1 Inf(!0)  1 Inf(1)  1 Inf(15)  1 Inf(!  1 Inf(2 /
16  accept  1 Inf(0) & Inf(0)  1 Inf(0) | Fin(0)  1 Inf(0)&  1 Inf(0)|/
15  accept  1  1 "Inf(0)"  1 Inf 0  1 Inf(0) Inf(0)  Inf(0)  "1"  (1)  !1
15  accept  1 1  1 !Inf(0)  1 Inf: (0)  1 Foo:  1 Inf  1 Inf(  1 Inf()  1 )
15  accept  1 Inf(t)  1 Inf((0))  1 Inf(0  1 Inf(0 0)  1 Inf(0 &  1 Inf[0]  1 {0}
15  accept  1 Inf(0) (  1 Inf(0))  1 Inf(0) 0  1 Inf(0) !  1 Inf(0) x: 1 &  1 Inf(0) {0}
15  accept  --BODY--  1 --BODY--  1 Inf --BODY--  1 Inf(0 --BODY--  x: 1

reading 13: second headers
15  item    HOA: v1  States: 1  AP: 2 "a" "b"  Acceptance: 1 Inf(0)
15  item    HOA: /*  States: /*  AP: /*  Acceptance: /*  Acceptance: 2
15  whole   HOA: v1 HOA: v1  HOA: v1 HOA: /*  HOA: v1 AP: 0 AP: /*  HOA: v1 States: 1 States: /*

reading 14: other headers
0   item    name: x  name: "x" name: "y"  tool: "a" "b" 3 x  properties: a-b c d  acc-name: Buchi
0   item    a:b:c:  states: 99 start: 99  hOA: v2 aP: ap: 9  z-: t f 0 ""
15  item    x: (  x: )  x: [  x: ]  x: {  x: }  x: !  x: &  x: |  x: @a  x: 1 (
15  item    x: --END--  x: --ABORT--  x: a.b  x: 1.0  x: -1  x: +1  x: 'a'
16  item    x: /**/  x: a /**/  x: Foo:  x: 1 Start:
16  item    Foo:  A: 1  Z-: 1  State: 0  Alias: @a 0  Name: "x"  Hoa: v1  START: 0
15  item    _x: 1  _: 1  __Foo: 1  _x: /*  _X: Foo:
16  whole   HOA: v1 States: 1 Start: 0 Acceptance: 1 Inf(0) State: 0 [t] 0 --END--  HOA: v1 State: 0

reading 15: end of the header
15  header  Start: 0 Acceptance: 1 Inf(0)  States: 1 Acceptance: 1 Inf(0)  States: 1 Start: 0  AP: 0
15  whole   HOA: v1 Start: 0 Acceptance: 1 Inf(0) --BODY--/*  HOA: v1 States: 1 Acceptance: 1 Inf(0) --BODY--/*
15  whole   HOA: v1 States: 1 Start: 0 --BODY-- State: [  HOA: v1 --BODY--  HOA: v1 --END-- /*
16  whole   HOA: v1 States: 1 Start: 0 Acceptance: 1 Inf(0) --BODY--/*  HOA: v1 States: 1 Start: 0 /*
15  item    --END--  a  t  1  "a"  [  (  {  !  )  }  ]  v1  Inf
15  header  --END--  &  |  @a  t  0  States: 1 &  States: 1 |

reading 16: lines
0   lines   State: 0 State: 1  State: 1 State: 0  State: 1 {0} [t] 0 State: 0 [0] 1
15  body    State: 1 /*  State: 15  State: 2147483647 Foo:  State: a  State:  State: State:
15  lines   State: 0 State: 0 /*  State: 1 [t] 0 State: 1 [  State: 0 State: 2 /*
15  body    State: 0 State: [  State: 0 State: /*  State: 0 State: 0  State: 0 [t] 0 State: 1
15  lines   State: 0 State: 1 State: [  State: 1 State: 0 {0} State: /*
16  lines   State: 0 State: [  State: 0 State: /*  /*  State: 0 State: 1 /*
15  body    0 [t] 0  {0}  "s"  t  --BODY-- State: 0  [t] 0 State: 0  State 0  State : 0  state: 0

reading 17: names and marks of states
0   line    ""  ""{0}  "/*"  "a\\"  "--END--" {}  "@a [t] 0"  "\""  "\n"
15  line    "a" "b"  a  "a  """"  "a\"  "a" b
0   line    {0}  {0 0}  {}  { 0 0 0 }  "s"{0}[t]0  {0}[t]0
15  line    {1}  {0 1}  {1 /*  {!0}  {t}  {0  {  }  {{0}}  {0,0}  {"s"}  {[t] 0  {1 0}  {15}
15  line    {0} "s"  {0} {0}  {} {}  "s" {0} "s"  {0} {  [t] 0 "s"  {0} "s" /*

reading 18: edges
0   line
0   line    [t] 0  [t] 0 [t] 0 [t] 0  [f] 0  [0&!0] 0  [t]0[f]0  {0}[0]0[1]0
15  line    0  0 /*  "s" 0  {0} 0  [t] 0 0  [t] 0 0 [t] 0  0 {0}  0 & 0
15  line    [t] 1 /*  [t] 1 {0}  [t] 15  [t]  [t] [t] 0  [t] t  [t] "s"  [t] {0}  [t] (0)
15  line    ] 0  (t) 0  t 0  [t] 0 ]  [t] 0, [t] 0  [t] State: 0  [t] --END--  [t 0  [t) 0
0   lines   State: 0 [t] 1 [f] 1 [0] 0 State: 1 [!0] 0 [0|1] 1
15  lines   State: 0 [t] 1 1 State: 1  State: 0 0 1 State: 1

reading 19: labels
0   label   t  f  0  1  !0  !!0  (0)  ((0))  0&1  0|1  0|1&!0  !(0|1)&t  (0|1)&(!0|!1)
0   label   0&1&0&1|f|t&t  ! ( 0 | ! 1 )  !t  (0)&(1)|(0)  (!(!(0)))
15  label
15  label   !  &  0&  |0  0|  0 1  0!1  0!  (  (0  0)  ()  (0))  0&&1  0||1  0&|1  !&0  0(1)  (0)(1)
15  label   {0}  "a"  [0]  [0  0[  -1  a&b  0:  State:  Inf(0)  0] 0 [  t f  t!  2|t  !2  (2)  t&2  ^  ~0

reading 20: end
15  lines
15  lines   State: 0 [t] 0  State: 1  State: 1 [t] 1
15  body
15  body    --END-- /*  State: 0 --END-- --END--
0   ended
15  ended   HOA: v1  HOA: /*  x  0  --END--  --  "  --BODY--  Foo:  [  :  State: [  {0}  -  --ABORT--  x: 1

reading 21: length
0   body    State: 0
"#;

/// How many readings there are.
pub const READINGS: usize = 21;

/// The last byte of the longest text. It stands here once more, and not as the
/// reference has it, so that the rows show a wrong limit there.
const LAST: usize = 16_384;

const HEADER: &str = r#"States: 1 Start: 0 AP: 2 "a" "b" Acceptance: 1 Inf(0)"#;
const LINE: &str = "State: 0 {0} [t] 0";

/// Texts, each with its refusal.
pub type Rows = Vec<(Vec<u8>, u32)>;

/// The rows of one reading, by its number.
pub fn rows(reading: usize) -> Rows {
    let mut rows = table_rows(reading);
    rows.extend(match reading {
        1 => other_blanks(),
        4 => stored_bytes(),
        6 => long_openings(),
        7 => faults_at_edge(),
        9 => counts_of_states(),
        10 => starts(),
        11 => counts_of_propositions(),
        17 => names_of_states(),
        19 => depths(),
        20 => ends(),
        21 => lengths(),
        _ => Rows::new(),
    });
    rows
}

fn table_rows(reading: usize) -> Rows {
    let heading = format!("reading {reading}:");
    let mut sections = TABLE.split("\n\n");
    let section = sections.find(|section| section.trim_start().starts_with(&heading));
    let lines = section
        .expect("every reading has its section")
        .trim()
        .lines();
    lines.skip(1).flat_map(rows_of_line).collect()
}

fn rows_of_line(line: &str) -> Rows {
    let mut fields = line
        .split("  ")
        .map(str::trim)
        .filter(|field| !field.is_empty());
    let mut next = || fields.next().expect("a line has a refusal and a frame");
    let refusal = next().parse().expect("a refusal is a number");
    let frame = next();
    let mut pieces: Vec<&str> = fields.collect();
    if pieces.is_empty() {
        pieces.push("");
    }
    let texts = pieces.into_iter().map(|piece| framed(frame, piece));
    texts.map(|text| (text.into_bytes(), refusal)).collect()
}

/// A text with a piece in it; all else is right.
fn framed(frame: &str, piece: &str) -> String {
    match frame {
        "whole" => piece.to_owned(),
        "header" => claim(piece, LINE),
        "item" => claim(&format!("{HEADER} {piece}"), LINE),
        "accept" => claim(&format!("States: 1 Start: 0 Acceptance: {piece}"), LINE),
        "body" => claim(HEADER, piece),
        "lines" => claim(&HEADER.replace("States: 1", "States: 2"), piece),
        "line" => claim(HEADER, &format!("State: 0 {piece}")),
        "label" => claim(HEADER, &format!("State: 0 [{piece}] 0")),
        "ended" => right() + " " + piece,
        _ => panic!("no frame {frame}"),
    }
}

fn claim(header: &str, body: &str) -> String {
    format!("HOA: v1 {header} --BODY-- {body} --END--")
}

fn right() -> String {
    claim(HEADER, LINE)
}

/// The text with bytes, which may be no UTF-8, in place of its `?`.
fn with_bytes(text: &str, bytes: &[u8]) -> Vec<u8> {
    let (before, after) = text.split_once('?').expect("a place for the bytes");
    [before.as_bytes(), bytes, after.as_bytes()].concat()
}

/// The front, blanks and the piece, so that the piece's last byte has this
/// number; then the rest.
fn ending_at(number: usize, front: &str, piece: &str, rest: &str) -> Vec<u8> {
    let blanks = " ".repeat(number - front.len() - piece.len());
    [front, &blanks, piece, rest].concat().into()
}

fn other_blanks() -> Rows {
    let blanks = [" ", "\t", "\n", "\x0b", "\x0c", "\r", "\r\n \t"];
    let mut rows: Rows = blanks
        .map(|blank| (right().replace(' ', blank).into(), 0))
        .into();
    for no_blank in [0, 8, 0x0e, 0x1c, 0x85, 0xa0, b','] {
        rows.push((with_bytes(&framed("item", "?"), &[no_blank]), 15));
        rows.push((with_bytes(&framed("ended", "?"), &[no_blank]), 15));
    }
    rows
}

/// Any byte is allowed in a proposition's name and in a skipped string.
fn stored_bytes() -> Rows {
    let mut rows = Rows::new();
    for bytes in [
        &b"\x80\xff"[..],
        b"/*",
        b"\n",
        b"\\\n",
        b"\\\"",
        b"\\\x80",
        b"\r\0\x0b",
        &[b'n'; 300],
    ] {
        rows.push((with_bytes(&right().replace("\"a\"", "\"?\""), bytes), 0));
        rows.push((with_bytes(&framed("item", "x: \"?\""), bytes), 0));
    }
    rows
}

fn long_openings() -> Rows {
    let many = " ".repeat(20_000);
    let long_name = format!("HOA: v1{}", "x".repeat(20_000));
    let blanks_first = |rest: &str| many.clone() + rest;
    let blanks_within = |rest: &str| format!("HOA:{many}{rest}");
    let mut texts = vec![("\u{feff}HOA: v1".to_owned(), 14), (long_name, 14)];
    for (rest, refusal) in [
        ("", 14),
        ("HOA: v2", 14),
        ("HOA: v1:", 14),
        ("/*", 14),
        (&*right(), 15),
        ("HOA: v1/*", 15),
    ] {
        texts.push((blanks_first(rest), refusal));
    }
    for (rest, refusal) in [("", 14), ("v1x", 14), ("v1", 15), ("v1 /*", 15)] {
        texts.push((blanks_within(rest), refusal));
    }
    texts.push((right().replace("HOA: ", "\x0b\x0c HOA:\n\n"), 0));
    texts
        .into_iter()
        .map(|(text, refusal)| (text.into(), refusal))
        .collect()
}

/// Faults around the last byte of the longest text.
fn faults_at_edge() -> Rows {
    let mut rows = Rows::new();
    for (front, piece) in told_by_last_byte() {
        for rest in ["", " ", "a", "*/ x", "0 ]"] {
            rows.push((ending_at(LAST, &front, piece, rest), 16));
            rows.push((ending_at(LAST + 1, &front, piece, rest), 15));
        }
    }
    for piece in ["2", "0", "1 Fin", "1 t", "1 Inf(1"] {
        let ending_at = |number, rest| ending_at(number, "HOA: v1 Acceptance: ", piece, rest);
        rows.extend([
            (ending_at(LAST, ""), 16),
            (ending_at(LAST - 1, " "), 16),
            (ending_at(LAST - 1, "((("), 16),
            (ending_at(LAST, " "), 15),
            (ending_at(LAST, "("), 15),
            (ending_at(LAST + 1, ""), 15),
        ]);
    }
    rows
}

/// Fronts of claims, and faults behind them that their last byte tells.
fn told_by_last_byte() -> Vec<(String, &'static str)> {
    let header = format!("HOA: v1 {HEADER} ");
    let line = format!("{header} --BODY-- State: 0 ");
    let mut faults = vec![
        ("HOA: v1 Start: 0".to_owned(), "&"),
        (format!("{header} --BODY-- State:"), "["),
    ];
    for piece in ["/*", "Foo:", "Start:", "x: \"/\"/*", "x: 1Foo:"] {
        faults.push((header.clone(), piece));
    }
    for piece in ["1(", "1 Inf(!", "1 Inf(0)&", "1 Inf(0)|"] {
        faults.push(("HOA: v1 Acceptance:".to_owned(), piece));
    }
    for piece in ["[@a", "[0&@0", "[t] 0{", "[t] 0/*", "{/*"] {
        faults.push((line.clone(), piece));
    }
    faults
}

fn counts_of_states() -> Rows {
    let of_states = |count: usize| {
        let lines: String = (0..count)
            .map(|state| format!("State: {state} [t] {state} "))
            .collect();
        let start = count.saturating_sub(1);
        claim(
            &format!("States: {count} Start: {start} Acceptance: 1 Inf(0)"),
            &lines,
        )
    };
    let refusal = |count| if (1..=15).contains(&count) { 0 } else { 15 };
    let counts = [0, 1, 2, 14, 15, 16, 17, 255, 256, 257];
    counts
        .map(|count| (of_states(count).into(), refusal(count)))
        .into()
}

fn starts() -> Rows {
    let orders = [
        "States: 2 Start: 0",
        "States: 2 Start: 1",
        "Start: 1 States: 2",
        "Start: 0 x: 1 States: 2",
    ];
    let rest = "Acceptance: 1 Inf(0)";
    let lines = "State: 0 State: 1 [t] 0";
    orders
        .map(|order| (claim(&format!("{order} {rest}"), lines).into(), 0))
        .into()
}

fn counts_of_propositions() -> Rows {
    let of_propositions = |count: usize, names: usize| {
        let names = "\"a\"".repeat(names);
        let label = count
            .checked_sub(1)
            .map_or("t".to_owned(), |last| last.to_string());
        let header = format!("States: 1 Start: 0 AP: {count} {names} Acceptance: 1 Inf(0)");
        claim(&header, &format!("State: 0 [{label}] 0"))
    };
    let mut rows: Rows = [0, 1, 2, 7, 8]
        .map(|count| (of_propositions(count, count).into(), 0))
        .into();
    for (count, names) in [
        (9, 9),
        (0, 1),
        (1, 0),
        (1, 2),
        (2, 1),
        (8, 7),
        (8, 9),
        (9, 8),
    ] {
        rows.push((of_propositions(count, names).into(), 15));
    }
    rows
}

fn names_of_states() -> Rows {
    let named = |name: &[u8]| with_bytes(&framed("line", "\"?\""), name);
    let mut rows = Rows::new();
    for length in [0, 1, 31, 32, 33, 34, 255, 256, 288] {
        rows.push((named(&vec![b'n'; length]), if length > 32 { 15 } else { 0 }));
    }
    for (escapes, more, refusal) in [
        (16, "", 0),
        (16, "n", 15),
        (15, "nn", 0),
        (17, "", 15),
        (11, "", 0),
    ] {
        rows.push((named(("\\\"".repeat(escapes) + more).as_bytes()), refusal));
    }
    for (name, refusal) in [
        (&b"\x80\xff\\\xfe"[..], 0),
        (b"\r\t\0", 0),
        (b"\n", 15),
        (b"a\\\nb", 15),
        (b"a\n", 15),
    ] {
        rows.push((named(name), refusal));
    }
    rows
}

fn depths() -> Rows {
    let nested = |open: &str, times: usize, inner: &str, close: &str| {
        framed(
            "label",
            &[&open.repeat(times), inner, &close.repeat(times)].concat(),
        )
    };
    let deep = "!".repeat(16) + "0";
    let siblings = format!("{deep}&{deep}|{deep}|({}0)|((!0)&!(1))", "!".repeat(15));
    let rows = [
        (nested("!", 16, "0", ""), 0),
        (nested("!", 17, "0", ""), 15),
        (nested("!", 15, "(1)", ""), 0),
        (nested("!", 16, "(1)", ""), 15),
        (nested("(", 16, "0&1|t", ")"), 0),
        (nested("(", 17, "0", ")"), 15),
        (nested("(", 15, "!0", ")"), 0),
        (nested("(", 16, "t|!0", ")"), 15),
        (nested("!(", 8, "0|1", ")"), 0),
        (nested("!(", 8, "!0", ")"), 15),
        (nested("!(", 8, "(0)", ")"), 15),
        (nested("(!", 8, "0", ")"), 0),
        (nested("!", 16, "!/*", ""), 15),
        (nested("!", 16, "(@a", ""), 15),
        (nested("(", 17, "@a", ""), 15),
        (nested("!", 16, "@a", ""), 16),
        (nested("(", 16, "/*", ""), 16),
        (nested("!", 16, "&0", ""), 15),
        (framed("label", &siblings), 0),
        (nested("(0)|!1&", 400, "t", ""), 0),
    ];
    rows.map(|(text, refusal)| (text.into(), refusal)).into()
}

fn ends() -> Rows {
    let mut rows: Rows = ["\n", "\r\n\t\x0b\x0c \n"]
        .map(|blanks| ((right() + blanks).into(), 0))
        .into();
    for no_blank in [&b"\0"[..], b"\xff", b"--END--", b"/", b"\n\n0"] {
        rows.push(([right().as_bytes(), no_blank].concat(), 15));
    }
    rows.push(([right(), right()].join("\n").into(), 15));
    rows.push(((right() + "\n/* the end */").into(), 16));
    rows
}

fn lengths() -> Rows {
    let front = right().replace("--END--", "");
    let mut rows = vec![
        (ending_at(LAST, &front, "--END--", ""), 0),
        (ending_at(LAST, &front, "--END--", "\n"), 15),
        (ending_at(LAST + 1, &front, "--END--", ""), 15),
        (ending_at(LAST + 1, "", &right(), ""), 15),
        (
            ("HOA: v1 /*".to_owned() + &right().repeat(1_000)).into(),
            16,
        ),
        (right().repeat(1_000).into(), 15),
    ];
    for length in [LAST - 1, LAST, LAST + 1, LAST + 2, 20_000, 65_536, 65_537] {
        let refusal = if length > LAST { 15 } else { 0 };
        rows.push((ending_at(length, &right(), "\n", ""), refusal));
        rows.push((ending_at(length, "", &right(), ""), refusal));
    }
    for (open, close, refusals) in [
        ("\"", "\" /*", [16, 15]),
        ("n", " /*", [16, 15]),
        ("\"", "/*", [15, 15]),
    ] {
        for (number, refusal) in [LAST, LAST + 1].into_iter().zip(refusals) {
            let front = format!("HOA: v1 x: {open}");
            let filler = "n".repeat(number - front.len() - close.len());
            rows.push(([&*front, &filler, close, " */ /*"].concat().into(), refusal));
        }
    }
    rows
}
