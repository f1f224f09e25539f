//! Three layouts of camera lines, the parsers that pest_derive 2.5.2 generates for them, and lines.
//! All rules are atomic: nothing is implicit, and pest makes one pair a line.

use crate::Random;

/// A layout and pest's parser for it.
pub struct Layout {
    pub name: &'static str,
    pub text: &'static str,
    /// Where pest's match of the first rule ends.
    pub pest: fn(&str) -> Option<usize>,
    pub line: fn(&mut Random) -> String,
}

macro_rules! layout {
    ($module:ident, $text:literal) => {
        mod $module {
            pub const TEXT: &str = $text;

            #[derive(pest_derive::Parser)]
            #[grammar_inline = $text]
            struct Generated;

            pub fn end(line: &str) -> Option<usize> {
                let pairs = <Generated as pest::Parser<Rule>>::parse(Rule::line, line);
                pairs.ok()?.next().map(|pair| pair.as_span().end())
            }
        }
    };
}

layout!(
    small,
    r#"
line = @{ field ~ (";" ~ field)* }
field = @{ (!";" ~ ANY)* }
"#
);

layout!(
    middle,
    r#"
line = @{ time ~ ";" ~ pan ~ ";" ~ strike ~ ";" ~ size ~ ";" ~ aspect ~ ";" ~ brightness ~ ";" ~ flag ~ (";" ~ remark)? }
time = @{ digit{2} ~ ":" ~ digit{2} ~ ":" ~ digit{2} ~ "." ~ digit{3} }
pan = @{ "P" ~ ('1'..'9' ~ digit? | "S") }
strike = @{ digit{4} }
size = @{ digit{3, 4} }
aspect = @{ digit ~ "." ~ digit{2} }
brightness = @{ digit{1, 3} }
flag = @{ "-" | "edge" | "cluster" | ^"steam" }
remark = @{ (!";" ~ ANY)* }
digit = @{ '0'..'9' }
"#
);

layout!(
    large,
    r#"
line = @{ number ~ ";" ~ stamp ~ ";" ~ place ~ ";" ~ crystal ~ ";" ~ shape ~ ";" ~ light ~ ";" ~ liquor ~ (";" ~ flags)? ~ (";" ~ remark)? }
number = @{ nonzero ~ digit{,6} | "0" }
stamp = @{ year ~ "-" ~ month ~ "-" ~ day ~ "T" ~ hour ~ ":" ~ minute ~ ":" ~ second ~ zone }
year = @{ "19" ~ digit{2} | "20" ~ digit{2} }
month = @{ "0" ~ nonzero | "10" | "11" | "12" | name }
name = @{ ^"jan" | ^"feb" | ^"mar" | ^"apr" | ^"may" | ^"jun" | ^"jul" | ^"aug" | ^"sep" | ^"oct" | ^"nov" | ^"dec" }
day = @{ "0" ~ nonzero | '1'..'2' ~ digit | "30" | "31" }
hour = @{ '0'..'1' ~ digit | "2" ~ '0'..'3' }
minute = @{ '0'..'5' ~ digit }
second = @{ '0'..'5' ~ digit ~ ("." ~ digit{1, 6})? }
zone = @{ "Z" | ("+" | "-") ~ hour ~ ":" ~ minute | "" }
place = @{ pan ~ "/" ~ strike ~ "/" ~ lens ~ ("@" ~ coordinate ~ "," ~ coordinate)? }
pan = @{ "P" ~ (nonzero ~ digit? | "S" | "X") }
strike = @{ digit{4} ~ ('a'..'f')? }
lens = @{ "L" ~ '1'..'4' | "wide" | "near" | "none" }
coordinate = @{ sign? ~ digit{1, 4} ~ ("." ~ digit{,2})? }
sign = @{ "+" | "-" }
crystal = @{ length ~ "x" ~ length ~ (" " ~ unit)? ~ ("~" ~ length)? }
length = @{ digit{1, 4} ~ ("." ~ digit{1, 2})? }
unit = @{ "µm" | "um" | "mm" | "px" }
shape = @{ form ~ ("+" ~ form){,3} ~ (":" ~ ratio)? }
form = @{ "cube" | "prism" | "tablet" | "needle" | "twin" | "cluster" | "conglomerate" | "false grain" | "dust" | "fragment" | "plate" | "rounded" | "unknown" }
ratio = @{ digit ~ "." ~ digit{2} | digit{1, 3} ~ "%" }
light = @{ level ~ ("/" ~ level){2} ~ (!("," | ";") ~ ANY){,4} ~ ("," ~ histogram)? }
level = @{ "1" ~ digit{2} | "2" ~ ('0'..'4' ~ digit | "5" ~ '0'..'5') | nonzero ~ digit? | "0" }
histogram = @{ "[" ~ level ~ (" " ~ level)* ~ "]" }
liquor = @{ brix ~ "," ~ purity ~ "," ~ temperature ~ ("," ~ vacuum)? }
brix = @{ digit{2} ~ "." ~ digit ~ ^"bx"? }
purity = @{ digit{2} ~ ("." ~ digit)? ~ "%" }
temperature = @{ sign? ~ digit{1, 3} ~ ("." ~ digit)? ~ ("°C" | "C" | "K") }
vacuum = @{ digit{2, 4} ~ ("mbar" | "hPa" | "kPa") }
flags = @{ flag ~ ("," ~ flag)* | "-" }
flag = @{ "edge" | "cluster" | ^"steam" | "blur" | "seed" | "lens:" ~ word | "operator=" ~ word | "alarm" ~ digit{1, 2} }
word = @{ letter ~ (letter | digit | "_" | "-")* }
letter = @{ 'a'..'z' | 'A'..'Z' | 'À'..'ÿ' }
remark = @{ "\"" ~ (!"\"" ~ ("\\" ~ ANY | ANY))* ~ "\"" }
nonzero = @{ '1'..'9' }
digit = @{ '0'..'9' }
"#
);

pub const LAYOUTS: [Layout; 3] = [
    Layout { name: "small", text: small::TEXT, pest: small::end, line: small_line },
    Layout { name: "middle", text: middle::TEXT, pest: middle::end, line: middle_line },
    Layout { name: "large", text: large::TEXT, pest: large::end, line: large_line },
];

const WORDS: [&str; 12] = [
    "false grain",
    "in the last third",
    "Öl auf Glas",
    "lens cleaned",
    "two touching crystals",
    "near the wall",
    "seed late",
    "boil again",
    "size over 400 µm",
    "foam",
    "ok",
    "steam for some seconds",
];

fn words(random: &mut Random, least: usize) -> String {
    let mut text = String::new();
    while text.len() < least {
        text.push_str(random.of(&WORDS));
        text.push(' ');
    }
    text
}

fn small_line(random: &mut Random) -> String {
    let length = 40 + random.below(130);
    let mut line = format!("P{};{:04}", 1 + random.below(9), random.below(10_000));
    while line.len() < length {
        line.push(';');
        match random.below(3) {
            0 => line.push_str(&random.below(100_000).to_string()),
            1 => line.push_str(random.of(&WORDS)),
            _ => line.push_str(&format!("{}.{:02}", random.below(9), random.below(100))),
        }
    }
    line
}

fn middle_line(random: &mut Random) -> String {
    let time = (random.below(24), random.below(60), random.below(60), random.below(1_000));
    let (hours, minutes, seconds, thousandths) = time;
    let mut line = format!(
        "{hours:02}:{minutes:02}:{seconds:02}.{thousandths:03};P{};{:04};{:04};{}.{:02};{};{}",
        1 + random.below(20),
        random.below(10_000),
        100 + random.below(1_900),
        1 + random.below(3),
        random.below(100),
        random.below(256),
        random.of(&["-", "-", "-", "edge", "cluster", "Steam"]),
    );
    if random.one_in(2) || line.len() < 40 {
        line.push(';');
        let more = 4 + random.below(120);
        line.push_str(&words(random, more));
    }
    line
}

fn large_line(random: &mut Random) -> String {
    let month = random.of(&["01", "07", "09", "10", "12", "nov", "Dec"]);
    let mut line = format!(
        "{};{}{:02}-{month}-{:02}T{:02}:{:02}:{:02}.{:03}{}",
        random.below(1_000_000),
        random.of(&["19", "20"]),
        random.below(100),
        1 + random.below(28),
        random.below(24),
        random.below(60),
        random.below(60),
        random.below(1_000),
        random.of(&["Z", "+01:00", ""]),
    );
    let lens = random.of(&["L1", "L4", "wide", "near", "none"]);
    line.push_str(&format!(";P{}/{:04}/{lens}", 1 + random.below(20), random.below(10_000)));
    if random.one_in(2) {
        line.push_str(&format!(
            "@{}.{:02},-{}",
            random.below(2_000),
            random.below(99),
            random.below(99)
        ));
    }
    line.push_str(&format!(
        ";{}x{}.{}",
        1 + random.below(999),
        1 + random.below(999),
        random.below(9)
    ));
    line.push_str(random.of(&[" µm", " µm", "", " px"]));
    let forms =
        ["cube", "prism", "tablet", "needle", "twin", "cluster", "conglomerate", "dust", "unknown"];
    line.push_str(&format!(";{}", random.of(&forms)));
    if random.one_in(4) {
        line.push_str(&format!("+{}", random.of(&forms)));
    }
    line.push_str(&format!(":{}.{:02}", 1 + random.below(4), random.below(100)));
    line.push_str(&format!(";{}/{}/{}", random.below(256), random.below(256), random.below(256)));
    if random.one_in(3) {
        line.push_str(&format!(
            ",[{} {} {}]",
            random.below(256),
            random.below(256),
            random.below(256)
        ));
    }
    line.push_str(&format!(
        ";{}.{}Bx,{}%",
        70 + random.below(29),
        random.below(10),
        50 + random.below(50)
    ));
    line.push_str(&format!(",{}.{}°C", 50 + random.below(40), random.below(10)));
    if random.one_in(2) {
        line.push_str(&format!(",{}mbar", 100 + random.below(300)));
    }
    if random.one_in(2) {
        let flags = ["-", "edge", "edge,blur", "STEAM", "cluster,seed,alarm7", "operator=Jörg"];
        line.push_str(&format!(";{}", random.of(&flags)));
    }
    if line.len() < 150 && random.one_in(2) {
        let more = random.below(40);
        line.push_str(&format!(";\"{}\"", words(random, more)));
    }
    line
}
