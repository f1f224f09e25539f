//! A printer as one would write it in Rust for speed: the same tables, checked and then written without trees, no
//! `unsafe`. The product is measured beside it; nothing else uses it.

use second::{NODE_RECORD, RULE_RECORD};

fn part(store: &[u8], offset: u32, length: u32) -> Option<&[u8]> {
    store.get(offset as usize..offset as usize + length as usize)
}

fn is_word(bytes: &[u8]) -> bool {
    let Some((first, rest)) = bytes.split_first() else { return false };
    let inside = |byte: &u8| byte.is_ascii_alphanumeric() || *byte == b'_';
    !first.is_ascii_digit() && inside(first) && rest.iter().all(inside)
}

fn is_name(bytes: &[u8]) -> bool {
    is_word(bytes) && !bytes.starts_with(b"PUSH")
}

/// The first node of each subtree; none where a node is false.
fn firsts(nodes: &[u32], store: &[u8]) -> Option<Vec<u16>> {
    let mut firsts: Vec<u16> = Vec::with_capacity(nodes.len() / NODE_RECORD);
    for (i, node) in nodes.chunks_exact(NODE_RECORD).enumerate() {
        let (p, q, r) = (node[3], node[4], node[5]);
        let good = match node[0] {
            1 | 2 | 18 => std::str::from_utf8(part(store, p, q)?).is_ok(),
            3 => char::from_u32(p).is_some() && char::from_u32(q).is_some(),
            4 => is_name(part(store, p, q)?),
            5 => q <= 1,
            6 | 7 | 10..=17 => p as usize + 1 == i,
            8 | 9 => q as usize + 1 == i && p + 1 == u32::from(firsts[q as usize]),
            19 => p as usize + 1 == i && is_word(part(store, q, r)?),
            _ => false,
        };
        if !good {
            return None;
        }
        firsts.push(if matches!(node[0], 1..=5 | 18) { i as u16 } else { firsts[p as usize] });
    }
    Some(firsts)
}

/// Whether the tables are good.
fn check(nodes: &[u32], rules: &[u32], store: &[u8]) -> bool {
    let shaped = nodes.len() % NODE_RECORD == 0 && rules.len() % RULE_RECORD == 0;
    let within = nodes.len() <= 4_096 * NODE_RECORD
        && rules.len() <= 1_024 * RULE_RECORD
        && store.len() <= 65_536;
    if !shaped || !within {
        return false;
    }
    let Some(firsts) = firsts(nodes, store) else { return false };
    let mut next = 0;
    for rule in rules.chunks_exact(RULE_RECORD) {
        let named = part(store, rule[0], rule[1]).is_some_and(is_name);
        let begins = firsts.get(rule[3] as usize).map(|first| usize::from(*first));
        if !named || rule[2] > 4 || begins != Some(next) {
            return false;
        }
        next = rule[3] as usize + 1;
    }
    next == firsts.len()
}

fn put_character(out: &mut Vec<u8>, c: char, quote: u8) {
    match c {
        '\\' => out.extend(b"\\\\"),
        '\0' => out.extend(b"\\0"),
        '\t' => out.extend(b"\\t"),
        '\n' => out.extend(b"\\n"),
        '\r' => out.extend(b"\\r"),
        c if c as u32 == u32::from(quote) => out.extend([b'\\', quote]),
        ' '..='~' => out.push(c as u8),
        '\u{ad}' => out.extend(b"\\u{ad}"),
        '\u{a1}'..='\u{24f}' => out.extend(c.encode_utf8(&mut [0; 4]).as_bytes()),
        c => {
            out.extend(b"\\u{");
            let digits = (8 - (c as u32).leading_zeros() / 4).max(2);
            for k in (0..digits).rev() {
                out.push(b"0123456789abcdef"[(c as u32 >> (4 * k) & 15) as usize]);
            }
            out.push(b'}');
        }
    }
}

fn put_string(out: &mut Vec<u8>, bytes: &[u8]) {
    out.push(b'"');
    for c in std::str::from_utf8(bytes).expect("checked").chars() {
        put_character(out, c, b'"');
    }
    out.push(b'"');
}

fn put_number(out: &mut Vec<u8>, mut n: u32) {
    let mut digits = [0; 10];
    let mut i = digits.len();
    loop {
        i -= 1;
        digits[i] = b'0' + (n % 10) as u8;
        n /= 10;
        if n == 0 {
            break;
        }
    }
    out.extend(&digits[i..]);
}

fn put_signed(out: &mut Vec<u8>, n: u32) {
    let n = n as i32;
    if n < 0 {
        out.push(b'-');
    }
    put_number(out, n.unsigned_abs());
}

#[derive(Clone, Copy, PartialEq)]
enum Place {
    Alone,
    Operand,
    RightOf(u32),
}

struct Tables<'a> {
    nodes: &'a [u32],
    store: &'a [u8],
}

impl Tables<'_> {
    fn text(&self, offset: u32, length: u32) -> &[u8] {
        &self.store[offset as usize..(offset + length) as usize]
    }

    fn write(&self, out: &mut Vec<u8>, i: u32, place: Place) {
        let node = &self.nodes[i as usize * NODE_RECORD..][..NODE_RECORD];
        let (kind, p, q, r) = (node[0], node[3], node[4], node[5]);
        match kind {
            1 => put_string(out, self.text(p, q)),
            2 => {
                out.push(b'^');
                put_string(out, self.text(p, q));
            }
            3 => {
                out.extend(b"('");
                put_character(out, char::from_u32(p).expect("checked"), b'\'');
                out.extend(b"'..'");
                put_character(out, char::from_u32(q).expect("checked"), b'\'');
                out.extend(b"')");
            }
            4 => out.extend(self.text(p, q)),
            5 => {
                out.extend(b"PEEK[");
                put_signed(out, p);
                out.extend(b"..");
                if q == 1 {
                    put_signed(out, r);
                }
                out.push(b']');
            }
            6 | 7 => {
                let bracket = place == Place::Operand;
                if bracket {
                    out.push(b'(');
                }
                out.push(if kind == 6 { b'&' } else { b'!' });
                self.write(out, p, Place::Alone);
                if bracket {
                    out.push(b')');
                }
            }
            8 | 9 => {
                let bracket = place != Place::RightOf(kind);
                if bracket {
                    out.push(b'(');
                }
                self.write(out, p, Place::Alone);
                out.extend(if kind == 8 { b" ~ " } else { b" | " });
                self.write(out, q, Place::RightOf(kind));
                if bracket {
                    out.push(b')');
                }
            }
            17 => {
                out.extend(b"PUSH(");
                self.write(out, p, Place::Alone);
                out.push(b')');
            }
            18 => {
                out.extend(b"PUSH_LITERAL(");
                put_string(out, self.text(p, q));
                out.push(b')');
            }
            19 => {
                out.extend(b"(#");
                out.extend(self.text(q, r));
                out.extend(b" = ");
                self.write(out, p, Place::Alone);
                out.push(b')');
            }
            _ => {
                self.write(out, p, Place::Operand);
                self.postfix(out, node);
            }
        }
    }

    fn postfix(&self, out: &mut Vec<u8>, node: &[u32]) {
        let (q, r) = (node[4], node[5]);
        match node[0] {
            10 => out.push(b'?'),
            11 => out.push(b'*'),
            12 => out.push(b'+'),
            13 => {
                out.push(b'{');
                put_number(out, q);
                out.push(b'}');
            }
            14 => {
                out.push(b'{');
                put_number(out, q);
                out.extend(b",}");
            }
            15 => {
                out.extend(b"{,");
                put_number(out, q);
                out.push(b'}');
            }
            _ => {
                out.push(b'{');
                put_number(out, q);
                out.extend(b", ");
                put_number(out, r);
                out.push(b'}');
            }
        }
    }
}

/// Prints good tables to the front of `out`, by way of a text that is kept between calls; how many bytes that are,
/// or nothing where tables are false or the text doesn't fit.
pub fn print(
    nodes: &[u32],
    rules: &[u32],
    store: &[u8],
    text: &mut Vec<u8>,
    out: &mut [u8],
) -> Option<usize> {
    if !check(nodes, rules, store) {
        return None;
    }
    let tables = Tables { nodes, store };
    text.clear();
    for rule in rules.chunks_exact(RULE_RECORD) {
        text.extend(tables.text(rule[0], rule[1]));
        text.extend(b" = ");
        if rule[2] > 0 {
            text.push(b" _@$!"[rule[2] as usize]);
        }
        text.extend(b"{ ");
        tables.write(text, rule[3], Place::Alone);
        text.extend(b" }\n");
    }
    out.get_mut(..text.len())?.copy_from_slice(text);
    Some(text.len())
}
