//! Random harm to request texts, beside the harms in turn of `harm`.

use crate::rng::Rng;

/// Breaks a text in one of many small ways; some leave it in form.
pub fn break_text(rng: &mut Rng, text: &mut Vec<u8>) {
    match rng.below(9) {
        0 | 1 => break_bytes(rng, text),
        2 | 3 => break_lines(rng, text),
        4 => break_end(rng, text),
        _ => break_number(rng, text),
    }
}

fn break_bytes(rng: &mut Rng, text: &mut Vec<u8>) {
    let at = rng.below(text.len().max(1));
    if at >= text.len() {
        return;
    }
    match rng.below(4) {
        0 => text[at] ^= 1 << rng.below(8),
        1 => {
            text.remove(at);
        }
        2 => text.insert(at, text[at]),
        _ => text.insert(at, rng.pick(b" \t\r\n,=-+0M\0\xC3")),
    }
}

fn break_lines(rng: &mut Rng, text: &mut Vec<u8>) {
    let mut lines: Vec<Vec<u8>> =
        text.split_inclusive(|byte| *byte == b'\n').map(<[u8]>::to_vec).collect();
    if lines.is_empty() {
        return;
    }
    let (one, other) = (rng.below(lines.len()), rng.below(lines.len()));
    match rng.below(5) {
        0 => lines.swap(one, other),
        1 => lines.insert(one, lines[one].clone()),
        2 => {
            lines.remove(one);
        }
        3 => lines[one].make_ascii_uppercase(),
        _ => {
            let end = lines[one].len() - 1;
            lines[one].insert(end, rng.pick(b"\r ,"));
        }
    }
    *text = lines.concat();
}

fn break_end(rng: &mut Rng, text: &mut Vec<u8>) {
    match rng.below(5) {
        0 => {
            text.pop();
        }
        1 => text.clear(),
        2 => text.truncate(rng.below(text.len().max(1))),
        3 => text.extend(rng.pick(&[&b"x"[..], b"\n", b" ", b"\r\n", b"\0"])),
        _ => text.extend(rng.pick(&[&b"st=0,0,0,0,0,1\n"[..], b"stations=0\n", b"age=60"])),
    }
}

/// Writes one of the text's numbers in another way, often a wrong one.
fn break_number(rng: &mut Rng, text: &mut Vec<u8>) {
    let numeric = |byte: &u8| byte.is_ascii_digit() || *byte == b'-';
    let starts: Vec<usize> = (0..text.len())
        .filter(|at| numeric(&text[*at]) && (*at == 0 || !numeric(&text[*at - 1])))
        .collect();
    if starts.is_empty() {
        return;
    }
    // The first numbers of a text are its counts and switches; half of the
    // harm goes there.
    let among = rng.pick(&[starts.len(), starts.len().min(8)]);
    let start = starts[rng.below(among)];
    let length = text[start..].iter().take_while(|byte| numeric(byte)).count();
    let old = text[start..start + length].to_vec();
    let new = match rng.below(5) {
        0 => [rng.pick(&[&b"0"[..], b"+", b"-", b" ", b"00"]), &old].concat(),
        1 => rng
            .pick(&[&b"-0"[..], b"", b"-", b"M", b"m", b"open", b"Open", b"1e3", b"0x1"])
            .to_vec(),
        2 => rng
            .pick(&[&b"2147483648"[..], b"-2147483649", b"4294967296", b"18446744073709551617"])
            .to_vec(),
        3 => rng
            .pick(&[&b"2147483647"[..], b"-2147483648", b"4294967295", b"-1", b"10000000000"])
            .to_vec(),
        _ => rng.pick(&[&b"0"[..], b"1", b"2", b"6", b"7", b"64", b"65", b"512", b"513"]).to_vec(),
    };
    text.splice(start..start + length, new);
}
