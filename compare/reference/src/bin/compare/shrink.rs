//! Making a failing text small: events out, then lines, then bytes.

/// `fails` must hold for `text`; the result is a text for which it holds too.
pub fn shrink(text: &[u8], mut tries: usize, mut fails: impl FnMut(&[u8]) -> bool) -> Vec<u8> {
    let mut text = text.to_vec();
    loop {
        let before = text.len();
        text = drop_pieces(events(&text), &mut tries, &mut fails);
        text = drop_pairs(events(&text), &mut tries, &mut fails);
        text = drop_pieces(lines(&text), &mut tries, &mut fails);
        text = drop_pieces(bytes(&text), &mut tries, &mut fails);
        text = smaller_digits(text, &mut tries, &mut fails);
        if text.len() == before || tries == 0 {
            return text;
        }
    }
}

fn split_before(text: &[u8], starts: impl Fn(usize) -> bool) -> Vec<Vec<u8>> {
    let mut pieces: Vec<Vec<u8>> = Vec::new();
    for (i, &b) in text.iter().enumerate() {
        if i == 0 || starts(i) {
            pieces.push(Vec::new());
        }
        pieces.last_mut().unwrap().push(b);
    }
    pieces
}

fn events(text: &[u8]) -> Vec<Vec<u8>> {
    split_before(text, |i| text[i - 1] == b'\n' && text[i..].starts_with(b"day="))
}

fn lines(text: &[u8]) -> Vec<Vec<u8>> {
    split_before(text, |i| text[i - 1] == b'\n')
}

fn bytes(text: &[u8]) -> Vec<Vec<u8>> {
    split_before(text, |_| true)
}

/// Drops runs of pieces, the long runs first.
fn drop_pieces(mut pieces: Vec<Vec<u8>>, tries: &mut usize, fails: &mut impl FnMut(&[u8]) -> bool) -> Vec<u8> {
    let mut run = pieces.len().next_power_of_two() / 2;
    while run >= 1 {
        // From the end: what comes after the failure goes first.
        let mut end = pieces.len();
        while end > 0 && *tries > 0 {
            let start = end.saturating_sub(run);
            let candidate: Vec<Vec<u8>> = [&pieces[..start], &pieces[end..]].concat();
            *tries -= 1;
            if fails(&candidate.concat()) {
                pieces = candidate;
            }
            end = start.min(pieces.len());
        }
        run /= 2;
    }
    pieces.concat()
}

/// Drops any two pieces, such as a charge and the credit that undoes it.
fn drop_pairs(mut pieces: Vec<Vec<u8>>, tries: &mut usize, fails: &mut impl FnMut(&[u8]) -> bool) -> Vec<u8> {
    let mut j = pieces.len();
    while j > 1 && pieces.len() <= 60 {
        j -= 1;
        for i in (0..j).rev() {
            if *tries == 0 {
                return pieces.concat();
            }
            let mut candidate = pieces.clone();
            candidate.remove(j);
            candidate.remove(i);
            *tries -= 1;
            if fails(&candidate.concat()) {
                pieces = candidate;
                j = pieces.len();
                break;
            }
        }
    }
    pieces.concat()
}

/// Each digit becomes the smallest that still fails.
fn smaller_digits(mut text: Vec<u8>, tries: &mut usize, fails: &mut impl FnMut(&[u8]) -> bool) -> Vec<u8> {
    for i in 0..text.len() {
        let old = text[i];
        if !old.is_ascii_digit() {
            continue;
        }
        for new in [b'0', b'1', b'2', b'5'] {
            if new >= text[i] || *tries == 0 {
                break;
            }
            text[i] = new;
            *tries -= 1;
            if fails(&text) {
                break;
            }
            text[i] = old;
        }
    }
    text
}
