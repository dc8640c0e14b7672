//! The calls of document 01 in plain Rust, written from that document alone, to be compared with the proved library.
//!
//! Nothing here is proved, and nothing is shared with the proved code. Each call first takes a fast way that only says
//! "accepted" or "look closer"; `string_refusal` and `mesh_refusal` look closer, one rule after the other.

/// What a call answers; what it does not answer is 0.
#[derive(Clone, Copy, PartialEq, Eq, Debug, Default)]
pub struct Answer {
    pub number: u32,
    pub place: u32,
    pub t: u32,
    pub v: u32,
    pub gate: u32,
    pub length: u32,
}

const MOST: usize = 65_536;

fn refused(number: u32, place: usize) -> Answer {
    Answer { number, place: place as u32, ..Answer::default() }
}

fn done(t: usize, v: u32) -> Answer {
    Answer { t: t as u32, v, ..Answer::default() }
}

fn counted(t: usize) -> bool {
    t % 2 == 0 && (2..=MOST).contains(&t)
}

#[inline(always)]
fn next(c: usize) -> usize {
    if c % 3 == 2 { c - 2 } else { c + 1 }
}

#[inline(always)]
fn prev(c: usize) -> usize {
    if c % 3 == 0 { c + 2 } else { c - 1 }
}

// ---------------------------------------------------------------------------------------------------------- strings

/// Numbers 3 to 7, or none for a string that closes. `widths` has at least as many entries as there are letters.
#[cold]
fn string_refusal(s: &[u8], widths: &mut [u32]) -> Option<Answer> {
    let t = s.len();
    if let Some(k) = s.iter().position(|b| !b"CLERS".contains(b)) {
        return Some(refused(3, k));
    }
    let mut wanted = 1;
    let mut end = None;
    for (k, b) in s.iter().enumerate() {
        match b {
            b'E' => wanted -= 1,
            b'S' => wanted += 1,
            _ => {}
        }
        if wanted == 0 {
            end = Some(k + 1);
            break;
        }
    }
    match end {
        None => return Some(refused(4, t)),
        Some(k) if k < t => return Some(refused(5, k)),
        _ => {}
    }
    let mut n = 0;
    for k in (0..t).rev() {
        match s[k] {
            b'E' => {
                widths[n] = 3;
                n += 1;
            }
            b'C' if widths[n - 1] == 2 => return Some(refused(6, k)),
            b'C' => widths[n - 1] -= 1,
            b'S' => {
                widths[n - 2] = widths[n - 1] + widths[n - 2] - 1;
                n -= 1;
            }
            _ => widths[n - 1] += 1,
        }
    }
    if widths[0] != 2 {
        return Some(refused(7, 0));
    }
    None
}

/// Whether a string closes: one pass from its end, a width on top and the waiting ones below it.
fn closes(s: &[u8], widths: &mut [u32]) -> bool {
    let t = s.len();
    if s[t - 1] != b'E' {
        return false;
    }
    let mut n = 0;
    let mut top = 3u32;
    for &b in s[..t - 1].iter().rev() {
        match b {
            b'C' => {
                if top == 2 {
                    return false;
                }
                top -= 1;
            }
            b'L' | b'R' => top += 1,
            b'E' => {
                widths[n] = top;
                n += 1;
                top = 3;
            }
            b'S' => {
                if n == 0 {
                    return false;
                }
                n -= 1;
                top += widths[n] - 1;
            }
            _ => return false,
        }
    }
    n == 0 && top == 2
}

/// The opposites of a string that closes, built from its end; false where it does not close.
///
/// A word is the list of the corners on its loop that nobody faces yet. A waiting corner's entry of `o` is the corner
/// before it in its list; `ends` has the start, first and last corner of each word that waits for an S. `split[k]` is
/// the last corner of the right branch's list, which lies at the tip of an S at k.
fn fold(s: &[u8], o: &mut [u32], split: &mut [u32], ends: &mut [[u32; 3]]) -> bool {
    let t = s.len();
    let o = &mut o[..3 * t];
    let split = &mut split[..t];
    if s[t - 1] != b'E' {
        return false;
    }
    let mut n = 0;
    let mut first = 3 * t - 2;
    let mut last = 3 * t - 1;
    o[last] = first as u32;
    for k in (0..t - 1).rev() {
        let c = 3 * k;
        match s[k] {
            b'C' => {
                if first == last {
                    return false;
                }
                let x = last;
                last = o[x] as usize;
                o[x] = c as u32 + 2;
                o[c + 1] = c as u32 + 3;
                o[c + 2] = x as u32;
                o[c + 3] = c as u32 + 1;
            }
            b'R' => {
                o[first] = c as u32 + 1;
                first = c + 1;
                o[c + 2] = c as u32 + 3;
                o[c + 3] = c as u32 + 2;
            }
            b'L' => {
                o[c + 1] = c as u32 + 3;
                o[c + 2] = last as u32;
                o[c + 3] = c as u32 + 1;
                last = c + 2;
            }
            b'E' => {
                ends[n] = [c as u32 + 3, first as u32, last as u32];
                n += 1;
                first = c + 1;
                last = c + 2;
                o[last] = first as u32;
            }
            b'S' => {
                if n == 0 {
                    return false;
                }
                n -= 1;
                let [tip, f, l] = ends[n];
                split[k] = last as u32;
                o[f as usize] = last as u32;
                last = l as usize;
                o[c + 1] = c as u32 + 3;
                o[c + 2] = tip;
                o[tip as usize] = c as u32 + 2;
                o[c + 3] = c as u32 + 1;
            }
            _ => return false,
        }
    }
    if n != 0 || first != last {
        return false;
    }
    o[0] = first as u32;
    o[first] = 0;
    true
}

/// The vertices of a string that closes, in walk order, from its opposites.
fn label(s: &[u8], o: &[u32], split: &[u32], vs: &mut [u32]) {
    let t = s.len();
    let (o, split, vs) = (&o[..3 * t], &split[..t], &mut vs[..3 * t]);
    let (mut left, mut right, mut fresh) = (0, 1, 2);
    for k in 0..t {
        let c = 3 * k;
        let tip;
        let (l, r) = (left, right);
        match s[k] {
            b'C' => {
                tip = fresh;
                fresh += 1;
                left = tip;
            }
            b'L' => {
                tip = vs[prev(o[c + 2] as usize)];
                left = tip;
            }
            b'R' => {
                tip = vs[next(o[c + 1] as usize)];
                right = tip;
            }
            b'S' => {
                tip = vs[next(o[split[k] as usize] as usize)];
                left = tip;
            }
            _ => {
                tip = vs[next(o[c + 1] as usize)];
                if k + 1 < t {
                    let waits = o[c + 3] as usize;
                    left = vs[waits - 1];
                    right = vs[waits - 2];
                }
            }
        }
        vs[c] = tip;
        vs[c + 1] = l;
        vs[c + 2] = r;
    }
}

/// Tables from a string.
pub fn read_string(s: &[u8], vs: &mut [u32], os: &mut [u32], work: &mut [u32]) -> Answer {
    let t = s.len();
    if !counted(t) {
        return refused(1, 0);
    }
    if vs.len() < 3 * t || os.len() < 3 * t || work.len() < 12 * t {
        return refused(2, 0);
    }
    read_letters(s, vs, os, work)
}

fn read_letters(s: &[u8], vs: &mut [u32], os: &mut [u32], work: &mut [u32]) -> Answer {
    let t = s.len();
    let (o, rest) = work.split_at_mut(3 * t);
    let (split, rest) = rest.split_at_mut(t);
    let accepted = fold(s, o, split, rest.as_chunks_mut::<3>().0);
    let answer = if accepted {
        os[..3 * t].copy_from_slice(o);
        label(s, o, split, vs);
        done(t, t as u32 / 2 + 2)
    } else {
        string_refusal(s, o).expect("a string is folded or refused")
    };
    work.fill(0);
    answer
}

// ----------------------------------------------------------------------------------------------------------- meshes

/// Numbers 8 to 15, or none for an accepted mesh, rule by rule.
#[cold]
fn mesh_refusal(vs: &[u32], os: &[u32], v: u32, gate: u32, work: &mut [u32]) -> Option<Answer> {
    let n = vs.len();
    let t = n / 3;
    let o = |c: usize| os[c] as usize;
    if gate as usize >= n {
        return Some(refused(8, 0));
    }
    if let Some(c) = (0..n).find(|&c| vs[c] >= v) {
        return Some(refused(9, c));
    }
    if let Some(c) = (0..n).find(|&c| o(c) >= n || o(o(c)) != c || o(c) == c) {
        return Some(refused(10, c));
    }
    let ends = |c: usize| vs[next(c)] == vs[prev(o(c))] && vs[prev(c)] == vs[next(o(c))];
    if let Some(c) = (0..n).find(|&c| !ends(c)) {
        return Some(refused(11, c));
    }
    let twice = |k: usize| vs[3 * k] == vs[3 * k + 1] || vs[3 * k + 1] == vs[3 * k + 2] || vs[3 * k + 2] == vs[3 * k];
    if let Some(k) = (0..t).find(|&k| twice(k)) {
        return Some(refused(12, k));
    }
    // at most n vertices have a corner, so one of the vertices 0 to n is absent where there are more
    let few = (v as usize).min(n + 1);
    let (count, rest) = work.split_at_mut(n + 1);
    let (some, _) = rest.split_at_mut(n + 1);
    count.fill(0);
    for c in 0..n {
        let u = vs[c] as usize;
        if u < few {
            count[u] += 1;
            some[u] = c as u32;
        }
    }
    for u in 0..few {
        let mut met = 0;
        if count[u] != 0 {
            let start = some[u] as usize;
            let mut c = start;
            loop {
                met += 1;
                c = next(o(next(c)));
                if c == start {
                    break;
                }
            }
        }
        if met == 0 || met != count[u] {
            return Some(refused(13, u));
        }
    }
    let (seen, rest) = work.split_at_mut(t);
    let (queue, _) = rest.split_at_mut(t);
    if reach(os, gate, seen, queue) != t {
        let k = (0..t).find(|&k| seen[k] == 0).expect("one is not reached");
        return Some(refused(14, k));
    }
    if t as u64 + 4 != 2 * v as u64 {
        return Some(refused(15, 0));
    }
    None
}

/// How many triangles are reached over opposites from the gate's; `seen` says which.
fn reach(os: &[u32], gate: u32, seen: &mut [u32], queue: &mut [u32]) -> usize {
    seen.fill(0);
    let start = gate / 3;
    seen[start as usize] = 1;
    queue[0] = start;
    let (mut head, mut tail) = (0, 1);
    while head < tail {
        let c = 3 * queue[head] as usize;
        head += 1;
        for &x in &os[c..c + 3] {
            let k = x / 3;
            if seen[k as usize] == 0 {
                seen[k as usize] = 1;
                queue[tail] = k;
                tail += 1;
            }
        }
    }
    tail
}

/// Rules 8 to 12 and 15 in one sweep: whether none is broken. (Were O[c] = c, then 11 or 12 would be broken. The second
/// half of 11 at c is its first half at O[c].)
fn sweep(vs: &[u32], os: &[u32], v: u32, gate: u32) -> bool {
    let n = vs.len();
    let os = &os[..n];
    if gate as usize >= n || n as u64 / 3 + 4 != 2 * v as u64 {
        return false;
    }
    let mut c = 0;
    for (a, x) in vs.as_chunks::<3>().0.iter().zip(os.as_chunks::<3>().0) {
        let mut fine = a[0] < v && a[1] < v && a[2] < v && a[0] != a[1] && a[1] != a[2] && a[2] != a[0];
        for i in 0..3 {
            let y = x[i] as usize;
            if y >= n {
                return false;
            }
            fine &= os[y] as usize == c + i;
            fine &= a[(i + 1) % 3] == vs[prev(y)];
        }
        if !fine {
            return false;
        }
        c += 3;
    }
    true
}

fn shaped(vs: &[u32], os: &[u32]) -> bool {
    vs.len() == os.len() && vs.len() % 3 == 0 && counted(vs.len() / 3)
}

/// The mesh check. After the sweep the walk tells: with each vertex marked, all triangles visited and t = 2v - 4, no vertex
/// can have two rings, since a closed connected surface of t triangles has at most t / 2 + 2 rings.
pub fn check_mesh(vs: &[u32], os: &[u32], v: u32, gate: u32, work: &mut [u32]) -> Answer {
    if !shaped(vs, os) {
        return refused(1, 0);
    }
    let t = vs.len() / 3;
    if work.len() < 12 * t {
        return refused(2, 0);
    }
    let (steps, rest) = work.split_at_mut(t);
    let accepted = sweep(vs, os, v, gate) && trace(vs, os, v, gate, steps, rest);
    let refusal = if accepted { None } else { mesh_refusal(vs, os, v, gate, work) };
    work.fill(0);
    refusal.unwrap_or(done(t, v))
}

const NAMES: &[u8; 5] = b"CLERS";

/// The walk from the gate, each step as its corner with its letter's place in `NAMES` above bit 18, and whether it
/// visits every triangle and marks every vertex. Then the mesh is accepted, as in `check_mesh`.
fn trace(vs: &[u32], os: &[u32], v: u32, gate: u32, steps: &mut [u32], rest: &mut [u32]) -> bool {
    let n = vs.len();
    let (os, t) = (&os[..n], n / 3);
    let (stack, rest) = rest.split_at_mut(t);
    let (seen, rest) = rest.split_at_mut(t);
    let marks = &mut rest[..v as usize];
    seen.fill(0);
    marks.fill(0);
    let mut c = gate as usize;
    marks[vs[next(c)] as usize] = 1;
    marks[vs[prev(c)] as usize] = 1;
    let (mut waiting, mut marked) = (0, 2);
    for k in 0..t {
        if seen[c / 3] != 0 {
            return false;
        }
        seen[c / 3] = 1;
        let right = os[next(c)] as usize;
        let tip = vs[c] as usize;
        if marks[tip] == 0 {
            marks[tip] = 1;
            marked += 1;
            steps[k] = c as u32;
            c = right;
            continue;
        }
        let left = os[prev(c)] as usize;
        let letter = match (seen[left / 3] != 0, seen[right / 3] != 0) {
            (true, true) => 2,
            (true, false) => 1,
            (false, true) => 3,
            (false, false) => 4,
        };
        steps[k] = c as u32 | letter << 18;
        match letter {
            1 => c = right,
            3 => c = left,
            4 => {
                stack[waiting] = left as u32;
                waiting += 1;
                c = right;
            }
            _ => {
                if waiting == 0 {
                    return k + 1 == t && marked == v;
                }
                waiting -= 1;
                c = stack[waiting] as usize;
            }
        }
    }
    false
}

/// The string and the walk table of a mesh.
pub fn write_string(
    vs: &[u32],
    os: &[u32],
    v: u32,
    gate: u32,
    letters: &mut [u8],
    walk: &mut [u32],
    work: &mut [u32],
) -> Answer {
    if !shaped(vs, os) {
        return refused(1, 0);
    }
    let t = vs.len() / 3;
    if letters.len() < t || walk.len() < t || work.len() < 12 * t {
        return refused(2, 0);
    }
    let (steps, rest) = work.split_at_mut(t);
    let accepted = sweep(vs, os, v, gate) && trace(vs, os, v, gate, steps, rest);
    let mut refusal = None;
    if accepted {
        for ((step, letter), corner) in steps.iter().zip(letters).zip(walk) {
            *letter = NAMES[(step >> 18) as usize];
            *corner = step & 0x3ffff;
        }
    } else {
        refusal = mesh_refusal(vs, os, v, gate, work);
        assert!(refusal.is_some(), "a mesh is walked or refused");
    }
    work.fill(0);
    refusal.unwrap_or(done(t, v))
}

// ---------------------------------------------------------------------------------------------------------- records

/// A decimal number of 1 to 7 digits without a leading zero, except 0 itself.
fn decimal(text: &[u8]) -> Option<u32> {
    let digits = (1..=7).contains(&text.len()) && text.iter().all(u8::is_ascii_digit);
    if !digits || (text.len() > 1 && text[0] == b'0') {
        return None;
    }
    Some(text.iter().fold(0, |n, d| 10 * n + (d - b'0') as u32))
}

/// Takes the line from the front of `rest` and gives what follows `key` in it, without its byte 10.
fn line<'a>(rest: &mut &'a [u8], key: &[u8]) -> Option<&'a [u8]> {
    let end = rest.iter().position(|&b| b == 10)?;
    let value = rest[..end].strip_prefix(key)?;
    *rest = &rest[end + 1..];
    Some(value)
}

/// Tables from a record.
pub fn read_record(record: &[u8], vs: &mut [u32], os: &mut [u32], work: &mut [u32]) -> Answer {
    let mut rest = record;
    let Some(form) = line(&mut rest, b"form=").and_then(decimal) else { return refused(16, 0) };
    let Some(tri) = line(&mut rest, b"tri=").and_then(decimal) else { return refused(16, 1) };
    let Some(gate) = line(&mut rest, b"gate=").and_then(decimal) else { return refused(16, 2) };
    let Some(s) = line(&mut rest, b"sym=") else { return refused(16, 3) };
    if !rest.is_empty() {
        return refused(16, 4);
    }
    if form != 1 {
        return refused(17, 0);
    }
    let t = tri as usize;
    if !counted(t) {
        return refused(1, 0);
    }
    if gate >= 3 * tri {
        return refused(8, 0);
    }
    if s.len() != t {
        return refused(18, 0);
    }
    if vs.len() < 3 * t || os.len() < 3 * t || work.len() < 12 * t {
        return refused(2, 0);
    }
    let answer = read_letters(s, vs, os, work);
    if answer.number == 0 { Answer { gate, ..answer } } else { answer }
}

/// The digits of a number, in the end of a small buffer.
fn digits(mut n: u32, room: &mut [u8; 10]) -> &[u8] {
    let mut i = 10;
    loop {
        i -= 1;
        room[i] = b'0' + (n % 10) as u8;
        n /= 10;
        if n == 0 {
            return &room[i..];
        }
    }
}

/// A record from a string and a gate.
pub fn write_record(s: &[u8], gate: u32, text: &mut [u8], work: &mut [u32]) -> Answer {
    let t = s.len();
    if !counted(t) {
        return refused(1, 0);
    }
    if gate as usize >= 3 * t {
        return refused(8, 0);
    }
    let (mut a, mut b) = ([0; 10], [0; 10]);
    let (tri, from) = (digits(t as u32, &mut a), digits(gate, &mut b));
    let parts: [&[u8]; 7] = [b"form=1\ntri=", tri, b"\ngate=", from, b"\nsym=", s, b"\n"];
    let length = parts.iter().map(|part| part.len()).sum();
    if text.len() < length || work.len() < 12 * t {
        return refused(2, 0);
    }
    let refusal = if closes(s, work) { None } else { string_refusal(s, work) };
    work.fill(0);
    if let Some(answer) = refusal {
        return answer;
    }
    let mut at = 0;
    for part in parts {
        text[at..at + part.len()].copy_from_slice(part);
        at += part.len();
    }
    Answer { length: length as u32, ..done(t, t as u32 / 2 + 2) }
}
