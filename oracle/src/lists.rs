//! List files: those on both sides of every boundary, and random ones.

use crate::document::{LONGEST_BODY, MOST_ENTRIES, licensee};
use crate::pieces::{ADDITION_REFS, LICENSE_REFS, WHITE, encoded, exceptions, licences};
use crate::random::Random;
use crate::texts::damaged;

pub type File = Vec<u8>;

/// The file of these bodies, whatever they hold.
pub fn file<B: AsRef<[u8]>>(bodies: &[B]) -> File {
    let mut file = vec![bodies.len() as u8];
    let mut offset = 1 + 4 * bodies.len();
    for body in bodies {
        let length = body.as_ref().len();
        file.extend((offset as u16).to_le_bytes());
        file.extend((length as u16).to_le_bytes());
        offset += length;
    }
    for body in bodies {
        file.extend(body.as_ref());
    }
    file
}

pub fn boundaries() -> Vec<File> {
    let mut files = vec![vec![], vec![0], vec![0, 0], file(&["MIT"])];
    files.extend(counts());
    files.extend(lengths());
    files.extend(broken(&file(&["MIT", "ISC WITH LLVM-exception"])));
    for body in bodies() {
        files.push(file(&[&body]));
        files.push(file(&[b"MIT", &body[..]]));
        files.push(file(&[&body[..], b"MIT"]));
    }
    files
}

fn counts() -> Vec<File> {
    let mut files = Vec::new();
    for count in [1, 2, MOST_ENTRIES - 1, MOST_ENTRIES, MOST_ENTRIES + 1, 255] {
        let whole = file(&vec!["MIT"; count]);
        let contents = 1 + 4 * count;
        files.extend([&whole[..], &whole[..1], &whole[..contents - 1], &whole[..contents]].map(<[u8]>::to_vec));
        files.push([&whole[..], b"M"].concat());
    }
    files.push(file(&vec![vec![b' '; LONGEST_BODY - 3].into_iter().chain(*b"MIT").collect::<File>(); MOST_ENTRIES]));
    files
}

fn lengths() -> Vec<File> {
    let mut files = Vec::new();
    for length in [0, 1, 2, 3, LONGEST_BODY - 1, LONGEST_BODY, LONGEST_BODY + 1, 256, 1_025] {
        let reference: File = b"LicenseRef-".iter().copied().chain(std::iter::repeat(b'a')).take(length).collect();
        let padded: File = b"MIT".iter().copied().chain(std::iter::repeat(b' ')).take(length).collect();
        files.extend([file(&[&reference]), file(&[&padded]), file(&[b"MIT", &padded[..]])]);
    }
    files
}

/// The file cut at every place, with bytes after it, with every byte changed, and with its entries in the other order.
fn broken(whole: &[u8]) -> Vec<File> {
    let mut files: Vec<File> = (0..whole.len()).map(|end| whole[..end].to_vec()).collect();
    files.push([whole, b" "].concat());
    files.push([whole, whole].concat());
    for place in 0..whole.len() {
        for change in [1, 0xff, 0x80, 0x20] {
            let mut changed = whole.to_vec();
            changed[place] = changed[place].wrapping_add(change);
            files.push(changed);
        }
    }
    let mut swapped = whole.to_vec();
    swapped[1..9].rotate_left(4);
    files.push(swapped);
    files
}

/// Bodies that are and are not STRICT text of one licence, optionally WITH an addition.
fn bodies() -> Vec<File> {
    let mut bodies: Vec<File> = [
        " MIT",
        "MIT ",
        "\tMIT\u{3000}",
        "MIT with LLVM-exception",
        "MIT  WITH\u{a0}LLVM-exception ",
        "MIT+",
        "MIT +",
        "(MIT)",
        "MIT)",
        "(",
        "+",
        " ",
        "\u{2003}",
        "mit",
        "apache2",
        "foo",
        "MIT WITH foo",
        "MIT WITH",
        "MIT WITH MIT",
        "MIT WITH WITH",
        "WITH LLVM-exception",
        "LLVM-exception",
        "AdditionRef-a",
        "MIT ISC",
        "MIT AND ISC",
        "MIT OR",
        "MIT/ISC",
        "MIT WITH LLVM-exception )",
        "MIT WITH LLVM-exception MIT",
        "MIT WITH LLVM-exception WITH LLVM-exception",
        "MIT WITH LLVM-exception +",
        "MIT WITH LLVM-exception+",
        "MIT WITH LLVM-exception \u{e9}",
        "MIT \u{e9}",
        "MITISC",
        "MIT:",
        "LicenseRef-a:b",
        "LicenseRef-a :",
        "DocumentRef-a",
        "DocumentRef-a:LicenseRef-b:c",
        "MIT Or ISC",
        "GPL-2.0+",
        "GPL-2.0-only+",
    ]
    .map(|body| body.as_bytes().to_vec())
    .to_vec();
    bodies.extend(
        [&b"\xff"[..], b"MIT\xff", b"MIT \xc3", b"\x80MIT", b"MIT WITH LLVM-exception \xed\xa0\x80"]
            .map(<[u8]>::to_vec),
    );
    bodies.extend(licences().chain(LICENSE_REFS).map(|name| name.as_bytes().to_vec()));
    bodies.extend(exceptions().chain(ADDITION_REFS).map(|name| format!("ISC WITH {name}").into_bytes()));
    bodies
}

/// Mostly valid, else with a wrong body or damaged bytes.
pub fn random(random: &mut Random) -> File {
    let pool = bodies();
    let pool: Vec<&[u8]> = pool.iter().map(Vec::as_slice).collect();
    let good: Vec<&[u8]> = pool.iter().copied().filter(|body| licensee(body).is_some()).collect();
    let count = if random.one_in(20) { 60 + random.below(6) } else { random.below(6) };
    let mut chosen = Vec::new();
    for _ in 0..count {
        let body = random.pick(&good);
        chosen.push(padded(random, body));
    }
    if count > 0 && random.one_in(3) {
        let place = random.below(count);
        chosen[place] = random.pick(&pool).to_vec();
    }
    let file = file(&chosen);
    if random.one_in(4) { damaged(random, file) } else { file }
}

/// The body with white space round it now and then.
pub fn padded(random: &mut Random, body: &[u8]) -> File {
    let mut padding = || if random.one_in(6) { encoded(random.pick(&WHITE)) } else { Vec::new() };
    [&padding()[..], body, &padding()[..]].concat()
}
