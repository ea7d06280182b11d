//! The proved types, lengths, formats and frame against the second program, or exact sums in plain Rust.
//! The seed is fixed; `SEED=n` takes another. Each test prints how often each answer occurred.

use against::tally::{hex, rounds, seed, yes_or_no, Tally};
use against::{Place, Ruling};
use second::frame::SIZE_LIMIT;
use second::generate::rng::Rng;
use second::generate::Generator;
use second::judge::{Component, Judge, Object, RANK_LIMIT};
use second::layout::{Layout, LONG_NAMES};
use second::types::{self, Format, DTYPES, LISTED, U64};

const ROUNDS: u64 = rounds(400_000);

/// The places of a map's fields, those of every layout: a layout knows some of them.
const ROOT: [&str; 3] = ["version", "attributes", "objects"];
const FIRST_ROOT: [&str; 3] = ["version", "attributes", "tensors"];
const OBJECT: [&str; 5] = ["dtype", "shape", "format", "attributes", "components"];
const COMPONENT: [&str; 7] = [
    "dtype",
    "type",
    "offset",
    "length",
    "uncompressed_length",
    "encoding",
    "digest",
];
const FORMATS: [&str; 4] = ["dense", "sparse_csr", "sparse_coo", "quantized_group"];
const ROLES: [&str; 8] = [
    "data",
    "values",
    "indices",
    "indptr",
    "coords",
    "packed_weight",
    "scales",
    "zeros",
];

/// The place of a text in a list, the list's length for none.
fn position(names: &[&str], text: &[u8]) -> usize {
    let found = names.iter().position(|name| name.as_bytes() == text);
    found.unwrap_or(names.len())
}

/// The place of a field that a layout knows, the number of places for any other text.
fn place_of(places: &[&str], known: &[&str], text: &[u8]) -> usize {
    match position(known, text) < known.len() {
        true => position(places, text),
        false => places.len(),
    }
}

/// Either layout's number; every number but 1 is 1.2.0, also one that is 1 in its low bits.
fn layout(rng: &mut Rng) -> u64 {
    let bit = 1 << (1 + rng.below(63));
    *rng.pick(&[0, 1, 1, 2, 1 | bit, u64::MAX])
}

/// A known name; often one byte changed or more, cut, longer, or in the other case.
fn like(rng: &mut Rng, generator: &mut Generator, names: &[&str]) -> Vec<u8> {
    let mut text = rng.pick(names).as_bytes().to_vec();
    let flip = 1 << rng.below(8);
    match rng.index(8) {
        0 => generator.damage(&mut text),
        1 => *rng.pick_mut(&mut text).unwrap() ^= flip,
        2 => *rng.pick_mut(&mut text).unwrap() ^= 0x20,
        3 => text.make_ascii_uppercase(),
        4 => text.push(*rng.pick(&[0, 1, b' ', b's'])),
        5 => text.extend(rng.pick(names).as_bytes()),
        _ => {}
    }
    text
}

/// A code, or one that is the same in its low bits.
fn code(rng: &mut Rng) -> u64 {
    let code = rng.below(16);
    match rng.index(3) {
        0 => code | 1 << rng.below(64),
        _ => code,
    }
}

#[test]
fn names() {
    let dtypes = DTYPES.map(|(name, _)| name);
    let logicals = LISTED.map(|listed| listed.name);
    let all: [&[&str]; 9] = [
        &["raw"],
        &ROOT,
        &FIRST_ROOT,
        &OBJECT,
        &COMPONENT,
        &dtypes,
        &LONG_NAMES,
        &FORMATS,
        &ROLES,
    ];
    let all = [all.concat(), logicals.to_vec()].concat();
    let mut keys = ["root key", "object key", "component key"].map(Tally::of);
    let mut raw = Tally::of("raw");
    let mut dtype = Tally::of("dtype");
    let mut logical = Tally::of("type: needs, ratio");
    let mut format = Tally::of("format");
    let mut role = Tally::of("role");
    let mut generator = Generator::new(seed());
    let mut rng = Rng::new(!seed());
    for _ in 0..ROUNDS {
        let text = like(&mut rng, &mut generator, &all);
        let shown = || hex(&text);

        let number = layout(&mut rng);
        let of = Layout::of(number);
        let in_layout = |code: usize| format!("{of:?} {code}");
        let proved = [
            against::root_key(number, &text),
            against::object_key(number, &text),
            against::component_key(number, &text),
        ];
        let [root, _, object, _, component] = of.fields();
        let names: [(&[&str], &[&str]); 3] = [
            (if of == Layout::First { &FIRST_ROOT } else { &ROOT }, root),
            (&OBJECT, object),
            (&COMPONENT, component),
        ];
        for (at, tally) in keys.iter_mut().enumerate() {
            let second = place_of(names[at].0, names[at].1, &text);
            tally.compare(in_layout(second), proved[at], second, shown);
        }

        let second = text == b"raw";
        raw.compare(yes_or_no(second), against::is_raw(&text), second, shown);

        let second = match of {
            Layout::Current => position(&dtypes, &text),
            Layout::First => position(&LONG_NAMES, &text),
        };
        dtype.compare(in_layout(second), against::dtype_code(number, &text), second as u64, shown);

        let listed = types::listed_type(&text);
        let code = code(&mut rng);
        let fits = listed.is_none_or(|listed| listed.dtype as u64 == code);
        let ratio = listed.map_or(0, |listed| listed.ratio);
        let name = listed.map_or("other", |listed| listed.name);
        let proved = (against::type_fits(&text, code), against::ratio_of(&text));
        let label = format!("{name} {} {ratio}", yes_or_no(fits));
        logical.compare(label, proved, (fits, ratio), || {
            format!("{} over {code}", hex(&text))
        });

        let second = Format::of(&text) as u64;
        format.compare(second, against::format_code(&text), second, shown);

        let second = position(&ROLES, &text) as u64;
        role.compare(second, against::role_code(&text), second, shown);
    }
    // In each layout the names that it has, and none.
    for (tally, kinds) in keys.iter().zip([4 + 4, 5 + 5, 8 + 5]) {
        tally.report(kinds);
    }
    raw.report(2);
    dtype.report(2 * 14);
    logical.report(13);
    format.report(5);
    role.report(9);
}

#[test]
fn width() {
    let mut tally = Tally::of("width");
    let mut rng = Rng::new(seed());
    for _ in 0..ROUNDS {
        let code = code(&mut rng);
        let known = DTYPES.get(code as usize);
        let (name, second) = known.copied().unwrap_or(("none", 0));
        tally.compare(name, against::width_of(code), second, || code.to_string());
    }
    tally.report(14);
}

/// A number of any size, often near one where something could wrap.
fn number(rng: &mut Rng) -> u64 {
    let base = *rng.pick(&[0, 0, 8, 1 << 32, 1 << 61, 1 << 63, u64::MAX]);
    match rng.index(3) {
        0 => rng.any_size(),
        1 => rng.below(20),
        _ => near(rng, base),
    }
}

/// The number itself, mostly, or one close to it.
fn near(rng: &mut Rng, number: u64) -> u64 {
    let close = number.wrapping_add(rng.below(5)).wrapping_sub(2);
    *rng.pick(&[number, number, close])
}

/// Whether n is as the second program wants it; where not, whether it is what wrapped sums would give.
fn label(n: u64, wanted: u128) -> &'static str {
    match u128::from(n) == wanted {
        true => "yes",
        false if n == wanted as u64 => "no, wrapped",
        false => "no",
    }
}

#[test]
fn products() {
    let mut product = Tally::of("product");
    let mut pointers = Tally::of("row pointers");
    let mut coordinates = Tally::of("coordinates");
    let mut rng = Rng::new(seed());
    for _ in 0..ROUNDS {
        let a = number(&mut rng);
        // Its quotients are where a product begins to be too large.
        let quotient = u64::MAX / a.max(1);
        let pair = [number(&mut rng), near(&mut rng, quotient)];
        let b = *rng.pick(&pair);

        let n = near(&mut rng, a.wrapping_mul(b));
        let wanted = types::product(&[a, b]);
        let proved = against::is_product(n, a, b);
        product.compare(label(n, wanted), proved, u128::from(n) == wanted, || {
            format!("{n}: {a} × {b}")
        });

        let n = near(&mut rng, a.wrapping_add(1).wrapping_mul(8));
        let wanted = 8 * (u128::from(a) + 1);
        let proved = against::pointer_length(n, a);
        pointers.compare(label(n, wanted), proved, u128::from(n) == wanted, || {
            format!("{n}: {a} rows")
        });

        let n = near(&mut rng, a.wrapping_mul(b).wrapping_mul(8));
        let wanted = types::product(&[8, a, b]);
        let proved = against::coordinate_length(n, a, b);
        coordinates.compare(label(n, wanted), proved, u128::from(n) == wanted, || {
            format!("{n}: rank {a}, {b} elements")
        });
    }
    product.report(3);
    pointers.report(3);
    coordinates.report(3);
}

#[test]
fn quotients() {
    let mut tally = Tally::of("whole elements");
    let mut rng = Rng::new(seed());
    for _ in 0..ROUNDS {
        let unit = number(&mut rng);
        let exact = unit.wrapping_mul(number(&mut rng));
        let n = near(&mut rng, exact);
        // As in the definitions, n / 0 is 0 and n % 0 is n.
        let rest = n.checked_rem(unit).unwrap_or(n);
        let second = (rest == 0, n.checked_div(unit).unwrap_or(0));
        let proved = (against::is_whole(n, unit), against::count_of(n, unit));
        let of = if unit == 0 { " of 0" } else { "" };
        let label = format!("{}{of}", yes_or_no(second.0));
        tally.compare(label, proved, second, || format!("{n} by {unit}"));
    }
    tally.report(4);
}

fn shape(rng: &mut Rng, rank: usize) -> Vec<u64> {
    let large = rng.one_in(4);
    let dimension = |_| match large {
        true => number(rng),
        false => rng.below(9),
    };
    (0..rank).map(dimension).collect()
}

fn wrapped(factors: &[u64]) -> u64 {
    factors.iter().fold(1, |all, &n| u64::wrapping_mul(all, n))
}

#[test]
fn dense() {
    let mut tally = Tally::of("dense length");
    let mut rng = Rng::new(seed());
    for _ in 0..ROUNDS {
        let rank = rng.index(RANK_LIMIT + 1);
        let mut shape = shape(&mut rng, rank);
        if rng.one_in(8) {
            shape.push(0);
        }
        let any = number(&mut rng);
        let unit = *rng.pick(&[1, 2, 4, 8, 16, any]);
        let exact = wrapped(&shape).wrapping_mul(unit);
        let n = near(&mut rng, exact);
        let wanted = types::product(&shape).saturating_mul(u128::from(unit));
        let zero = shape.iter().position(|&n| n == 0).unwrap_or(0);
        let grown = types::product(&shape[..zero]).saturating_mul(u128::from(unit));
        let label = match label(n, wanted) {
            "yes" if grown > u128::from(u64::MAX) => "yes, 0 after too much",
            label => label,
        };
        let proved = against::dense_length(n, &shape, unit);
        tally.compare(label, proved, u128::from(n) == wanted, || {
            format!("{n}: {shape:?} of {unit}")
        });
    }
    tally.report(4);
}

#[test]
fn place() {
    let mut tally = Tally::of("place");
    let mut rng = Rng::new(seed());
    for _ in 0..ROUNDS {
        let aligned = number(&mut rng) & !63;
        let offset = match rng.index(4) {
            0 => aligned ^ 1 << rng.below(7),
            _ => aligned,
        };
        let length = number(&mut rng);
        let end = near(&mut rng, offset.wrapping_add(length));
        let starts = [end, end, number(&mut rng)];
        let start = *rng.pick(&starts);
        let judge = Judge {
            bytes: &[],
            manifest_start: start,
        };
        let second = judge.placed(offset, length).err().map_or(0, u64::from);
        let inside = offset.wrapping_add(length) <= start;
        let label = match second {
            20 if offset < 64 => "20, under 64",
            20 if inside => "20, wrapped",
            20 => "20",
            19 => "19",
            _ => "right",
        };
        let proved = against::place(start, offset, length);
        tally.compare(label, proved, second, || {
            format!("{length} at {offset}, manifest at {start}")
        });
    }
    tally.report(5);
}

/// A component, as the format's rules see it.
#[derive(Clone, Debug)]
struct Part {
    role: &'static str,
    dtype: usize,
    logical: Option<&'static str>,
    length: u64,
}

impl Part {
    /// With any types.
    fn any(rng: &mut Rng, role: &'static str, length: u64) -> Part {
        let listed = LISTED[rng.index(LISTED.len())].name;
        Part {
            role,
            dtype: rng.index(DTYPES.len()),
            logical: *rng.pick(&[None, None, Some(listed), Some("")]),
            length,
        }
    }

    fn plain(role: &'static str, length: u64) -> Part {
        Part {
            role,
            dtype: U64,
            logical: None,
            length,
        }
    }

    /// With so many elements.
    fn of(self, count: u64) -> Part {
        let unit = types::element_bytes(self.dtype, self.logical.map(str::as_bytes));
        let unit = unit.unwrap_or(DTYPES[self.dtype].1);
        Part {
            length: unit.wrapping_mul(count),
            ..self
        }
    }

    fn row(&self) -> [u64; 4] {
        let width = against::width_of(self.dtype as u64);
        let unit = match self.logical.map(|text| against::ratio_of(text.as_bytes())) {
            None => width,
            // No ratio: elements aren't counted.
            Some(0) => 256 + width,
            Some(ratio) => ratio * width,
        };
        let plain = self.dtype == U64 && self.logical.is_none();
        [
            against::role_code(self.role.as_bytes()),
            unit,
            plain.into(),
            self.length,
        ]
    }
}

/// The parts that a format asks for, as it asks for them where nothing wraps.
fn sound(rng: &mut Rng, format: &str, shape: &[u64]) -> Vec<Part> {
    let count = match rng.one_in(8) {
        true => number(rng),
        false => rng.below(20),
    };
    let values = Part::any(rng, "values", 0).of(count);
    match format {
        "dense" => vec![Part::any(rng, "data", 0).of(wrapped(shape))],
        "sparse_csr" => {
            let rows = shape.first().map_or(0, |rows| rows.wrapping_add(1));
            vec![
                values,
                Part::plain("indices", count.wrapping_mul(8)),
                Part::plain("indptr", rows.wrapping_mul(8)),
            ]
        }
        "sparse_coo" => {
            let each = 8 * shape.len() as u64;
            vec![values, Part::plain("coords", count.wrapping_mul(each))]
        }
        "quantized_group" => ["packed_weight", "scales", "zeros"]
            .map(|role| Part::any(rng, role, 7))
            .to_vec(),
        _ => Vec::new(),
    }
}

/// Changes one part's type, presence or length, or nothing.
fn spoil(rng: &mut Rng, parts: &mut Vec<Part>) {
    if parts.is_empty() {
        return;
    }
    let at = rng.index(parts.len());
    let part = &mut parts[at];
    match rng.index(8) {
        0 => {
            parts.remove(at);
        }
        1 => part.logical = Some("u64"),
        2 => part.dtype = rng.index(DTYPES.len()),
        3 => part.length = near(rng, part.length),
        4 => part.length = part.length.wrapping_add(*rng.pick(&[8, 16, 1 << 32])),
        _ => {}
    }
}

/// The second program's ruling, on an object whose texts stand one after the other.
fn second_rules(format: &str, shape: &[u64], parts: &[Part]) -> Ruling {
    let mut bytes = Vec::new();
    let mut span = |text: &str| {
        let start = bytes.len();
        bytes.extend(text.bytes());
        start..bytes.len()
    };
    let object = Object {
        name: 0..0,
        shape: shape.to_vec(),
        format: span(format),
        attributes: None,
        components: parts
            .iter()
            .map(|part| Component {
                name: span(part.role),
                dtype: part.dtype,
                logical: part.logical.map(&mut span),
                offset: 0,
                length: part.length,
                digest: None,
                entry: 0..0,
            })
            .collect(),
    };
    let judge = Judge {
        bytes: &bytes,
        manifest_start: 0,
    };
    let (number, component) = judge.format_rules(&object).err().unwrap_or((0, 0));
    Ruling {
        number: number.into(),
        component,
    }
}

#[test]
fn formats() {
    let mut tally = Tally::of("format's rules");
    let mut rng = Rng::new(seed());
    for _ in 0..ROUNDS {
        let format = *rng.pick(&[
            "dense",
            "sparse_csr",
            "sparse_coo",
            "quantized_group",
            "Dense",
        ]);
        let rank = match format == "sparse_csr" && !rng.one_in(8) {
            true => 2,
            false => rng.index(RANK_LIMIT + 1),
        };
        let shape = shape(&mut rng, rank);
        let mut parts = sound(&mut rng, format, &shape);
        spoil(&mut rng, &mut parts);
        // Further roles and repeated ones, which stand before or after.
        for _ in 0..rng.index(4) {
            let known = *rng.pick(&ROLES);
            let role = *rng.pick(&[known, "bias"]);
            parts.push(Part::any(&mut rng, role, 8));
        }
        if rng.one_in(2) {
            rng.shuffle(&mut parts);
        }

        let second = second_rules(format, &shape, &parts);
        let rows: Vec<[u64; 4]> = parts.iter().map(Part::row).collect();
        let proved = against::judge(against::format_code(format.as_bytes()), &shape, &rows);
        let later = if second.component > 0 { " later" } else { "" };
        let label = format!("{format} {}{later}", second.number);
        tally.compare(label, proved, second, || {
            format!("{format} {shape:?} {parts:?}")
        });
    }
    tally.report(18);
}

fn compare_frame(tally: &mut Tally, number: u64, file: &[u8]) {
    let of = Layout::of(number);
    let (label, second) = match of.manifest_range(file) {
        Ok(range) => (
            format!("{of:?} framed"),
            Place {
                number: 0,
                start: range.start,
                size: range.len(),
            },
        ),
        Err(number) => (
            format!("{of:?} {number}"),
            Place {
                number: number.into(),
                start: 0,
                size: 0,
            },
        ),
    };
    tally.compare(label, against::frame(number, file), second, || {
        let ends = &file[..file.len().min(8)];
        let last = &file[file.len().saturating_sub(16)..];
        format!("{} .. {}, {} bytes", hex(ends), hex(last), file.len())
    });
}

#[test]
fn frame() {
    let mut tally = Tally::of("frame");
    let mut generator = Generator::new(seed());
    let mut rng = Rng::new(!seed());
    for _ in 0..ROUNDS {
        let number_of_layout = layout(&mut rng);
        let of = Layout::of(number_of_layout);
        let mut file = of.assemble(&rng.bytes(9), &rng.bytes(40));
        let most = (file.len() - of.frame()) as u64;
        let any = number(&mut rng);
        let close = [most, SIZE_LIMIT, 1, most | 1 << 32];
        let close = *rng.pick(&close);
        match rng.index(4) {
            0 => of.set_size(&mut file, near(&mut rng, close)),
            1 => of.set_size(&mut file, any),
            2 => generator.damage(&mut file),
            _ => {}
        }
        compare_frame(&mut tally, number_of_layout, &file);
    }
    // Files as long as the largest manifest asks for, and one byte either way.
    for of in Layout::ALL {
        for length in [SIZE_LIMIT - 1, SIZE_LIMIT, SIZE_LIMIT + 1] {
            let mut file = of.assemble(&[], &vec![0; length as usize]);
            for size in [SIZE_LIMIT - 1, SIZE_LIMIT, SIZE_LIMIT + 1] {
                of.set_size(&mut file, size);
                compare_frame(&mut tally, of.number(), &file);
            }
        }
    }
    // 1.0 has no FOOTER.
    tally.report(6 + 5);
}
