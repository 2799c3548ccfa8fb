//! Counts what is equal and what differs, and keeps the first difference to be looked at.

/// Cases of one program, and the line that the text answers for each.
#[derive(Clone, Copy)]
pub struct Batch<'a> {
    pub input: &'a [u8],
    /// Where each case starts in the input.
    pub starts: &'a [usize],
    pub answers: &'a str,
}

impl Batch<'_> {
    fn bytes(&self, place: usize) -> &[u8] {
        let end = self.starts.get(place + 1).copied();
        &self.input[self.starts[place]..end.unwrap_or(self.input.len())]
    }
}

/// A case whose lines differ.
struct Difference {
    case: usize,
    expected: String,
    found: String,
    input: Vec<u8>,
}

/// What was found of a call so far.
#[derive(Default)]
pub struct Tally {
    pub cases: usize,
    pub different: usize,
    /// The largest gap between two floats that differ.
    gap: f64,
    /// How many cases differ in what has no gap, as a checksum or a rank.
    unmeasured: usize,
    first: Option<Difference>,
}

/// The float that a word of a line stands for: sixteen digits, which no number has, or a NaN.
fn float(word: &str) -> Option<f64> {
    match word {
        "nan" => Some(f64::NAN),
        _ if word.len() == 16 => u64::from_str_radix(word, 16).map(f64::from_bits).ok(),
        _ => None,
    }
}

/// How far apart two words are that differ; a NaN is infinitely far from all else.
fn word_gap(one: &str, other: &str) -> Option<f64> {
    let gap = (float(one)? - float(other)?).abs();
    Some(if gap.is_nan() { f64::INFINITY } else { gap })
}

/// The largest gap between two lines, if they differ in floats only.
fn line_gap(one: &str, other: &str) -> Option<f64> {
    let (ones, others) = (one.split(' '), other.split(' '));
    if ones.clone().count() != others.clone().count() {
        return None;
    }
    ones.zip(others)
        .filter(|(one, other)| one != other)
        .try_fold(0.0, |gap: f64, (one, other)| {
            Some(gap.max(word_gap(one, other)?))
        })
}

impl Tally {
    /// Adds the cases of a batch, of which the program found these lines.
    pub fn add(&mut self, batch: Batch, found: &str) -> Result<(), String> {
        let mut lines = found.lines();
        for (place, expected) in batch.answers.lines().enumerate() {
            self.cases += 1;
            let found = lines.next().unwrap_or("no line");
            if expected != found {
                self.differ(expected, found, batch.bytes(place));
            }
        }
        match lines.next() {
            None => Ok(()),
            Some(line) => Err(format!("a line too many: {line}")),
        }
    }

    fn differ(&mut self, expected: &str, found: &str, input: &[u8]) {
        self.different += 1;
        match line_gap(expected, found) {
            Some(gap) => self.gap = self.gap.max(gap),
            None => self.unmeasured += 1,
        }
        let case = self.cases;
        self.first.get_or_insert_with(|| Difference {
            case,
            expected: expected.to_owned(),
            found: found.to_owned(),
            input: input.to_vec(),
        });
    }

    /// Prints the line of a call, and its first difference with the bytes that ask for it again.
    /// Cases are counted from 1.
    pub fn print(&self, name: &str) {
        let (cases, different) = (self.cases, self.different);
        let equal = cases - different;
        let gap = match self.gap {
            0.0 => String::from("0"),
            gap => format!("{gap:e}"),
        };
        let rest = match self.unmeasured {
            0 => String::new(),
            count => format!(", and {count} with no gap to measure"),
        };
        println!(
            "{name}: {cases} cases, {equal} equal, {different} different, largest gap {gap}{rest}"
        );
        if let Some(first) = &self.first {
            let digits = first.input.iter().map(|byte| format!("{byte:02x}"));
            println!("  case {}", first.case);
            println!("    expected: {}", first.expected);
            println!("    found:    {}", first.found);
            println!("    input:    {}", digits.collect::<String>());
        }
    }
}
